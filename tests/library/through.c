/* Sees that the library reads and writes every field where wikulambag.h has it: a state with another number in
 * each field is sound, no longer so once any one of them is spoilt, and handed back as it came; what setup and
 * arrivals make is the same state; and each number of each answer is where its name stands. */
#include "wikulambag.h"

#include <stdio.h>
#include <string.h>

static int seen, wrong;

static void see(bool holds, const char *what, size_t f, size_t k)
{
    seen++;
    if (holds) return;
    wrong++;
    printf("through.c: %s, flow %zu, cell %zu\n", what, f, k);
}

static bool same(struct wikulambag_state a, struct wikulambag_state b)
{
    return a.table.n == b.table.n && a.table.overhead == b.table.overhead
        && memcmp(a.table.quanta, b.table.quanta, sizeof a.table.quanta) == 0
        && memcmp(a.table.maxima, b.table.maxima, sizeof a.table.maxima) == 0
        && memcmp(a.line.deficits, b.line.deficits, sizeof a.line.deficits) == 0
        && memcmp(a.line.counts, b.line.counts, sizeof a.line.counts) == 0
        && memcmp(a.line.sums, b.line.sums, sizeof a.line.sums) == 0
        && a.line.place == b.line.place && a.line.opened == b.line.opened
        && memcmp(a.line.rows, b.line.rows, sizeof a.line.rows) == 0;
}

static uint32_t length_of(size_t f, size_t k)
{
    return (uint32_t)(200 + 32 * f + k);
}

/* sixteen flows; flow f has f + 1 packets waiting */
static struct wikulambag_state waiting(void)
{
    struct wikulambag_state s;
    memset(&s, 0, sizeof s);
    s.table.n = 16;
    s.table.overhead = 20;
    s.line.place = 15;
    for (size_t f = 0; f < 16; f++) {
        s.table.quanta[f] = (uint32_t)(1000 + f);
        s.table.maxima[f] = (uint32_t)(9000 + f);
        s.line.counts[f] = (uint8_t)(f + 1);
        for (size_t k = 0; k <= f; k++) {
            s.line.rows[f].lengths[k] = (uint16_t)length_of(f, k);
            s.line.sums[f] += length_of(f, k);
        }
    }
    return s;
}

/* the same with credit, and a visit to flow 5 open, whose credit is enough for its oldest packet */
static struct wikulambag_state visited(void)
{
    struct wikulambag_state s = waiting();
    for (size_t f = 0; f < 16; f++) s.line.deficits[f] = (uint32_t)(10 + f);
    s.line.place = 5;
    s.line.opened = true;
    s.line.deficits[5] = 500;
    return s;
}

static void spoilt(struct wikulambag_state s, const char *what, size_t f, size_t k)
{
    see(!wikulambag_sound(s), what, f, k);
    struct wikulambag_arrival_result arrived = wikulambag_arrival(s, 0, 1);
    see(arrived.refusal == WIKULAMBAG_NOT_SOUND && same(arrived.state, s), what, f, k);
}

static void each_field_spoilt(void)
{
    struct wikulambag_state good = visited(), s;
    see(wikulambag_sound(good), "the state as it is", 0, 0);
    s = good, s.table.n = 15, spoilt(s, "n", 0, 0);
    s = good, s.table.overhead = 65, spoilt(s, "overhead", 0, 0);
    s = good, s.line.place = 16, spoilt(s, "place", 0, 0);
    s = good, s.line.opened = false, spoilt(s, "opened", 0, 0);
    for (size_t f = 0; f < 16; f++) {
        s = good, s.table.quanta[f] = 0, spoilt(s, "quanta", f, 0);
        s = good, s.table.maxima[f] = 1, spoilt(s, "maxima", f, 0);
        s = good, s.line.deficits[f] = 2000, spoilt(s, "deficits", f, 0);
        s = good, s.line.counts[f]++, spoilt(s, "counts", f, 0);
        s = good, s.line.sums[f]++, spoilt(s, "sums", f, 1);
        s = good, s.line.sums[f]--, spoilt(s, "sums", f, 2);
        /* a waiting length with its sum, so that the length alone is wrong */
        for (size_t k = 0; k <= f; k++) {
            s = good, s.line.rows[f].lengths[k] = 9999, s.line.sums[f] += 9999 - length_of(f, k);
            spoilt(s, "lengths", f, k);
        }
        for (size_t k = f + 1; k < 32; k++) s = good, s.line.rows[f].lengths[k] = 1, spoilt(s, "lengths", f, k);
    }
}

static void made_by_calls(void)
{
    struct wikulambag_flow_list list = {.count = 16};
    for (size_t f = 0; f < 16; f++)
        list.records[f] = (struct wikulambag_flow_record){(uint32_t)(1000 + f), (uint32_t)(9000 + f)};
    struct wikulambag_terms terms = {.overhead = 20};
    struct wikulambag_setup_result made = wikulambag_setup(list, terms);
    see(made.refusal == 0 && made.place == 0, "setup", 0, 0);
    struct wikulambag_state s = made.state;
    for (size_t f = 0; f < 16; f++) {
        for (size_t k = 0; k <= f; k++) {
            struct wikulambag_arrival_result arrived = wikulambag_arrival(s, f, length_of(f, k));
            see(arrived.refusal == 0, "arrival", f, k);
            s = arrived.state;
        }
    }
    see(same(s, waiting()), "the state that calls make", 0, 0);
    list.records[11].maximum = 0;
    made = wikulambag_setup(list, terms);
    see(made.refusal == WIKULAMBAG_MAXIMUM_RANGE && made.place == 11, "setup's fault", made.place, 0);
    see(made.state.table.n == 0 && made.state.table.overhead == 0, "the table beside it", 0, 0);
    terms.overhead = 65;
    made = wikulambag_setup(list, terms);
    see(made.refusal == WIKULAMBAG_OVERHEAD_RANGE && made.place == 0, "the overhead's fault", made.place, 0);
}

static void answers(void)
{
    struct wikulambag_state s = visited(), after = s;
    s.line.opened = false;
    s.line.deficits[5] = 15;
    struct wikulambag_pick_result p = wikulambag_pick(s);
    after.line.deficits[5] = 15;
    after.line.place = 6;
    after.line.deficits[6] = 16 + 1006 - (392 + 20);
    after.line.counts[6] = 6;
    after.line.sums[6] -= 392;
    memmove(after.line.rows[6].lengths, after.line.rows[6].lengths + 1, 31 * sizeof(uint16_t));
    see(p.refusal == 0 && p.sent && p.flow == 6 && p.length == 392, "pick", p.flow, p.length);
    see(p.deficit == 610 && p.visits == 1 && same(p.state, after), "pick's state", p.deficit, p.visits);

    /* flow 3's maximum charge is 9023 */
    uint64_t quanta = 16 * 1000 + 120, charges = 16 * 9020 + 120;
    uint64_t lag = 1003 * (charges - 9023) + (quanta - 1003) * (1003 + 9023);
    struct wikulambag_figure_result figure = wikulambag_lag(s, 3);
    see(figure.refusal == 0 && figure.value == lag, "lag", 3, 0);
    figure = wikulambag_wait(s, 3);
    see(figure.refusal == 0 && figure.value == lag / 1003 + 1, "wait", 3, 0);
    figure = wikulambag_owed(s, 3, 4000000000);
    see(figure.refusal == 0 && figure.value == (1003 * 4000000000ull - lag + quanta - 1) / quanta, "owed", 3, 0);
    figure = wikulambag_owed(s, 16, 4000000000);
    see(figure.refusal == WIKULAMBAG_UNKNOWN_FLOW && figure.value == 0, "owed", 16, 0);
}

/* flow f has the lengths 200 + 32 f and so on, f + 1 of them, each one more than the one before */
static void waiting_bytes(void)
{
    struct wikulambag_state s = visited();
    struct wikulambag_figure_result figure;
    for (size_t f = 0; f < 16; f++) {
        figure = wikulambag_waiting_bytes(s, f);
        see(figure.refusal == 0 && figure.value == (f + 1) * (200 + 32 * f) + f * (f + 1) / 2, "waiting bytes", f, 0);
    }
    figure = wikulambag_waiting_bytes(s, 16);
    see(figure.refusal == WIKULAMBAG_UNKNOWN_FLOW && figure.value == 0, "waiting bytes", 16, 0);
    s.line.sums[7]++;
    figure = wikulambag_waiting_bytes(s, 16);
    see(figure.refusal == WIKULAMBAG_NOT_SOUND && figure.value == 0, "waiting bytes", 16, 1);
}

/* one flow, and three events, of which the last has a tick below the one before */
static void run(void)
{
    const uint8_t file[52] = {
        [0] = 1, [2] = 3, [4] = 20, [8] = 28, [12] = 52, [20] = 9, [24] = 9, [28] = 5, [36] = 7, [44] = 6,
    };
    uint64_t list[24] = {77};
    struct wikulambag_run_result fault = wikulambag_run(file, sizeof file, list, 24);
    see(fault.refusal == WIKULAMBAG_TICK_ORDER && fault.place == 2 && list[0] == 77, "run", fault.refusal, fault.place);
}

int main(void)
{
    each_field_spoilt();
    made_by_calls();
    answers();
    waiting_bytes();
    run();
    printf("through.c: %d things seen, %d wrong\n", seen, wrong);
    return wrong != 0;
}
