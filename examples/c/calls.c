/* Document 01's table, two packets of flow 0, a pick, the bytes waiting after each, and what each flow is owed of
 * 1,000,000 bytes.
 *
 *     ./library
 *     cc -std=c11 -I target/library -o calls examples/c/calls.c target/library/libwikulambag.a */
#include "wikulambag.h"

#include <inttypes.h>
#include <stdio.h>

int main(void)
{
    struct wikulambag_flow_list list = {.records = {{500, 800}, {300, 800}, {400, 600}}, .count = 3};
    struct wikulambag_terms terms = {.overhead = 0};
    struct wikulambag_setup_result made = wikulambag_setup(list, terms);
    if (made.refusal) {
        printf("setup refused by %" PRIu32 ", flow %zu\n", made.refusal, made.place);
        return 1;
    }
    struct wikulambag_state state = made.state;

    for (uint32_t length = 200; length <= 750; length += 550) {
        struct wikulambag_arrival_result arrived = wikulambag_arrival(state, 0, length);
        state = arrived.state;
        if (arrived.refusal)
            printf("arrival refused by %" PRIu32 "\n", arrived.refusal);
        else
            printf("arrived: flow 0, %" PRIu32 " bytes, waiting %" PRIu64 " bytes\n",
                   length, wikulambag_waiting_bytes(state, 0).value);
    }

    struct wikulambag_pick_result picked = wikulambag_pick(state);
    state = picked.state;
    if (picked.sent)
        printf("sent: flow %zu, %" PRIu32 " bytes, deficit %" PRIu32 ", visits %" PRIu32 ", waiting %" PRIu64 " bytes\n",
               picked.flow, picked.length, picked.deficit, picked.visits,
               wikulambag_waiting_bytes(state, picked.flow).value);
    else
        printf("idle\n");

    for (size_t flow = 0; flow < state.table.n; flow++)
        printf("flow %zu is owed %" PRIu64 "\n", flow, wikulambag_owed(state, flow, 1000000).value);
    return 0;
}
