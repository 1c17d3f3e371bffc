/* Wikulambag, a proved Deficit Round Robin scheduler over packet lengths, for programs in C.
 *
 * './library' leaves this file and libwikulambag.a in one folder: cc -I DIR program.c DIR/libwikulambag.a.
 * The archive is for Linux on x86-64. It needs memcpy and memset and nothing else: no heap, no files.
 *
 * A state is all that a call is given and hands back. It goes in by value and stays with the caller as it was;
 * the state after an arrival or a pick is in the answer. Every call takes any numbers at all and returns. Where
 * it refuses, `refusal` has the number, the other numbers of the answer are 0, the place apart, and the state is
 * the one that was given (of a refused setup: the table of no flows).
 *
 * Bools. `opened` must be 0 or 1. C's bool holds nothing else by itself; of a state that comes from outside as
 * bytes the caller has to see to it, for no promise holds of another byte. All other fields may hold any number.
 * Stack. A call uses less than 7 KiB below its caller's variables (measured, not proved: most, 6,847 bytes, by
 * wikulambag_pick, the copy of the state that is passed among them). WIKULAMBAG_STACK is ample.
 * Threads. The library keeps nothing between calls and has no variables of its own: calls may run at the same
 * time. What is lent to wikulambag_run must not be changed by others until it returns. */
#ifndef WIKULAMBAG_H
#define WIKULAMBAG_H

#include <stdbool.h>
#include <stddef.h>
#include <stdint.h>

#ifdef __cplusplus
extern "C" {
#endif

/* bytes of stack that are enough for any call */
#define WIKULAMBAG_STACK 16384

/* the least and the most of what setup and the calls accept */
#define WIKULAMBAG_MOST_FLOWS 16
#define WIKULAMBAG_LEAST_QUANTUM 1
#define WIKULAMBAG_MOST_QUANTUM 65535
#define WIKULAMBAG_LEAST_MAXIMUM 1
#define WIKULAMBAG_MOST_MAXIMUM 9216
#define WIKULAMBAG_MOST_OVERHEAD 64
#define WIKULAMBAG_MOST_WAITING 32
#define WIKULAMBAG_MOST_EVENTS 1024

/* what a refusal number means; 0 is no refusal */
enum wikulambag_refusal {
    WIKULAMBAG_UNKNOWN_FLOW = 1,    /* flow number at or above the number of flows */
    WIKULAMBAG_NO_LENGTH = 2,       /* length 0 */
    WIKULAMBAG_OVER_MAXIMUM = 3,    /* length above the flow's maximum */
    WIKULAMBAG_ROW_FULL = 4,        /* 32 packets of the flow are waiting already */
    WIKULAMBAG_FLOW_COUNT = 5,      /* a list of no flows, or of more than 16 */
    WIKULAMBAG_QUANTUM_RANGE = 6,   /* a quantum out of range */
    WIKULAMBAG_MAXIMUM_RANGE = 7,   /* a maximum out of range */
    WIKULAMBAG_NOT_SOUND = 8,       /* the state is not sound: no setup and calls lead to it */
    WIKULAMBAG_FILE_LENGTH = 9,     /* a run file under 20 or above 12,288 bytes, or not as long as it says */
    WIKULAMBAG_OVERHEAD_RANGE = 10, /* an overhead above 64 */
    WIKULAMBAG_EVENT_COUNT = 11,    /* a run file with more than 1,024 events */
    WIKULAMBAG_TABLE_PLACE = 12,    /* one of its tables stands where it may not */
    WIKULAMBAG_TICK_ORDER = 13,     /* an event's tick is below the one before */
    WIKULAMBAG_LIST_SHORT = 14      /* the lent list is too short for the run */
};

/* a flow as setup is given it */
struct wikulambag_flow_record {
    uint32_t quantum;
    uint32_t maximum;
};

/* the first `count` of these records; with 17 or more, setup refuses by 5 (or by 10) and reads no further */
struct wikulambag_flow_list {
    struct wikulambag_flow_record records[17];
    size_t count;
};

/* what setup is told beside the list: the bytes that the line spends on each packet beside the packet's own. Of
 * IEEE 802.3 they are 20: 8 of preamble and start delimiter, 12 of gap. With 0 a packet is charged its length alone. */
struct wikulambag_terms {
    uint32_t overhead;
};

/* what setup fixes: the number of flows, the overhead, and each flow's quantum and maximum */
struct wikulambag_table {
    size_t n;
    uint32_t overhead;
    uint32_t quanta[16];
    uint32_t maxima[16];
};

/* the waiting lengths of one flow, oldest first */
struct wikulambag_row {
    uint16_t lengths[32];
};

/* what arrivals and picks move: each flow's deficit, in charges (a packet's is its length and the overhead), how many
 * packets it has waiting, the sum of their lengths and those lengths; the flow visited last, and whether its visit
 * is open */
struct wikulambag_line {
    uint32_t deficits[16];
    uint8_t counts[16];
    uint32_t sums[16];
    size_t place;
    bool opened;
    struct wikulambag_row rows[16];
};

struct wikulambag_state {
    struct wikulambag_table table;
    struct wikulambag_line line;
};

/* place: the number, from 0, of the flow at fault for 6 and 7, else 0; state: fresh, nothing waiting */
struct wikulambag_setup_result {
    uint32_t refusal;
    size_t place;
    struct wikulambag_state state;
};

struct wikulambag_arrival_result {
    uint32_t refusal;
    struct wikulambag_state state;
};

/* sent: whether a packet was sent. If so its flow and length, the flow's deficit after it, and how many visits
 * this pick opened; if not, and nothing is refused, the line is idle. The state may have changed either way. */
struct wikulambag_pick_result {
    uint32_t refusal;
    bool sent;
    size_t flow;
    uint32_t length;
    uint32_t deficit;
    uint32_t visits;
    struct wikulambag_state state;
};

struct wikulambag_figure_result {
    uint32_t refusal;
    uint64_t value;
};

/* place: the number, from 0, of the record at fault (the flow for 6 and 7, the event for 13), else 0 */
struct wikulambag_run_result {
    uint32_t refusal;
    size_t place;
};

/* Makes the fresh state of a table. Refused by 10, 5, then flow by flow by 6 before 7. */
struct wikulambag_setup_result wikulambag_setup(struct wikulambag_flow_list list, struct wikulambag_terms terms);

/* Whether a state is sound, as every state is that setup and calls lead to. The other calls refuse by 8 one that
 * is not. */
bool wikulambag_sound(struct wikulambag_state s);

/* A packet of `length` bytes, without the overhead, arrives for `flow`, and waits behind those that the flow has.
 * Refused by 8, 1, 2, 3, 4, in this order. */
struct wikulambag_arrival_result wikulambag_arrival(struct wikulambag_state s, size_t flow, uint32_t length);

/* Picks the packet that goes next. Refused by 8. */
struct wikulambag_pick_result wikulambag_pick(struct wikulambag_state s);

/* What the flow is owed of this many bytes on the line, if it has packets waiting all the while. Bytes on the line
 * are charges: each packet's length and the overhead. Refused, as the three below, by 8, 1. */
struct wikulambag_figure_result wikulambag_owed(struct wikulambag_state s, size_t flow, uint32_t bytes);

/* The least number of bytes on the line of which the flow is owed one. */
struct wikulambag_figure_result wikulambag_wait(struct wikulambag_state s, size_t flow);

/* C of the flow: how far, in bytes times the sum of all quanta, it can fall behind its share. */
struct wikulambag_figure_result wikulambag_lag(struct wikulambag_state s, size_t flow);

/* The waiting bytes of the flow: the sum of the lengths that wait, without overheads. All that was accepted of a
 * flow since setup is what was sent of it and this, in lengths. */
struct wikulambag_figure_result wikulambag_waiting_bytes(struct wikulambag_state s, size_t flow);

/* Runs a run file of `size` bytes and writes its listing, six numbers a line, at the start of the list, which has
 * `room` numbers: 6 x (events + 1) are needed, 6,150 are enough for any file. What follows them stays, and the
 * whole list where the file is refused: by 9, 10, 5, 11, 12, 6 and 7 by flow, 13, 14. File and list stay the
 * caller's, must not overlap, and are not kept; neither may be NULL, with no bytes or numbers either. */
struct wikulambag_run_result wikulambag_run(const uint8_t *file, size_t size, uint64_t *list, size_t room);

#ifdef __cplusplus
}
#endif

#endif
