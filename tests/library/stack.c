/* 'stack FILE' measures how much stack each call uses, FILE being a run file: a thread is given a stack that is
 * painted, and what is no longer painted after its one call was used by it. It fails where that is more than
 * wikulambag.h says. The thread's own function is counted as far as it lies below its first variable. */
#define _POSIX_C_SOURCE 200809L
#include "wikulambag.h"

#include <pthread.h>
#include <stdio.h>
#include <stdlib.h>
#include <string.h>

enum { ROOM = 1 << 20, PAINT = 0xA5, CALLS = 9 };
static const char *const names[CALLS] = {
    "setup", "sound", "arrival", "pick", "owed", "wait", "lag", "waiting_bytes", "run",
};

static struct wikulambag_flow_list list;
static struct wikulambag_terms terms = {.overhead = 20};
static struct wikulambag_state state;
static uint8_t file[12288];
static size_t file_size;
static uint64_t lines[6150];
static uintptr_t top;

static void *call(void *which)
{
    unsigned char mark;
    top = (uintptr_t)&mark;
    switch (*(int *)which) {
    case 0: state = wikulambag_setup(list, terms).state; break;
    case 1: lines[0] = wikulambag_sound(state); break;
    case 2: state = wikulambag_arrival(state, 0, 9216).state; break;
    case 3: state = wikulambag_pick(state).state; break;
    case 4: lines[0] = wikulambag_owed(state, 0, 1000000).value; break;
    case 5: lines[0] = wikulambag_wait(state, 0).value; break;
    case 6: lines[0] = wikulambag_lag(state, 0).value; break;
    case 7: lines[0] = wikulambag_waiting_bytes(state, 0).value; break;
    case 8: lines[0] = wikulambag_run(file, file_size, lines, 6150).refusal; break;
    }
    return NULL;
}

/* bytes between the mark and the lowest byte that is no longer painted; -1 where no thread could be started */
static long used(unsigned char *stack, int which)
{
    pthread_attr_t attr;
    pthread_t thread;
    memset(stack, PAINT, ROOM);
    if (pthread_attr_init(&attr) || pthread_attr_setstack(&attr, stack, ROOM)) return -1;
    if (pthread_create(&thread, &attr, call, &which) || pthread_join(thread, NULL)) return -1;
    pthread_attr_destroy(&attr);
    size_t low = 0;
    while (low < ROOM && stack[low] == PAINT) low++;
    return (long)(top - (uintptr_t)(stack + low));
}

int main(int count, char **words)
{
    unsigned char *stack = aligned_alloc(4096, ROOM);
    FILE *given = count == 2 ? fopen(words[1], "rb") : NULL;
    if (!stack || !given) return 2;
    file_size = fread(file, 1, sizeof file, given);
    fclose(given);
    list.count = 16;
    for (size_t f = 0; f < 16; f++) list.records[f] = (struct wikulambag_flow_record){1, 9216};

    int bad = 0;
    for (int which = 0; which < CALLS; which++) {
        long bytes = used(stack, which);
        printf("%s %ld\n", names[which], bytes);
        bad |= bytes < 0 || bytes > WIKULAMBAG_STACK;
    }
    free(stack);
    return bad;
}
