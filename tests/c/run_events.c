/* Events as structs, by the header's inline call, against the same events by calls of their own: each answer and every byte of the table. */
#include "duskclamp.h"
#include <stdio.h>
#include <string.h>

/* A limit whose four bytes are all others, so that their order shows; and one that is accepted. */
#define TOO_LONG 0x04030201u
#define LIMIT 0x0102u

static const duskclamp_event events[] = {
    {DUSKCLAMP_KIND_BEGIN, 1, DUSKCLAMP_ENTER, 2, 0},
    {DUSKCLAMP_KIND_STEP, 1, 0, 0, 0},
    {DUSKCLAMP_KIND_BEGIN, 1, DUSKCLAMP_TIMED_WAIT, 2, TOO_LONG},
    {DUSKCLAMP_KIND_BEGIN, 1, DUSKCLAMP_TIMED_WAIT, 2, LIMIT},
    {DUSKCLAMP_KIND_STEP, 1, 0, 0, 0},
    {DUSKCLAMP_KIND_STEP, 1, 0, 0, 0},
    {DUSKCLAMP_KIND_STEP, 1, 0, 0, 0},
    {DUSKCLAMP_KIND_STEP, 1, 0, 0, 0},
    {DUSKCLAMP_KIND_TICK, 0, 0, 0, 0},
    {DUSKCLAMP_KIND_STEP, 3, 0, 0, 0},
};
#define EVENTS (sizeof events / sizeof *events)

static uint64_t called(uint8_t *table, const duskclamp_event *event) {
    if (event->kind == DUSKCLAMP_KIND_TICK)
        return duskclamp_tick(table, DUSKCLAMP_TABLE_SIZE);
    if (event->kind == DUSKCLAMP_KIND_STEP)
        return duskclamp_step(table, DUSKCLAMP_TABLE_SIZE, event->thread);
    if (event->operation == DUSKCLAMP_TIMED_WAIT)
        return duskclamp_timed_wait(table, DUSKCLAMP_TABLE_SIZE, event->thread, event->object, event->limit);
    return duskclamp_begin(table, DUSKCLAMP_TABLE_SIZE, event->thread, event->operation, event->object);
}

/* Runs the first `count` events in one call, and beside it one by one; whether both are the same. */
static int same(size_t count) {
    uint8_t run[DUSKCLAMP_TABLE_SIZE], alone[DUSKCLAMP_TABLE_SIZE];
    uint64_t answers[EVENTS] = {0};
    duskclamp_fresh(run, DUSKCLAMP_TABLE_SIZE, 2, 3, 0);
    memcpy(alone, run, DUSKCLAMP_TABLE_SIZE);
    if (duskclamp_run_events(run, DUSKCLAMP_TABLE_SIZE, events, count, answers) != count)
        return 0;
    for (size_t place = 0; place < EVENTS; place++)
        if (answers[place] != (place < count ? called(alone, &events[place]) : 0))
            return 0;
    return memcmp(run, alone, DUSKCLAMP_TABLE_SIZE) == 0;
}

int main(void) {
    uint8_t table[DUSKCLAMP_TABLE_SIZE];
    uint64_t answers[EVENTS];
    for (size_t count = 0; count <= EVENTS; count++)
        if (!same(count)) {
            printf("%u events are not those events\n", (unsigned)count);
            return 1;
        }
    duskclamp_fresh(table, DUSKCLAMP_TABLE_SIZE, 2, 3, 0);
    duskclamp_run_events(table, DUSKCLAMP_TABLE_SIZE, events, EVENTS, answers);
    printf("refused with %u, waiting with %u ticks left, no thread %u\n", (unsigned)DUSKCLAMP_RETURNED(answers[2]),
           (unsigned)DUSKCLAMP_VALUE(duskclamp_ticks(table, DUSKCLAMP_TABLE_SIZE, 1)), (unsigned)DUSKCLAMP_RETURNED(answers[EVENTS - 1]));
    return 0;
}
