/* Runs scripts of contending threads by duskclamp_dispatch, or the events of that very run by duskclamp_run, over and over, each time on the same fresh
 * table. bench/dispatch.py times it. Prints how many events, begins and steps, the run has, behind a check that both calls give the same answers and
 * leave the same table.
 * Arguments: threads, objects, quantum, operations of a script, call (dispatch, run), repeats. */
#include "duskclamp.h"
#include <stdio.h>
#include <stdlib.h>
#include <string.h>

static uint8_t saved[DUSKCLAMP_TABLE_SIZE], table[DUSKCLAMP_TABLE_SIZE], other[DUSKCLAMP_TABLE_SIZE];
static uint8_t *scripts;
static duskclamp_script starts[DUSKCLAMP_THREADS], cursors[DUSKCLAMP_THREADS];
static uint64_t nothing[1], *trace = nothing, *answers;
static duskclamp_event *events;
static size_t threads, scripts_length, steps, events_count;
static uint32_t quantum;

static void *room(size_t number, size_t size) {
    void *found = calloc(number ? number : 1, size);
    if (!found)
        fprintf(stderr, "dispatch: no memory\n"), exit(1);
    return found;
}

/* Each thread enters one of few objects and in it one of the others, leaves both, and again: all enter in rising order, so that none is kept for good. */
static void make_scripts(uint32_t objects, size_t length) {
    static const uint8_t operations[4] = {DUSKCLAMP_ENTER, DUSKCLAMP_ENTER, DUSKCLAMP_EXIT, DUSKCLAMP_EXIT};
    uint32_t few = objects < 8 ? 1 : 3;
    scripts_length = threads * length * DUSKCLAMP_OPERATION_SIZE;
    scripts = room(scripts_length, 1);
    for (size_t thread = 0; thread < threads; thread++) {
        uint32_t pair[2] = {1 + thread % few, few + 1 + thread % (objects - few)};
        starts[thread] = (duskclamp_script){(uint32_t)(thread * length), (uint32_t)length, 0};
        for (size_t place = 0; place < length; place++) {
            uint8_t *operation = scripts + (thread * length + place) * DUSKCLAMP_OPERATION_SIZE;
            operation[0] = operations[place % 4];
            operation[1] = (uint8_t)pair[place % 4 == 1 || place % 4 == 2];
        }
    }
}

static uint64_t dispatch(size_t entries) {
    memcpy(table, saved, sizeof table);
    memcpy(cursors, starts, sizeof cursors);
    return duskclamp_dispatch(table, sizeof table, quantum, scripts, scripts_length, cursors, threads, trace, entries);
}

static size_t run_events(uint8_t *bytes) {
    memcpy(bytes, saved, sizeof saved);
    return duskclamp_run(bytes, sizeof saved, (const uint8_t *)events, events_count * sizeof *events, answers, events_count);
}

/* The run's begins and steps, by its trace. */
static void make_events(void) {
    uint32_t begun[DUSKCLAMP_THREADS] = {0};
    steps = (size_t)DUSKCLAMP_STEPS_TAKEN(dispatch(0));
    trace = room(steps, sizeof *trace);
    dispatch(steps);
    events = room(2 * steps, sizeof *events);
    answers = room(2 * steps, sizeof *answers);
    for (size_t step = 0; step < steps; step++) {
        uint32_t thread = DUSKCLAMP_TRACE_THREAD(trace[step]);
        if (DUSKCLAMP_TRACE_BEGAN(trace[step])) {
            const uint8_t *next = scripts + (starts[thread - 1].start + begun[thread - 1]) * DUSKCLAMP_OPERATION_SIZE;
            begun[thread - 1]++;
            events[events_count++] = (duskclamp_event){DUSKCLAMP_KIND_BEGIN, (uint8_t)thread, next[0], next[1], 0};
        }
        events[events_count++] = (duskclamp_event){DUSKCLAMP_KIND_STEP, (uint8_t)thread, 0, 0, 0};
    }
}

/* The events by themselves are answered as in the trace, and leave the same table; all scripts have come to their end. */
static void check(void) {
    size_t step = 0;
    int same = run_events(other) == events_count && !memcmp(table, other, sizeof table);
    for (size_t event = 0; event < events_count; event++) {
        uint64_t expected = 0;
        if (events[event].kind == DUSKCLAMP_KIND_STEP)
            expected = trace[step++] & ~(UINT64_C(0xff) << 24 | UINT64_C(1) << 17);
        same = same && answers[event] == expected;
    }
    for (size_t thread = 0; thread < threads; thread++)
        same = same && cursors[thread].cursor == cursors[thread].length;
    if (!same)
        fprintf(stderr, "dispatch: the run is not that of its events\n"), exit(1);
}

int main(int count, char **arguments) {
    if (count != 7) {
        fprintf(stderr, "dispatch: threads, objects, quantum, operations, call, repeats\n");
        return 2;
    }
    threads = strtoul(arguments[1], NULL, 10);
    uint32_t objects = (uint32_t)strtoul(arguments[2], NULL, 10);
    quantum = (uint32_t)strtoul(arguments[3], NULL, 10);
    duskclamp_fresh(saved, sizeof saved, (uint32_t)threads, objects, 0);
    make_scripts(objects, strtoul(arguments[4], NULL, 10));
    make_events();
    check();
    int runs = !strcmp(arguments[5], "run");
    for (long repeats = atol(arguments[6]); repeats > 0; repeats--) {
        if (runs)
            run_events(table);
        else
            dispatch(steps);
    }
    printf("%zu\n", events_count);
    return 0;
}
