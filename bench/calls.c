/* Makes one call of the library for C over and over, each time on the same table: the bytes are copied back before it. bench/calls.py times it, and
 * takes off what the copying costs.
 * Arguments: table (typical, idle, worst, waiting), call (those of `calls` below, run, ticks), events in a call of run or ticks, repeats. */
#include "duskclamp.h"
#include <stdio.h>
#include <stdlib.h>
#include <string.h>

#define MOST_EVENTS 64

static uint8_t saved[DUSKCLAMP_TABLE_SIZE], table[DUSKCLAMP_TABLE_SIZE];
/* The thread and the object of the call: the object is nobody's, or the thread's own by a flat word, and the thread is at no operation. */
static uint32_t caller, last_object;
static volatile uint64_t kept;

static void perform(uint32_t thread, uint32_t operation, uint32_t object) {
    duskclamp_begin(saved, sizeof saved, thread, operation, object);
    while (DUSKCLAMP_RETURNED(duskclamp_step(saved, sizeof saved, thread)) == DUSKCLAMP_GONE_ON) {
    }
}

/* Seven of 8 threads contend for 3 of 16 objects; the last is idle. */
static void make_typical(void) {
    caller = 8, last_object = 16;
    duskclamp_fresh(saved, sizeof saved, caller, last_object, 0);
    for (uint32_t thread = 1; thread < caller; thread++)
        perform(thread, DUSKCLAMP_ENTER, 1 + thread % 3);
}

static void make_idle(void) {
    caller = DUSKCLAMP_THREADS, last_object = DUSKCLAMP_OBJECTS;
    duskclamp_fresh(saved, sizeof saved, caller, last_object, 0);
}

/* Thread 2 owns every object, the first by a monitor for which all others are queued: thread 1 has waited and been notified, the rest enter. */
static void make_worst(void) {
    caller = 2, last_object = DUSKCLAMP_OBJECTS;
    duskclamp_fresh(saved, sizeof saved, DUSKCLAMP_THREADS, last_object, 0);
    perform(1, DUSKCLAMP_ENTER, 1);
    perform(1, DUSKCLAMP_WAIT, 1);
    for (uint32_t object = 1; object <= last_object; object++)
        perform(caller, DUSKCLAMP_ENTER, object);
    perform(caller, DUSKCLAMP_NOTIFY, 1);
    for (uint32_t thread = 3; thread <= DUSKCLAMP_THREADS; thread++)
        perform(thread, DUSKCLAMP_ENTER, 1);
}

/* Six of 8 threads are in timed waits at 3 of 16 objects, with the longest limit. */
static void make_waiting(void) {
    caller = 8, last_object = 16;
    duskclamp_fresh(saved, sizeof saved, caller, last_object, 0);
    for (uint32_t thread = 1; thread < caller - 1; thread++) {
        perform(thread, DUSKCLAMP_ENTER, 1 + thread % 3);
        duskclamp_timed_wait(saved, sizeof saved, thread, 1 + thread % 3, DUSKCLAMP_TICKS);
        while (DUSKCLAMP_RETURNED(duskclamp_step(saved, sizeof saved, thread)) == DUSKCLAMP_GONE_ON) {
        }
    }
}

/* An enter and an exit of the last object, five events, again and again; thread and object are filled in. */
static const duskclamp_event turn[5] = {{DUSKCLAMP_KIND_BEGIN, 0, DUSKCLAMP_ENTER, 0, 0}, {DUSKCLAMP_KIND_STEP, 0, 0, 0, 0},
    {DUSKCLAMP_KIND_BEGIN, 0, DUSKCLAMP_EXIT, 0, 0}, {DUSKCLAMP_KIND_STEP, 0, 0, 0, 0}, {DUSKCLAMP_KIND_STEP, 0, 0, 0, 0}};
static const duskclamp_event tick = {DUSKCLAMP_KIND_TICK, 0, 0, 0, 0};

static void run_events(int ticks, size_t count, long repeats) {
    static duskclamp_event events[MOST_EVENTS];
    static uint64_t answers[MOST_EVENTS];
    for (size_t place = 0; place < count; place++) {
        events[place] = ticks ? tick : turn[place % 5];
        if (!ticks) {
            events[place].thread = (uint8_t)caller;
            events[place].object = (uint8_t)last_object;
        }
    }
    for (; repeats > 0; repeats--) {
        memcpy(table, saved, sizeof table);
        kept = duskclamp_run_events(table, sizeof table, events, count, answers);
    }
    for (size_t place = 0; place < count; place++)
        if (DUSKCLAMP_RETURNED(answers[place]) > DUSKCLAMP_FINISHED)
            fprintf(stderr, "calls: event %zu is answered %u\n", place, DUSKCLAMP_RETURNED(answers[place])), exit(1);
}

/* What is done each time, and its last answer. */
static uint64_t nothing(void) {
    return (uint64_t)table[0] << 8;
}

static uint64_t begin(void) {
    return duskclamp_begin(table, sizeof table, caller, DUSKCLAMP_ENTER, last_object);
}

static uint64_t step(void) {
    return duskclamp_step(table, sizeof table, caller);
}

static uint64_t tick_once(void) {
    return duskclamp_tick(table, sizeof table);
}

static uint64_t question(void) {
    return duskclamp_owner(table, sizeof table, last_object);
}

/* An enter and an exit, which nobody is in the way of: five calls where nobody owns the object, four where the caller does. */
static uint64_t pair(void) {
    uint64_t answer = 0;
    for (uint32_t operation = DUSKCLAMP_ENTER; operation <= DUSKCLAMP_EXIT; operation++) {
        answer = duskclamp_begin(table, sizeof table, caller, operation, last_object);
        while (DUSKCLAMP_RETURNED(answer) == DUSKCLAMP_GONE_ON)
            answer = duskclamp_step(table, sizeof table, caller);
    }
    return answer;
}

static const struct {
    const char *name;
    uint64_t (*make)(void);
    uint32_t returned;
} calls[] = {{"none", nothing, 0}, {"begin", begin, DUSKCLAMP_GONE_ON}, {"step", step, DUSKCLAMP_FINISHED}, {"refused", step, DUSKCLAMP_THREAD_IDLE},
    {"tick", tick_once, DUSKCLAMP_GONE_ON}, {"pair", pair, DUSKCLAMP_FINISHED}, {"question", question, 0}};

static void call(const char *name, long repeats) {
    size_t place = 0;
    while (place < sizeof calls / sizeof *calls && strcmp(name, calls[place].name))
        place++;
    if (place == sizeof calls / sizeof *calls)
        fprintf(stderr, "calls: there is no call %s\n", name), exit(2);
    if (!strcmp(name, "step"))
        duskclamp_begin(saved, sizeof saved, caller, DUSKCLAMP_ENTER, last_object);
    for (; repeats > 0; repeats--) {
        memcpy(table, saved, sizeof table);
        kept = calls[place].make();
    }
    if (DUSKCLAMP_RETURNED(kept) != calls[place].returned)
        fprintf(stderr, "calls: %s is answered %u\n", name, DUSKCLAMP_RETURNED(kept)), exit(1);
}

int main(int count, char **arguments) {
    if (count != 5) {
        fprintf(stderr, "calls: table, call, events, repeats\n");
        return 2;
    }
    if (!strcmp(arguments[1], "typical"))
        make_typical();
    else if (!strcmp(arguments[1], "idle"))
        make_idle();
    else if (!strcmp(arguments[1], "waiting"))
        make_waiting();
    else
        make_worst();
    if (!strcmp(arguments[2], "run") || !strcmp(arguments[2], "ticks")) {
        run_events(!strcmp(arguments[2], "ticks"), strtoul(arguments[3], NULL, 10), atol(arguments[4]));
        return 0;
    }
    call(arguments[2], atol(arguments[4]));
    return 0;
}
