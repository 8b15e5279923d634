/* Three threads at one object: the first waits on it, the second then owns it, and the third parks. A fourth waits on an object of its own until its
 * wait runs out. A fifth parks while it leaves an object, and the sixth, which enters it, lets that exit out. The table is printed at the end: each
 * thread with its operation, its phase and who keeps it, each object with its word and the word's kind, owner, flag and chains. */
#include "duskclamp.h"
#include <inttypes.h>
#include <stdio.h>

#define THREADS 6
#define OBJECTS 4
#define LIMIT 2

static uint8_t table[DUSKCLAMP_TABLE_SIZE];

/* Takes the steps of an operation whose begin was answered so, until it is finished, parks, or is refused. */
static void take_steps(uint64_t answer, uint32_t thread, uint32_t operation, uint32_t object) {
    uint32_t steps = 0;
    while (DUSKCLAMP_RETURNED(answer) == DUSKCLAMP_GONE_ON) {
        answer = duskclamp_step(table, sizeof table, thread);
        steps++;
    }
    printf("thread %" PRIu32 " %s %" PRIu32 ": %s, steps: %" PRIu32 "\n", thread, duskclamp_operation_name(operation), object,
           duskclamp_returned_name(DUSKCLAMP_RETURNED(answer)), steps);
}

static void run(uint32_t thread, uint32_t operation, uint32_t object) {
    take_steps(duskclamp_begin(table, sizeof table, thread, operation, object), thread, operation, object);
}

/* A wait with a limit, which nobody notifies: after as many ticks it has run out, and its thread owns the object again. */
static void run_out(uint32_t thread, uint32_t object) {
    run(thread, DUSKCLAMP_ENTER, object);
    take_steps(duskclamp_timed_wait(table, sizeof table, thread, object, LIMIT), thread, DUSKCLAMP_TIMED_WAIT, object);
    for (uint32_t tick = 1; tick <= LIMIT; tick++) {
        uint64_t answer = duskclamp_tick(table, sizeof table);
        uint32_t phase = DUSKCLAMP_VALUE(duskclamp_phase(table, sizeof table, thread));
        uint32_t left = DUSKCLAMP_VALUE(duskclamp_ticks(table, sizeof table, thread));
        printf("tick %" PRIu32 ": %" PRIu32 ", unparked %08" PRIx32 ", thread %" PRIu32 " %s, ticks left: %" PRIu32 "\n", tick,
               DUSKCLAMP_RETURNED(answer), DUSKCLAMP_UNPARKED(answer), thread, duskclamp_phase_name(phase), left);
    }
    uint64_t answer = duskclamp_step(table, sizeof table, thread);
    printf("thread %" PRIu32 " %s, run out: %" PRIu32 "\n", thread, duskclamp_returned_name(DUSKCLAMP_RETURNED(answer)), DUSKCLAMP_WOKEN(answer));
}

/* An exit that parks while another thread is on its way in, and is let out by that thread's step, whose set names it. No step of its own answers 1: the
 * next is refused with 15, which stands for it. */
static void let_out(uint32_t leaving, uint32_t entering, uint32_t object) {
    run(leaving, DUSKCLAMP_ENTER, object);
    duskclamp_begin(table, sizeof table, entering, DUSKCLAMP_ENTER, object);
    while (DUSKCLAMP_VALUE(duskclamp_phase(table, sizeof table, entering)) != DUSKCLAMP_PHASE_TRY)
        duskclamp_step(table, sizeof table, entering);
    run(leaving, DUSKCLAMP_EXIT, object);
    uint64_t answer = duskclamp_step(table, sizeof table, entering);
    uint32_t phase = DUSKCLAMP_VALUE(duskclamp_phase(table, sizeof table, leaving));
    printf("thread %" PRIu32 " enter %" PRIu32 ": %s, unparked %08" PRIx32 ", thread %" PRIu32 " %s\n", entering, object,
           duskclamp_returned_name(DUSKCLAMP_RETURNED(answer)), DUSKCLAMP_UNPARKED(answer), leaving, duskclamp_phase_name(phase));
    answer = duskclamp_step(table, sizeof table, leaving);
    printf("thread %" PRIu32 " steps: %s\n", leaving, duskclamp_returned_name(DUSKCLAMP_RETURNED(answer)));
}

/* Four events in one call: thread 2 enters another object, thread 3, which is parked, is refused its step, and the clock ticks. */
static void run_events(void) {
    duskclamp_event events[] = {
        {DUSKCLAMP_KIND_BEGIN, 2, DUSKCLAMP_ENTER, 2, 0},
        {DUSKCLAMP_KIND_STEP, 2, 0, 0, 0},
        {DUSKCLAMP_KIND_STEP, 3, 0, 0, 0},
        {DUSKCLAMP_KIND_TICK, 0, 0, 0, 0},
    };
    uint64_t answers[4];
    size_t count = duskclamp_run_events(table, sizeof table, events, 4, answers);
    for (size_t place = 0; place < count; place++)
        printf("event %zu of the run: %s\n", place + 1, duskclamp_returned_name(DUSKCLAMP_RETURNED(answers[place])));
}

static void print_threads(void) {
    uint32_t count = DUSKCLAMP_VALUE(duskclamp_thread_count(table, sizeof table));
    for (uint32_t thread = 1; thread <= count; thread++) {
        uint32_t operation = DUSKCLAMP_VALUE(duskclamp_operation(table, sizeof table, thread));
        uint32_t phase = DUSKCLAMP_VALUE(duskclamp_phase(table, sizeof table, thread));
        uint32_t object = DUSKCLAMP_VALUE(duskclamp_object(table, sizeof table, thread));
        uint32_t onward = DUSKCLAMP_VALUE(duskclamp_onward(table, sizeof table, thread));
        uint64_t blocker = duskclamp_blocker(table, sizeof table, thread);
        printf("thread %" PRIu32 ": %s", thread, duskclamp_phase_name(phase));
        if (phase != DUSKCLAMP_PHASE_IDLE)
            printf(", %s of object %" PRIu32, duskclamp_operation_name(operation), object);
        if (onward != 0)
            printf(", to go on with %s", duskclamp_phase_name(onward));
        if (DUSKCLAMP_BLOCKER(blocker) != 0)
            printf(", kept by %s %" PRIu32, DUSKCLAMP_IS_HOLDER(blocker) ? "holder" : "owner", DUSKCLAMP_BLOCKER(blocker));
        printf("\n");
    }
}

/* A chain from its first thread on. */
static void print_chain(const char *name, uint32_t thread) {
    printf(", %s", name);
    if (thread == 0)
        printf(" -");
    for (uint32_t turns = 0; thread != 0 && turns < DUSKCLAMP_THREADS; turns++) {
        printf(" %" PRIu32, thread);
        thread = DUSKCLAMP_VALUE(duskclamp_next(table, sizeof table, thread));
    }
}

static void print_objects(void) {
    uint32_t count = DUSKCLAMP_VALUE(duskclamp_object_count(table, sizeof table));
    for (uint32_t object = 1; object <= count; object++) {
        uint32_t kind = DUSKCLAMP_VALUE(duskclamp_word_kind(table, sizeof table, object));
        printf("object %" PRIu32 ": word %06" PRIx32, object, DUSKCLAMP_VALUE(duskclamp_word(table, sizeof table, object)));
        printf(" (%s)", duskclamp_word_kind_name(kind));
        printf(", owner %" PRIu32, DUSKCLAMP_VALUE(duskclamp_owner(table, sizeof table, object)));
        printf(" at depth %" PRIu32, DUSKCLAMP_VALUE(duskclamp_depth(table, sizeof table, object)));
        printf(", flag %" PRIu32, DUSKCLAMP_VALUE(duskclamp_flag(table, sizeof table, object)));
        printf(", holder %" PRIu32, DUSKCLAMP_VALUE(duskclamp_holder(table, sizeof table, object)));
        print_chain("entry", DUSKCLAMP_VALUE(duskclamp_entry_first(table, sizeof table, object)));
        print_chain("contention", DUSKCLAMP_VALUE(duskclamp_contention_first(table, sizeof table, object)));
        print_chain("waiting", DUSKCLAMP_VALUE(duskclamp_waiting_first(table, sizeof table, object)));
        printf("\n");
    }
}

int main(void) {
    if (duskclamp_version() != DUSKCLAMP_VERSION || duskclamp_layout_version() != DUSKCLAMP_LAYOUT_VERSION) {
        fprintf(stderr, "the library is not the one that duskclamp.h declares\n");
        return 1;
    }
    printf("fresh: %" PRIu32 "\n", duskclamp_fresh(table, sizeof table, THREADS, OBJECTS, 0));
    run(1, DUSKCLAMP_ENTER, 1);
    run(1, DUSKCLAMP_WAIT, 1);
    run(2, DUSKCLAMP_ENTER, 1);
    run(3, DUSKCLAMP_ENTER, 1);
    run(3, DUSKCLAMP_ENTER, 2);
    run(2, DUSKCLAMP_ENTER, 5);
    run(2, DUSKCLAMP_EXIT, 2);
    run_out(4, 3);
    let_out(5, 6, 4);
    run_events();
    print_threads();
    print_objects();
    printf("a byte short: %s\n", duskclamp_returned_name(DUSKCLAMP_RETURNED(duskclamp_step(table, sizeof table - 1, 2))));
    return 0;
}
