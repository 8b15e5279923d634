/* The loop of an interpreter: four green threads run scripts of lock operations to their end, a step each in turn. Who runs is decided from answers and
 * their sets alone: a thread that parks leaves the run queue, and a thread in a set comes back. Phases are asked for to be printed, never to decide. */
#include "duskclamp.h"
#include <inttypes.h>
#include <stdio.h>
#include <stdlib.h>

#define THREADS 4
#define OBJECTS 2
#define LONGEST 5
#define LIMIT 2

typedef struct operation {
    uint32_t number;
    uint32_t object;
} operation;

/* What each thread does; number 0 ends a script. */
static const operation scripts[THREADS][LONGEST + 1] = {
    {{DUSKCLAMP_ENTER, 2}, {DUSKCLAMP_EXIT, 2}, {DUSKCLAMP_ENTER, 1}, {DUSKCLAMP_EXIT, 1}},
    {{DUSKCLAMP_ENTER, 1}, {DUSKCLAMP_EXIT, 1}, {DUSKCLAMP_ENTER, 1}, {DUSKCLAMP_WAIT, 1}, {DUSKCLAMP_EXIT, 1}},
    {{DUSKCLAMP_ENTER, 2}, {DUSKCLAMP_TIMED_WAIT, 2}, {DUSKCLAMP_EXIT, 2}},
    {{DUSKCLAMP_ENTER, 1}, {DUSKCLAMP_NOTIFY, 1}, {DUSKCLAMP_EXIT, 1}},
};

static uint8_t table[DUSKCLAMP_TABLE_SIZE];
/* Where each thread is in its script, and how many have come to its end. */
static uint32_t places[THREADS], ended;
/* The steps of each thread since it began its operation or was unparked, and the most that there were. They are DUSKCLAMP_STEPS at most: nobody spins. */
static uint32_t taken[THREADS], most;
/* The run queue, from its first thread on. A thread is in it once at most: one in a set was parked, so it was not in the queue. */
static uint32_t queue[THREADS], first, queued;

static void put(uint32_t thread) {
    queue[(first + queued) % THREADS] = thread;
    queued++;
}

/* The thread has begun, or was unparked: its steps are counted from here. */
static void start(uint32_t thread) {
    taken[thread - 1] = 0;
    put(thread);
}

static void count(uint32_t thread) {
    taken[thread - 1]++;
    if (taken[thread - 1] > most)
        most = taken[thread - 1];
}

static uint32_t take(void) {
    uint32_t thread = queue[first];
    first = (first + 1) % THREADS;
    queued--;
    return thread;
}

static const operation *current(uint32_t thread) {
    return &scripts[thread - 1][places[thread - 1]];
}

static void say(uint32_t thread, const char *what) {
    printf("thread %" PRIu32 " %s %" PRIu32 ": %s", thread, duskclamp_operation_name(current(thread)->number), current(thread)->object, what);
}

/* An answer that none of these scripts gets. */
static void stop(uint32_t thread, uint64_t answer) {
    say(thread, duskclamp_returned_name(DUSKCLAMP_RETURNED(answer)));
    printf("\n");
    exit(1);
}

/* The thread begins its next operation and goes into the queue, unless it has come to its end. */
static void begin(uint32_t thread) {
    const operation *next = current(thread);
    if (next->number == 0) {
        printf("thread %" PRIu32 ": at its end\n", thread);
        ended++;
        return;
    }
    uint64_t answer = next->number == DUSKCLAMP_TIMED_WAIT ? duskclamp_timed_wait(table, sizeof table, thread, next->object, LIMIT)
                                                           : duskclamp_begin(table, sizeof table, thread, next->number, next->object);
    if (DUSKCLAMP_RETURNED(answer) != DUSKCLAMP_GONE_ON)
        stop(thread, answer);
    start(thread);
}

/* The thread's operation is over. */
static void end(uint32_t thread) {
    places[thread - 1]++;
    begin(thread);
}

/* Every thread in the set comes back into the queue. */
static void put_unparked(uint64_t answer) {
    uint32_t set = DUSKCLAMP_UNPARKED(answer);
    for (uint32_t thread = 1; set != 0; thread++, set >>= 1) {
        if (set & 1) {
            say(thread, "unparked\n");
            start(thread);
        }
    }
}

static void say_parked(uint32_t thread) {
    uint32_t phase = DUSKCLAMP_VALUE(duskclamp_phase(table, sizeof table, thread));
    say(thread, "parked");
    printf(", phase %" PRIu32 ", %s\n", phase, duskclamp_phase_name(phase));
}

static void say_finished(uint32_t thread, uint64_t answer) {
    say(thread, "finished");
    if (current(thread)->number == DUSKCLAMP_NOTIFY)
        printf(", threads woken: %" PRIu32, DUSKCLAMP_WOKEN(answer));
    if (current(thread)->number == DUSKCLAMP_TIMED_WAIT)
        printf(", %s", DUSKCLAMP_WOKEN(answer) ? "run out" : "notified");
    printf("\n");
}

/* The first thread takes a step. It leaves the queue, unless its operation goes on. */
static void step(void) {
    uint32_t thread = take();
    uint64_t answer = duskclamp_step(table, sizeof table, thread);
    if (DUSKCLAMP_RETURNED(answer) != DUSKCLAMP_THREAD_IDLE)
        count(thread);
    switch (DUSKCLAMP_RETURNED(answer)) {
    case DUSKCLAMP_GONE_ON:
        put(thread);
        break;
    case DUSKCLAMP_PARKED:
        say_parked(thread);
        break;
    case DUSKCLAMP_FINISHED:
        say_finished(thread, answer);
        end(thread);
        break;
    case DUSKCLAMP_THREAD_IDLE: /* its exit was let out, and this stands for its 1 */
        say(thread, "let out, finished\n");
        end(thread);
        break;
    default:
        stop(thread, answer);
    }
    put_unparked(answer);
}

static void tick(void) {
    printf("tick\n");
    put_unparked(duskclamp_tick(table, sizeof table));
}

/* The clock ticks while nobody can run. No wait here lasts longer than LIMIT, so after as many ticks nobody ever will. */
int main(void) {
    uint32_t ticks = 0;
    duskclamp_fresh(table, sizeof table, THREADS, OBJECTS, 0);
    for (uint32_t thread = 1; thread <= THREADS; thread++)
        begin(thread);
    while (ended < THREADS && (queued > 0 || ticks < LIMIT)) {
        if (queued > 0) {
            step();
            ticks = 0;
        } else {
            tick();
            ticks++;
        }
    }
    printf("most steps until a thread finished or parked: %" PRIu32 "\n", most);
    return ended == THREADS && most <= DUSKCLAMP_STEPS ? 0 : 1;
}
