/* How much stack each call of the library needs: every call is made on a stack of its own that was filled with a pattern, over a long random schedule
 * of 32 threads of all ranks, and the deepest byte that was written counts. memcpy and memset are bound before (-z now), so that the linker's own stack does not
 * count. Build and run, from the repository:
 *
 *     gcc -O2 -Wl,-z,now -I include bench/stack.c target/staticlib/liblock_engine_c.a -o target/stack && target/stack
 */
#include "duskclamp.h"
#include <stdio.h>
#include <string.h>
#include <ucontext.h>

#define STACK_SIZE 65536
#define PATTERN 0xa5
#define EVENTS 20000

static uint8_t table[DUSKCLAMP_TABLE_SIZE];
static uint8_t stack[STACK_SIZE] __attribute__((aligned(64)));
static ucontext_t here, there;
static void (*called)(void);
static uint32_t thread, operation, object, sizes, kind;
static volatile uint64_t answer;

static void call_nothing(void) { answer = 0; }
static duskclamp_given given;
static void call_fresh(void) { answer = duskclamp_fresh(table, sizeof table, sizes, 4, kind); }
static void call_fresh_given(void) { answer = duskclamp_fresh_given(table, sizeof table, sizes, 4, kind, &given, sizeof given); }
static void call_begin(void) { answer = duskclamp_begin(table, sizeof table, thread, operation, object); }
static void call_timed_wait(void) { answer = duskclamp_timed_wait(table, sizeof table, thread, object, 1 + operation); }
static void call_tick(void) { answer = duskclamp_tick(table, sizeof table); }
static void call_step(void) { answer = duskclamp_step(table, sizeof table, thread); }

/* The same begin, step and tick in one call. */
static void call_run(void) {
    uint64_t answers[3];
    duskclamp_event events[3] = {{DUSKCLAMP_KIND_BEGIN, (uint8_t)thread, (uint8_t)operation, (uint8_t)object, 3},
        {DUSKCLAMP_KIND_STEP, (uint8_t)thread, 0, 0, 0}, {DUSKCLAMP_KIND_TICK, 0, 0, 0, 0}};
    answer = duskclamp_run(table, sizeof table, (const uint8_t *)events, sizeof events, answers, 3);
}

/* All threads have the same script, and run on a copy of the table to the end. */
static uint8_t copy[DUSKCLAMP_TABLE_SIZE], script[2 * DUSKCLAMP_OPERATION_SIZE];
static duskclamp_script cursors[DUSKCLAMP_THREADS];
static uint64_t trace[64];

static void make_scripts(void) {
    memcpy(copy, table, sizeof copy);
    for (uint32_t place = 0; place < DUSKCLAMP_THREADS; place++)
        cursors[place] = (duskclamp_script){0, 2, 0};
    script[0] = DUSKCLAMP_ENTER, script[2] = (uint8_t)(operation % 5 + 1);
    script[1] = script[3] = (uint8_t)object;
}

static void call_dispatch(void) {
    answer = duskclamp_dispatch(copy, sizeof copy, 1 + operation, script, sizeof script, cursors, DUSKCLAMP_THREADS, trace, 64);
}

static void call_questions(void) {
    answer = duskclamp_thread_count(table, sizeof table);
    answer = duskclamp_phase(table, sizeof table, thread);
    answer = duskclamp_blocker(table, sizeof table, thread);
    answer = duskclamp_rank(table, sizeof table, thread);
    answer = duskclamp_depth(table, sizeof table, object);
    answer = duskclamp_word_kind(table, sizeof table, object);
    answer = duskclamp_word_thread(table, sizeof table, object);
}

static void enter(void) { called(); }

/* How many bytes of its stack the call wrote to. */
static size_t used(void (*function)(void)) {
    memset(stack, PATTERN, sizeof stack);
    getcontext(&there);
    there.uc_stack.ss_sp = stack;
    there.uc_stack.ss_size = sizeof stack;
    there.uc_link = &here;
    called = function;
    makecontext(&there, enter, 0);
    swapcontext(&here, &there);
    size_t untouched = 0;
    while (untouched < sizeof stack && stack[untouched] == PATTERN)
        untouched++;
    return sizeof stack - untouched;
}

static uint32_t draw(uint32_t below) {
    static uint64_t state = 1;
    state = state * 6364136223846793005u + 1442695040888963407u;
    return (uint32_t)(state >> 33) % below;
}

static void keep(size_t *most, size_t found) {
    if (found > *most)
        *most = found;
}

int main(void) {
    size_t fresh = 0, fresh_given = 0, begin = 0, step = 0, tick = 0, run = 0, dispatch = 0, questions = 0, nothing = used(call_nothing);
    for (uint32_t place = 0; place < DUSKCLAMP_THREADS; place++)
        given.rank[place] = (uint8_t)(place % (DUSKCLAMP_RANKS + 1));
    for (int round = 0; round < 8; round++) {
        sizes = 32;
        kind = round % 2;
        keep(&fresh, used(call_fresh));
        keep(&fresh_given, used(call_fresh_given));
        for (int event = 0; event < EVENTS; event++) {
            thread = draw(32) + 1;
            operation = draw(6) + 1;
            object = draw(4) + 1;
            if (event % 2 == 0) {
                keep(&begin, used(operation == DUSKCLAMP_TIMED_WAIT ? call_timed_wait : call_begin));
                keep(&step, used(call_step));
            } else {
                keep(&run, used(call_run));
            }
            if (event % 16 == 8)
                keep(&tick, used(call_tick));
            if (event % 16 == 0)
                keep(&questions, used(call_questions));
            if (event % 16 == 4) {
                make_scripts();
                keep(&dispatch, used(call_dispatch));
            }
        }
    }
    printf("fresh %zu, fresh given %zu, begin %zu, step %zu, tick %zu, run %zu, dispatch %zu, questions %zu bytes\n", fresh - nothing,
           fresh_given - nothing, begin - nothing, step - nothing, tick - nothing, run - nothing, dispatch - nothing, questions - nothing);
    return 0;
}
