/* A self-service kiosk without an interpreter: two borrowers' screens and the returns desk lend and take back books on two accounts, each by a script of
 * lock operations that duskclamp_dispatch runs. The trace of the run says who took each step, at which operation, what became of it, and whom it unparked. */
#include "duskclamp.h"
#include <inttypes.h>
#include <stdio.h>

#define THREADS 3
#define ACCOUNTS 2
/* The most steps of a turn. */
#define QUANTUM 3
#define ROOM 64

static const char *const names[THREADS] = {"screen 1", "screen 2", "returns"};

/* Number and account of each operation, one script behind the other. */
static const uint8_t scripts[] = {
    /* Screen 1 is to lend a book on account 1, which has five, the most: it waits there until some are back. */
    DUSKCLAMP_ENTER, 1, DUSKCLAMP_WAIT, 1, DUSKCLAMP_EXIT, 1,
    /* Screen 2 lends a book on account 2, then one on account 1. */
    DUSKCLAMP_ENTER, 2, DUSKCLAMP_EXIT, 2, DUSKCLAMP_ENTER, 1, DUSKCLAMP_EXIT, 1,
    /* The returns desk takes two books back on account 1 and tells who waits there; before it leaves, it takes one back on account 2. */
    DUSKCLAMP_ENTER, 1, DUSKCLAMP_NOTIFY, 1, DUSKCLAMP_ENTER, 2, DUSKCLAMP_EXIT, 2, DUSKCLAMP_EXIT, 1,
};

/* What each operation does to the books on its account when it is finished: one more lent, some back, or nothing. Only who owns an account touches it. */
static const int books[] = {
    0, 1, 0,         /* screen 1 */
    1, 0, 1, 0,      /* screen 2 */
    -2, 0, -1, 0, 0, /* returns */
};

/* The books that are lent on each account. */
static int lent[ACCOUNTS] = {5, 2};

/* Where each thread's script lies in them, and how many of its operations are begun. */
static duskclamp_script cursors[THREADS] = {{0, 3, 0}, {3, 4, 0}, {7, 5, 0}};

static uint8_t table[DUSKCLAMP_TABLE_SIZE];
static uint64_t trace[ROOM];

static void say_unparked(uint64_t entry) {
    uint32_t set = DUSKCLAMP_UNPARKED(entry);
    for (uint32_t thread = 1; thread <= THREADS; thread++)
        if ((set >> (thread - 1)) & 1)
            printf(", unparks %s", names[thread - 1]);
}

static void lend(uint32_t account, int more) {
    lent[account - 1] += more;
    printf(", %s %d: %d on account %u", more > 0 ? "lends" : "takes back", more > 0 ? more : -more, lent[account - 1], account);
}

/* One step, of a thread that has begun so many operations of its script. */
static void say_step(uint64_t entry, uint32_t begun) {
    uint32_t thread = DUSKCLAMP_TRACE_THREAD(entry), place = cursors[thread - 1].start + begun - 1;
    const uint8_t *operation = &scripts[place * DUSKCLAMP_OPERATION_SIZE];
    printf("%-8s  %-8s %s account %u: %s", names[thread - 1], DUSKCLAMP_TRACE_BEGAN(entry) ? "begins" : "goes on",
           duskclamp_operation_name(operation[0]), operation[1], duskclamp_returned_name(DUSKCLAMP_RETURNED(entry)));
    if (DUSKCLAMP_WOKEN(entry) != 0)
        printf(", threads woken: %" PRIu32, DUSKCLAMP_WOKEN(entry));
    if (DUSKCLAMP_RETURNED(entry) == DUSKCLAMP_FINISHED && books[place] != 0)
        lend(operation[1], books[place]);
    say_unparked(entry);
    printf("\n");
}

/* All steps; the operations that each thread has begun are counted along. */
static void say_trace(uint64_t steps) {
    uint32_t begun[THREADS] = {0};
    for (uint64_t step = 0; step < steps && step < ROOM; step++) {
        uint32_t thread = DUSKCLAMP_TRACE_THREAD(trace[step]);
        begun[thread - 1] += DUSKCLAMP_TRACE_BEGAN(trace[step]);
        say_step(trace[step], begun[thread - 1]);
    }
}

/* How far each script came; whether all came to their end. */
static int say_ends(void) {
    int all = 1;
    for (uint32_t thread = 1; thread <= THREADS; thread++) {
        const duskclamp_script *script = &cursors[thread - 1];
        uint32_t phase = DUSKCLAMP_VALUE(duskclamp_phase(table, sizeof table, thread));
        printf("%-8s  %" PRIu32 " of %" PRIu32 " operations begun, %s\n", names[thread - 1], script->cursor, script->length, duskclamp_phase_name(phase));
        all = all && script->cursor == script->length && phase == DUSKCLAMP_PHASE_IDLE;
    }
    return all;
}

int main(void) {
    duskclamp_fresh(table, sizeof table, THREADS, ACCOUNTS, 0);
    uint64_t answer = duskclamp_dispatch(table, sizeof table, QUANTUM, scripts, sizeof scripts, cursors, THREADS, trace, ROOM);
    if (DUSKCLAMP_RETURNED(answer) != 0) {
        printf("refused: %s\n", duskclamp_returned_name(DUSKCLAMP_RETURNED(answer)));
        return 1;
    }
    say_trace(DUSKCLAMP_STEPS_TAKEN(answer));
    printf("steps: %" PRIu64 "\n", DUSKCLAMP_STEPS_TAKEN(answer));
    return say_ends() ? 0 : 1;
}
