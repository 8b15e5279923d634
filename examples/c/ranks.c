/* A borrower at the screen does not queue behind the overdue list. The desk owns the catalogue; the overdue list queues for it, then the returns desk,
 * then the screen. By their ranks each passes those that are less urgent, and they get the catalogue in that order. */
#include "duskclamp.h"
#include <inttypes.h>
#include <stdio.h>

#define CATALOGUE 1

enum { SCREEN = 1, OVERDUE_LIST = 2, RETURNS = 3, DESK = 4, THREADS = 4 };

static const char *const names[THREADS + 1] = {"nobody", "screen", "overdue list", "returns", "desk"};

static uint8_t table[DUSKCLAMP_TABLE_SIZE];

/* Takes the steps of an operation whose begin was answered so, until it is finished or parks. */
static uint64_t take_steps(uint64_t answer, uint32_t thread) {
    while (DUSKCLAMP_RETURNED(answer) == DUSKCLAMP_GONE_ON)
        answer = duskclamp_step(table, sizeof table, thread);
    return answer;
}

static uint64_t run(uint32_t thread, uint32_t operation) {
    return take_steps(duskclamp_begin(table, sizeof table, thread, operation, CATALOGUE), thread);
}

/* The desk enters, and waits there for a tick: that makes its lock a monitor, which others queue for. */
static void enter_desk(void) {
    run(DESK, DUSKCLAMP_ENTER);
    take_steps(duskclamp_timed_wait(table, sizeof table, DESK, CATALOGUE, 1), DESK);
    duskclamp_tick(table, sizeof table);
    duskclamp_step(table, sizeof table, DESK);
    printf("owner: %s\n", names[DUSKCLAMP_VALUE(duskclamp_owner(table, sizeof table, CATALOGUE))]);
}

static void queue(uint32_t thread) {
    uint64_t answer = run(thread, DUSKCLAMP_ENTER);
    printf("%s, rank %" PRIu32 ": %s; the entry chain is", names[thread], DUSKCLAMP_VALUE(duskclamp_rank(table, sizeof table, thread)),
           duskclamp_returned_name(DUSKCLAMP_RETURNED(answer)));
    uint32_t next = DUSKCLAMP_VALUE(duskclamp_entry_first(table, sizeof table, CATALOGUE));
    const char *before = " ";
    for (; next != 0; next = DUSKCLAMP_VALUE(duskclamp_next(table, sizeof table, next))) {
        printf("%s%s", before, names[next]);
        before = ", ";
    }
    printf("\n");
}

/* The owner leaves, and whoever is handed the monitor enters. Gives back who that is. */
static uint32_t leave(uint32_t owner) {
    uint64_t answer = run(owner, DUSKCLAMP_EXIT);
    uint32_t next = 0;
    for (uint32_t thread = 1; thread <= THREADS; thread++)
        if ((DUSKCLAMP_UNPARKED(answer) >> (thread - 1)) & 1)
            next = thread;
    printf("%s leaves, unparked: %s\n", names[owner], names[next]);
    if (next != 0)
        duskclamp_step(table, sizeof table, next);
    return next;
}

int main(void) {
    duskclamp_given given = {{0}};
    given.rank[SCREEN - 1] = DUSKCLAMP_RANKS;
    given.rank[RETURNS - 1] = 1;
    uint32_t returned = duskclamp_fresh_given(table, sizeof table, THREADS, 1, 0, &given, sizeof given);
    if (returned != 0) {
        fprintf(stderr, "no table: %s\n", duskclamp_returned_name(returned));
        return 1;
    }
    enter_desk();
    queue(OVERDUE_LIST);
    queue(RETURNS);
    queue(SCREEN);
    for (uint32_t owner = DESK; owner != 0;)
        owner = leave(owner);
    return 0;
}
