/* README's snippets in C, one behind the other in one program; tests/c_example.sh takes them from README into readme_snippets.h, and compares what they
 * print with what README says. */
#include "duskclamp.h"
#include <stdio.h>

/* What the scheduler's loop asks for: a run queue, and a thread's next operation. Thread 1 stands in the queue with its enter finished, so that its
 * step is answered 15; it leaves the object, and then has nothing more to do. */
static uint32_t queue[DUSKCLAMP_THREADS] = {1}, queued = 1, asked;
#define begin_next(thread) begin_exit(table, thread)

static uint32_t take(void) {
    return queue[--queued];
}

static void put(uint32_t thread) {
    queue[queued++] = thread;
}

static void begin_exit(uint8_t *table, uint32_t thread) {
    if (asked++ == 0 && DUSKCLAMP_RETURNED(duskclamp_begin(table, DUSKCLAMP_TABLE_SIZE, thread, DUSKCLAMP_EXIT, 1)) == DUSKCLAMP_GONE_ON)
        put(thread);
}

static int snippets(void) {
#include "readme_snippets.h"
    printf("\n");
    return asked == 2 ? 0 : 1;
}

int main(void) {
    return snippets();
}
