/* What a fresh table is given, by the struct: what is short of it, what lies behind it, and what is refused. */
#include "duskclamp.h"
#include <stdio.h>
#include <string.h>

#define THREADS 2

static uint8_t table[DUSKCLAMP_TABLE_SIZE];

/* The struct with more behind it, as a later version of the library may have it. */
static struct {
    duskclamp_given known;
    uint8_t later[DUSKCLAMP_OBJECTS];
} given;

static uint32_t make(size_t length, uint32_t threads, size_t given_length) {
    memset(table, 0xa5, sizeof table);
    return duskclamp_fresh_given(table, length, threads, 1, 0, &given.known, given_length);
}

static uint32_t rank(uint32_t thread) {
    return DUSKCLAMP_VALUE(duskclamp_rank(table, sizeof table, thread));
}

/* Whether nothing was stored. */
static int left(void) {
    size_t place = 0;
    while (place < sizeof table && table[place] == 0xa5)
        place++;
    return place == sizeof table;
}

static int plain(void) {
    uint8_t fresh[DUSKCLAMP_TABLE_SIZE];
    duskclamp_fresh(fresh, sizeof fresh, THREADS, 1, 0);
    return memcmp(fresh, table, sizeof table) == 0;
}

int main(void) {
    uint32_t returned;
    memset(&given, 0xff, sizeof given);
    given.known.rank[0] = 1;
    given.known.rank[1] = DUSKCLAMP_RANKS;
    for (size_t length = 0; length <= sizeof given; length++) {
        returned = make(sizeof table, THREADS, length);
        if (returned != 0 || rank(1) != (length > 0) || rank(2) != (length > 1 ? DUSKCLAMP_RANKS : 0)) {
            printf("%u bytes: %u, ranks %u and %u\n", (unsigned)length, (unsigned)returned, (unsigned)rank(1), (unsigned)rank(2));
            return 1;
        }
    }
    returned = make(sizeof table, THREADS, 0);
    printf("nothing given: %u, %s\n", (unsigned)returned, plain() ? "as duskclamp_fresh" : "another table");
    given.known.rank[1] = DUSKCLAMP_RANKS + 1;
    returned = make(sizeof table - 1, DUSKCLAMP_THREADS + 1, sizeof given);
    printf("a byte short: %u, %s\n", (unsigned)returned, left() ? "left" : "changed");
    returned = make(sizeof table, DUSKCLAMP_THREADS + 1, sizeof given);
    printf("too many threads: %u, %s\n", (unsigned)returned, left() ? "left" : "changed");
    returned = make(sizeof table, THREADS, sizeof given);
    printf("%s: %u, %s\n", duskclamp_returned_name(returned), (unsigned)returned, left() ? "left" : "changed");
    returned = make(sizeof table, THREADS - 1, sizeof given);
    printf("the same past the threads: %u\n", (unsigned)returned);
    return 0;
}
