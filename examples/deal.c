/* Deals body slots, and writes the set for a player who comes late. */
#include <stdio.h>
#include "vizturel.h"

#define RUNS 64 /* the pool holds at most so many runs of slots in use */
#define WORDS VIZTUREL_WORDS(RUNS)
#define BODIES 0 /* the number of its only world */
static uint64_t pool[WORDS];
static uint8_t written[VIZTUREL_SET_BYTES(RUNS)];

/* Takes the lowest free slot; 0 where there is none, or a call was refused. */
static int deal(uint64_t *slot) {
    vizturel_found f = vizturel_find(pool, WORDS, BODIES, vizturel_unbounded(), vizturel_unbounded(), 0);
    if (f.refusal != 0 || !f.found) return 0;
    *slot = f.position;
    vizturel_bound at = vizturel_included(f.position);
    return vizturel_set(pool, WORDS, BODIES, at, at, 1).refusal == 0;
}

int main(void) {
    uint64_t slot;
    vizturel_bound two = vizturel_included(2);
    if (vizturel_new_one(pool, WORDS) != 0) return 1;
    for (int i = 0; i < 5; i++)
        if (!deal(&slot)) return 1;
    if (vizturel_set(pool, WORDS, BODIES, two, two, 0).refusal != 0) return 1; /* body 2 is gone */
    for (int i = 0; i < 2; i++) {
        if (!deal(&slot)) return 1;
        printf("dealt %d\n", (int)slot); /* 2, then 5 */
    }
    vizturel_written w = vizturel_write(pool, WORDS, BODIES, VIZTUREL_ROWS, written, sizeof written);
    printf("a written set of %d bytes\n", (int)w.bytes);
    return w.refusal != 0;
}
