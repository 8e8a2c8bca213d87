/* A hundred single calls of one kind on a pool that has lived: 4,000 flips gave its nodes back in another order. `make bench-singles` counts their
 * instructions, which no cache and no other work on the machine changes. Arguments: the kind, the capacity, the runs. */
#include <stdio.h>
#include <stdlib.h>
#include <string.h>
#include "vizturel.h"

enum { CALLS = 100, ROOM = 1 << 16 };

static uint64_t *words, *other, list[ROOM];
static size_t count, runs, set_bytes;
static uint8_t set[ROOM], out[ROOM], report[ROOM];

/* Calls go to the middle of what is held. Each kind of call is asked of `words`, or overwrites `other`. The answer is the refusal. */
static uint64_t one(const char *kind, uint64_t i) {
    uint64_t middle = 1000 * (runs / 2) + 100;
    vizturel_bound lower = vizturel_included(middle), upper = vizturel_included(middle + 50);
#define IS(name) if (strcmp(kind, name) == 0) return
    IS("get") vizturel_get(words, count, 0, middle + i).refusal;
    IS("run_at") vizturel_run_at(words, count, 0, middle + i).refusal;
    IS("find") vizturel_find(words, count, 0, lower, upper, 1).refusal;
    IS("tally") vizturel_tally(words, count, 0, lower, upper, 1).refusal;
    IS("select") vizturel_select(words, count, 0, lower, upper, 1, 3).refusal;
    IS("gap") vizturel_gap(words, count, 0, lower, upper, 3).refusal;
    IS("draw_front") vizturel_draw_front(words, count, 0, 0, UINT64_MAX, 1).refusal;
    IS("fill") vizturel_fill(words, count, 0, 0, 64).refusal;
    IS("count_rect") vizturel_count_rect(words, count, 0, vizturel_corners(0, 0, 2, 2)).refusal;
    IS("eq") vizturel_eq(words, count, 0, words, count, 0).refusal;
    IS("set") vizturel_set(words, count, 0, lower, upper, i % 2 == 0).refusal;
    IS("flip") vizturel_flip(words, count, 0, lower, upper);
    IS("shift") vizturel_shift(words, count, 0, 1 + i % 2, i % 2);
    IS("set_rect") vizturel_set_rect(words, count, 0, vizturel_corners(0, 0, 1, 1), i % 2).refusal;
    IS("combine") vizturel_combine(other, count, 0, VIZTUREL_OR, words, count, 0, words, count, 0);
    IS("not") vizturel_not(other, count, 0, words, count, 0);
    IS("shifted") vizturel_shifted(other, count, 0, 1, 1, words, count, 0);
    IS("build") vizturel_build(other, count, 0, list, 2 * runs);
    IS("load") vizturel_load(other, count, 0, set, set_bytes);
    IS("mend") vizturel_mend(other, count, 0, set, set_bytes, out, sizeof out, report, sizeof report).refusal;
    IS("read_map") vizturel_read_map(other, count, 0, 0, 128, out, 16).refusal;
    IS("write") vizturel_write(words, count, 0, 2, out, sizeof out).refusal;
    IS("write_map") vizturel_write_map(words, count, 0, 0, 128, out, sizeof out).refusal;
    IS("deepest") vizturel_deepest(words, count, 2, list, ROOM).refusal;
    fprintf(stderr, "no call is named %s\n", kind);
    exit(2);
}

__attribute__((noinline)) uint64_t asked(const char *kind) {
    uint64_t refused = 0;
    for (uint64_t i = 0; i < CALLS; i++) refused |= one(kind, i);
    return refused;
}

int main(int argc, char **argv) {
    if (argc != 4) return 2;
    size_t capacity = strtoul(argv[2], NULL, 10);
    runs = strtoul(argv[3], NULL, 10);
    count = VIZTUREL_WORDS(capacity);
    words = calloc(count, sizeof *words);
    other = calloc(count, sizeof *other);
    if (vizturel_new_one(words, count) != 0 || vizturel_new_one(other, count) != 0) return 1;
    for (size_t i = 0; i < runs; i++) {
        list[2 * i] = 1000 * i + 100;
        list[2 * i + 1] = 1000 * i + 400;
    }
    if (vizturel_build(words, count, 0, list, 2 * runs) != 0) return 1;
    for (size_t i = 0; i < 4000; i++) { /* each pair leaves what it found */
        uint64_t first = 1000 * (i / 2 * 7 % (runs - 1)) + 500;
        if (vizturel_flip(words, count, 0, vizturel_included(first), vizturel_included(first + 50)) != 0) return 1;
    }
    vizturel_written written = vizturel_write(words, count, 0, 2, set, sizeof set);
    set_bytes = written.bytes;
    return written.refusal != 0 || asked(argv[1]) != 0;
}
