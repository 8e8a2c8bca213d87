/* One frame of calls of one kind on world 0 of a pool, whose worlds share its runs evenly. `make bench-calls` counts its instructions, which no
 * cache and no other work on the machine changes; those of a frame without calls are the soundness check's.
 * Arguments: the kind, the capacity, the runs, the calls, the worlds. */
#include <stdio.h>
#include <stdlib.h>
#include <string.h>
#include "chance.h"
#include "vizturel.h"

static const struct {
    const char *name;
    uint64_t call;
} kinds[] = {
    {"set", VIZTUREL_CALL_SET},   {"flip", VIZTUREL_CALL_FLIP},     {"shift", VIZTUREL_CALL_SHIFT},   {"get", VIZTUREL_CALL_GET},
    {"find", VIZTUREL_CALL_FIND}, {"tally", VIZTUREL_CALL_TALLY},   {"select", VIZTUREL_CALL_SELECT}, {"run_at", VIZTUREL_CALL_RUN_AT},
};

/* Sets and flips come in pairs, the second of which undoes the first: of positions before a run, then of those after one. */
static void change(vizturel_call *c, size_t i, uint64_t cell, const uint64_t *ends) {
    static uint64_t first, last;
    if (i % 4 == 0) first = BASE + cell * CELL + chance(100);
    if (i % 4 == 2) first = ends[cell] + 1;
    if (i % 2 == 0) last = first + chance(50);
    c->lower = vizturel_included(first);
    c->upper = vizturel_included(last);
    c->value = i % 2 == 0;
}

static void report(vizturel_call *c, uint64_t cell) {
    uint64_t first = BASE + cell * CELL + chance(CELL);
    c->lower.value = first;
    if (c->call == VIZTUREL_CALL_GET) return; /* it takes a position, and no bound */
    c->lower = vizturel_included(first);
    c->upper = vizturel_included(first + chance(200000));
    c->value = 1;
    c->k = 3;
}

int main(int argc, char **argv) {
    if (argc != 6) return 2;
    uint64_t call = 0, limits[32];
    size_t capacity = strtoul(argv[2], NULL, 10), calls = strtoul(argv[4], NULL, 10), worlds = strtoul(argv[5], NULL, 10);
    size_t runs = strtoul(argv[3], NULL, 10) / worlds, count = VIZTUREL_WORDS(capacity);
    for (size_t i = 0; i < sizeof kinds / sizeof *kinds; i++)
        if (strcmp(argv[1], kinds[i].name) == 0) call = kinds[i].call;
    uint64_t *words = calloc(count, sizeof *words), *list = calloc(2 * runs, sizeof *list), *ends = calloc(runs, sizeof *ends);
    vizturel_call *asked = calloc(calls + 1, sizeof *asked);
    vizturel_answer *answers = calloc(calls + 1, sizeof *answers);
    for (size_t k = 0; k < worlds; k++) {
        limits[2 * k] = 0;
        limits[2 * k + 1] = UINT64_MAX;
    }
    if (vizturel_new(words, count, limits, 2 * worlds) != 0) return 1;
    for (size_t k = 0; k < worlds; k++) {
        for (size_t i = 0; i < runs; i++) {
            list[2 * i] = BASE + i * CELL + 256 + chance(128);
            list[2 * i + 1] = ends[i] = list[2 * i] + 127 + chance(256);
        }
        if (vizturel_build(words, count, k, list, 2 * runs) != 0) return 1;
    }
    for (size_t i = 0; i < calls; i++) {
        uint64_t cell = chance(runs);
        asked[i].call = call;
        if (call == VIZTUREL_CALL_SET || call == VIZTUREL_CALL_FLIP)
            change(&asked[i], i, cell, ends);
        else
            report(&asked[i], cell);
        if (call == VIZTUREL_CALL_SHIFT) { /* up and down in turn */
            asked[i].lower.value = 1 + i % 2;
            asked[i].value = i % 2;
        }
    }
    if (vizturel_play(words, count, asked, calls, answers, calls) != 0) return 1;
    for (size_t i = 0; i < calls; i++)
        if (answers[i].refusal != 0) return 1;
    return 0;
}
