/* One frame on a pool of one world that is new, was grown, or was grown and then emptied in another order, wholly or to a tenth. `make
 * bench-aged-calls` counts its instructions. Growing is done in frames of a thousand calls, and emptying in one frame, which leaves the free chain
 * worn.
 * Arguments: the capacity, new, grown, tenth or emptied, the calls of the frame. */
#include <stdio.h>
#include <stdlib.h>
#include <string.h>
#include "chance.h"
#include "vizturel.h"

static uint64_t *words;
static size_t count;

static vizturel_call change(uint64_t call, uint64_t first, uint64_t last, uint64_t value) {
    vizturel_call c = {call, vizturel_included(first), vizturel_included(last), value, 0, 0};
    return c;
}

static void shuffle(uint64_t *cells, size_t n) {
    for (size_t i = 1; i < n; i++) {
        size_t j = chance(i + 1);
        uint64_t cell = cells[i];
        cells[i] = cells[j];
        cells[j] = cell;
    }
}

/* Sets the runs of cells, in frames of so many calls. */
static void sets(const uint64_t *cells, size_t n, size_t frame, uint64_t value) {
    vizturel_call *calls = calloc(frame, sizeof *calls);
    vizturel_answer *answers = calloc(frame, sizeof *answers);
    for (size_t from = 0; from < n; from += frame) {
        size_t some = n - from < frame ? n - from : frame;
        for (size_t i = 0; i < some; i++) {
            uint64_t first = BASE + cells[from + i] * CELL + 256;
            calls[i] = change(VIZTUREL_CALL_SET, first, first + 255, value);
        }
        if (vizturel_play(words, count, calls, some, answers, some) != 0) exit(1);
        for (size_t i = 0; i < some; i++)
            if (answers[i].refusal != 0) exit(1);
    }
    free(calls);
    free(answers);
}

/* The call whose instructions are counted. */
__attribute__((noinline)) static uint64_t measured(const vizturel_call *calls, size_t n, vizturel_answer *answers) {
    return vizturel_play(words, count, calls, n, answers, n);
}

int main(int argc, char **argv) {
    if (argc != 4) return 2;
    size_t capacity = strtoul(argv[1], NULL, 10), n = strtoul(argv[3], NULL, 10), runs = capacity * 9 / 10;
    count = VIZTUREL_WORDS(capacity);
    words = calloc(count, sizeof *words);
    uint64_t *cells = calloc(runs, sizeof *cells);
    vizturel_call *calls = calloc(n + 10, sizeof *calls);
    vizturel_answer *answers = calloc(n + 10, sizeof *answers);
    if (vizturel_new_one(words, count) != 0) return 1;
    for (size_t i = 0; i < runs; i++) cells[i] = i;
    shuffle(cells, runs);
    if (strcmp(argv[2], "new") != 0) sets(cells, runs, 1000, 1);
    shuffle(cells, runs);
    size_t left = strcmp(argv[2], "tenth") == 0 ? capacity / 10 : 0;
    if (left != 0 || strcmp(argv[2], "emptied") == 0) sets(cells + left, runs - left, runs, 0);
    /* ten at a time: four sets and two flips that make three runs and take them away, and four reports */
    for (size_t i = 0; i < n; i += 10) {
        uint64_t at = BASE + chance(runs - 2) * CELL + 56, x = BASE + chance(runs) * CELL, a[3], b[3];
        for (size_t j = 0; j < 3; j++) {
            a[j] = at + j * CELL;
            b[j] = a[j] + chance(50);
        }
        vizturel_call *c = calls + i;
        c[0] = change(VIZTUREL_CALL_SET, a[0], b[0], 1);
        c[1] = change(VIZTUREL_CALL_GET, x, 0, 0);
        c[2] = change(VIZTUREL_CALL_SET, a[1], b[1], 1);
        c[3] = change(VIZTUREL_CALL_FIND, x, x + 5 * CELL, 1);
        c[4] = change(VIZTUREL_CALL_FLIP, a[2], b[2], 0);
        c[5] = change(VIZTUREL_CALL_TALLY, x, x + 100 * CELL, 1);
        c[6] = change(VIZTUREL_CALL_SET, a[0], b[0], 0);
        c[7] = change(VIZTUREL_CALL_SELECT, x, x + 100 * CELL, 1);
        c[8] = change(VIZTUREL_CALL_SET, a[1], b[1], 0);
        c[9] = change(VIZTUREL_CALL_FLIP, a[2], b[2], 0);
    }
    return measured(calls, n, answers) != 0;
}
