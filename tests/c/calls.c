/* The library through include/vizturel.h: the sixteen cases of the scope document, the editions of written sets, mended sets, the lowest gap, strict
 * calls, spare bits of maps, maps by words and by single bytes, the deepest trees, why lists stop, cells of a grid, each refusal, that a refused call
 * changes nothing, calls by lists, and worlds that share a pool. Compiled as C and as C++.
 * Prints what failed, and last 'N passed, M failed'. */
#include <stdio.h>
#include <stdlib.h>
#include <string.h>
#include "vizturel.h"

#define M UINT64_MAX
#ifdef __cplusplus
#define ASSERT static_assert
#else
#define ASSERT _Static_assert
#endif
#define WORD(type, field, i) ASSERT(offsetof(type, field) == 8 * (i), "word " #i " of " #type)

/* records are eight words, in the order that the proved code reads and writes */
ASSERT(sizeof(vizturel_call) == 64 && sizeof(vizturel_answer) == 64, "a record has eight words");
WORD(vizturel_call, call, 0);
WORD(vizturel_call, lower.kind, 1);
WORD(vizturel_call, lower.value, 2);
WORD(vizturel_call, upper.kind, 3);
WORD(vizturel_call, upper.value, 4);
WORD(vizturel_call, value, 5);
WORD(vizturel_call, k, 6);
WORD(vizturel_call, world, 7);
/* a range of a list is four words */
ASSERT(sizeof(vizturel_range) == 32, "a range has four words");
WORD(vizturel_range, lower.kind, 0);
WORD(vizturel_range, lower.value, 1);
WORD(vizturel_range, upper.kind, 2);
WORD(vizturel_range, upper.value, 3);
/* a rectangle is four words */
ASSERT(sizeof(vizturel_rect) == 32, "a rectangle has four words");
WORD(vizturel_rect, top, 0);
WORD(vizturel_rect, left, 1);
WORD(vizturel_rect, bottom, 2);
WORD(vizturel_rect, right, 3);
WORD(vizturel_answer, refusal, 0);
WORD(vizturel_answer, found, 1);
WORD(vizturel_answer, number, 2);
WORD(vizturel_answer, end, 3);
WORD(vizturel_answer, first, 4);
WORD(vizturel_answer, last, 5);
WORD(vizturel_answer, value, 6);

#define CAPACITY 13
#define WORDS VIZTUREL_WORDS(CAPACITY)

static int passed, failed;

static void check(int ok, const char *what, int line) {
    if (ok) {
        passed++;
    } else {
        failed++;
        printf("line %d: %s\n", line, what);
    }
}
#define CHECK(x) check((x), #x, __LINE__)

static uint64_t s[WORDS], a[WORDS], b[WORDS], one[VIZTUREL_WORDS(1)], kept[WORDS];
static uint8_t out[VIZTUREL_SET_BYTES(CAPACITY)];

#define IN vizturel_included
#define EX vizturel_excluded
#define ALL vizturel_unbounded()

/* The world at which calls are made where nothing else is said: the only one of its pool, in a second turn the second of three. */
static uint64_t here;

/* a pool of which that world is empty; where there is room, each of the others holds a run */
static void fresh(uint64_t *w, size_t n) {
    static const uint64_t three[] = {0, M, 0, M, 0, M}, run[] = {3, 9};
    if (here == 0) {
        CHECK(vizturel_new_one(w, n) == VIZTUREL_DONE);
        return;
    }
    CHECK(vizturel_new(w, n, three, 6) == VIZTUREL_DONE);
    if (n >= WORDS) CHECK(vizturel_build(w, n, 0, run, 2) == VIZTUREL_DONE && vizturel_build(w, n, 2, run, 2) == VIZTUREL_DONE);
}

static vizturel_counted put(uint64_t *w, size_t n, uint64_t from, uint64_t past, uint64_t value) {
    return vizturel_set(w, n, here, IN(from), EX(past), value);
}

/* a new set of one run */
static void only(uint64_t *w, size_t n, uint64_t start, uint64_t end) {
    fresh(w, n);
    CHECK(vizturel_set(w, n, here, IN(start), IN(end), 1).refusal == VIZTUREL_DONE);
}

static int is_count(vizturel_counted c, uint64_t n) { return c.refusal == 0 && c.carry == 0 && c.low == n; }
static int is_tally(vizturel_tallied t, uint64_t n, uint64_t runs) { return t.refusal == 0 && t.carry == 0 && t.low == n && t.runs == runs; }
static int is_full(vizturel_tallied t) { return t.refusal == 0 && t.carry == 1 && t.low == 0 && t.runs == 1; }
static int is_run(vizturel_around r, uint64_t x, uint64_t y) { return r.refusal == 0 && r.start == x && r.end == y; }
static int at(vizturel_found f, uint64_t x) { return f.refusal == 0 && f.found == 1 && f.position == x; }
static int nowhere(vizturel_found f) { return f.refusal == 0 && f.found == 0; }

/* whether the runs of the value in a range are the n given ones, drawn from the front, and again from the back */
static int lists(const uint64_t *w, size_t count, vizturel_bound lower, vizturel_bound upper, uint64_t value, size_t n, const uint64_t *runs) {
    vizturel_listed l = vizturel_ranges(w, count, here, lower, upper, value);
    vizturel_drawn d;
    uint64_t first = l.first, last = l.last;
    size_t i;
    if (l.refusal != 0) return 0;
    for (i = 0; i < n; i++) {
        d = vizturel_draw_front(w, count, here, first, last, value);
        if (d.refusal != 0 || d.found != 1 || d.start != runs[2 * i] || d.end != runs[2 * i + 1]) return 0;
        first = d.first;
        last = d.last;
    }
    d = vizturel_draw_front(w, count, here, first, last, value);
    if (d.refusal != 0 || d.found != 0 || d.first != 1 || d.last != 0) return 0;
    first = l.first;
    last = l.last;
    for (i = n; i > 0; i--) {
        d = vizturel_draw_back(w, count, here, first, last, value);
        if (d.refusal != 0 || d.found != 1 || d.start != runs[2 * i - 2] || d.end != runs[2 * i - 1]) return 0;
        first = d.first;
        last = d.last;
    }
    return vizturel_draw_back(w, count, here, first, last, value).found == 0;
}

static int holds(const uint64_t *w, size_t count, size_t n, const uint64_t *runs) { return lists(w, count, ALL, ALL, 1, n, runs); }

static void cases(void) {
    static const uint64_t seven[] = {4, 7, 10, 11}, gap[] = {8, 9}, eight[] = {2, 3, 8, 9}, nine[] = {2, 4, 8, 9}, top[] = {M, M};
    static const uint64_t eleven[] = {0, 1}, twelve[] = {0, 24}, fourteen[] = {0, 4, 6, M};
    static const uint8_t fifteen[] = {1, 0, 0, 0, 2, 0, 0, 0, 0, 0, 0, 0, 2, 0, 0, 0, 0, 0, 0, 0, 3, 0, 0, 0, 0, 0, 0, 0, 8, 0, 0, 0, 0, 0, 0, 0, 9};
    vizturel_counted full;
    vizturel_written w;
    vizturel_numbered n;
    uint8_t bytes[37];

    fresh(s, WORDS);
    CHECK(is_count(put(s, WORDS, 2, 8, 1), 6));
    CHECK(is_count(put(s, WORDS, 4, 6, 0), 2));
    CHECK(is_count(put(s, WORDS, 2, 4, 1), 0));

    fresh(s, WORDS);
    full = vizturel_set(s, WORDS, here, ALL, ALL, 1);
    CHECK(full.refusal == 0 && full.carry == 1 && full.low == 0);
    CHECK(is_count(vizturel_set(s, WORDS, here, ALL, ALL, 1), 0));
    CHECK(is_full(vizturel_tally(s, WORDS, here, ALL, ALL, 1)));
    CHECK(is_tally(vizturel_tally(s, WORDS, here, ALL, ALL, 0), 0, 0));

    fresh(s, WORDS);
    CHECK(is_count(vizturel_set(s, WORDS, here, EX(M), ALL, 1), 0));
    CHECK(holds(s, WORDS, 0, NULL));

    only(s, WORDS, 2, 7);
    CHECK(is_run(vizturel_run_at(s, WORDS, here, 4), 2, 7));
    CHECK(is_run(vizturel_run_at(s, WORDS, here, 0), 0, 1));
    CHECK(is_run(vizturel_run_at(s, WORDS, here, 9), 8, M));
    CHECK(at(vizturel_find(s, WORDS, here, IN(4), ALL, 0), 8));
    CHECK(nowhere(vizturel_find(s, WORDS, here, IN(2), EX(8), 0)));
    CHECK(at(vizturel_select(s, WORDS, here, IN(4), EX(12), 0, 1), 9));
    CHECK(nowhere(vizturel_select(s, WORDS, here, IN(4), EX(12), 1, 4)));
    CHECK(vizturel_get(s, WORDS, here, 7).value == 1 && vizturel_get(s, WORDS, here, 8).value == 0);

    put(s, WORDS, 10, 15, 1);
    CHECK(lists(s, WORDS, IN(4), EX(12), 1, 2, seven));
    CHECK(lists(s, WORDS, IN(4), EX(12), 0, 1, gap));
    CHECK(is_tally(vizturel_tally(s, WORDS, here, IN(4), EX(12), 1), 6, 2));
    CHECK(is_tally(vizturel_tally(s, WORDS, here, IN(4), EX(12), 0), 2, 1));
    CHECK(is_tally(vizturel_tally(s, WORDS, here, IN(12), EX(4), 1), 0, 0));

    only(s, WORDS, 2, 7);
    CHECK(vizturel_flip(s, WORDS, here, IN(4), EX(10)) == 0);
    CHECK(holds(s, WORDS, 2, eight));

    only(a, WORDS, 2, 7);
    only(b, WORDS, 5, 9);
    CHECK(vizturel_combine(s, WORDS, here, 0, a, WORDS, here, b, WORDS, here) == 0 && is_tally(vizturel_tally(s, WORDS, here, ALL, ALL, 1), 3, 1));
    CHECK(vizturel_combine(s, WORDS, here, 1, a, WORDS, here, b, WORDS, here) == 0 && is_tally(vizturel_tally(s, WORDS, here, ALL, ALL, 1), 8, 1));
    CHECK(vizturel_combine(s, WORDS, here, 2, a, WORDS, here, b, WORDS, here) == 0 && holds(s, WORDS, 2, nine));
    CHECK(vizturel_eq(a, WORDS, here, b, WORDS, here).value == 0 && vizturel_eq(a, WORDS, here, a, WORDS, here).value == 1);

    only(s, WORDS, M - 1, M);
    CHECK(vizturel_shift(s, WORDS, here, 1, 1) == 0 && holds(s, WORDS, 1, top));
    only(a, WORDS, M - 1, M);
    CHECK(vizturel_shifted(s, WORDS, here, 2, 1, a, WORDS, here) == 0 && holds(s, WORDS, 0, NULL));
    only(s, WORDS, 0, 3);
    CHECK(vizturel_shift(s, WORDS, here, 2, 0) == 0 && holds(s, WORDS, 1, eleven));
    only(a, WORDS, 0, 3);
    CHECK(vizturel_shifted(s, WORDS, here, 4, 0, a, WORDS, here) == 0 && holds(s, WORDS, 0, NULL));

    /* two physical runs and one logical one are left: only the capacity 1 tells a refusal by logical runs from one by physical runs */
    only(one, VIZTUREL_WORDS(1), 10, 19);
    CHECK(vizturel_shift(one, VIZTUREL_WORDS(1), here, 5, 1) == 0);
    CHECK(is_count(put(one, VIZTUREL_WORDS(1), 0, 15, 1), 15));
    CHECK(holds(one, VIZTUREL_WORDS(1), 1, twelve));

    only(one, VIZTUREL_WORDS(1), 2, 7);
    memcpy(kept, one, sizeof one);
    CHECK(put(one, VIZTUREL_WORDS(1), 4, 6, 0).refusal == VIZTUREL_CAPACITY);
    CHECK(memcmp(kept, one, sizeof one) == 0);
    CHECK(is_count(put(one, VIZTUREL_WORDS(1), 2, 4, 0), 2));

    only(a, WORDS, 5, 5);
    CHECK(vizturel_not(s, WORDS, here, a, WORDS, here) == 0 && holds(s, WORDS, 2, fourteen));
    memcpy(kept, one, sizeof one);
    CHECK(vizturel_not(one, VIZTUREL_WORDS(1), here, a, WORDS, here) == VIZTUREL_CAPACITY);
    CHECK(memcmp(kept, one, sizeof one) == 0);

    only(s, WORDS, 2, 3);
    put(s, WORDS, 8, 10, 1);
    w = vizturel_write(s, WORDS, here, VIZTUREL_ROWS, out, sizeof out);
    CHECK(w.refusal == 0 && w.bytes == sizeof fifteen && memcmp(out, fifteen, sizeof fifteen) == 0);
    CHECK(vizturel_load(b, WORDS, here, fifteen, sizeof fifteen) == 0 && vizturel_eq(s, WORDS, here, b, WORDS, here).value == 1);
    CHECK(vizturel_build(a, WORDS, here, eight, 4) == 0 && vizturel_eq(s, WORDS, here, a, WORDS, here).value == 1);
    w = vizturel_write_map(s, WORDS, here, 0, 10, out, sizeof out);
    CHECK(w.refusal == 0 && w.bytes == 2 && out[0] == 0x0C && out[1] == 0x03 && out[2] == fifteen[2]);
    n = vizturel_fill(s, WORDS, here, 0, 3);
    CHECK(n.refusal == 0 && n.number == 334);
    /* rounded up: one slot of the longest window shows, none does not, and all of a window are 1000 */
    CHECK(vizturel_fill(s, WORDS, here, 9, 524288).number == 1 && vizturel_fill(s, WORDS, here, 10, 524288).number == 0);
    CHECK(vizturel_fill(s, WORDS, here, 8, 2).number == 1000);
    fresh(a, WORDS);
    CHECK(is_count(vizturel_read_map(a, WORDS, here, 0, 10, out, 2), 4) && vizturel_eq(s, WORDS, here, a, WORDS, here).value == 1);

    memcpy(bytes, fifteen, sizeof fifteen);
    bytes[28] = 4;
    bytes[36] = 5;
    memcpy(kept, s, sizeof s);
    CHECK(vizturel_load(s, WORDS, here, bytes, sizeof bytes) == VIZTUREL_RUN_ORDER);
    CHECK(memcmp(kept, s, sizeof s) == 0);
}

/* Puts the written set of n runs, fewer than 256, byte by byte, and tells how many bytes it has. */
static size_t put_set(uint8_t *bytes, uint64_t edition, size_t n, const uint64_t *runs) {
    size_t i, j;
    memset(bytes, 0, 5);
    bytes[0] = (uint8_t)edition;
    bytes[4] = (uint8_t)n;
    for (i = 0; i < n; i++) {
        for (j = 0; j < 16; j++) {
            size_t place = edition == VIZTUREL_ROWS ? 16 * i + j : n * j + i;
            bytes[5 + place] = (uint8_t)(runs[2 * i + j / 8] >> (56 - 8 * (j % 8)));
        }
    }
    return VIZTUREL_SET_BYTES(n);
}

/* Written sets by rows and by columns: of every number of runs that there is room for, against bytes put one by one; loaded, converted, and
 * converted back; the bytes after a set; numbers that name no edition; and the converter's refusals, in their order. */
static void editions(void) {
    static const uint64_t numbers[] = {0, 3, 258, UINT64_C(1) << 32, M};
    static const uint8_t no_edition[] = {0, 3, 255};
    /* 2 3 and 4 5, which touch, by rows and by columns */
    static const uint8_t touching[][37] = {
        {1, 0, 0, 0, 2, 0, 0, 0, 0, 0, 0, 0, 2, 0, 0, 0, 0, 0, 0, 0, 3, 0, 0, 0, 0, 0, 0, 0, 4, 0, 0, 0, 0, 0, 0, 0, 5},
        {2, 0, 0, 0, 2, 0, 0, 0, 0, 0, 0, 0, 0, 0, 0, 0, 0, 0, 0, 2, 4, 0, 0, 0, 0, 0, 0, 0, 0, 0, 0, 0, 0, 0, 0, 3, 5}};
    uint8_t rows[sizeof out], columns[sizeof out], turned[sizeof out], stale[sizeof out];
    uint64_t runs[2 * CAPACITY];
    /* where the others of the pool leave room */
    size_t most = here == 0 ? CAPACITY : CAPACITY - 2, n, i, j, length;
    vizturel_written w;
    memset(stale, 0xEE, sizeof stale);
    for (n = 0; n <= most; n++) {
        int right = 1;
        length = VIZTUREL_SET_BYTES(n);
        for (i = 0; i < 2 * n; i++) runs[i] = UINT64_C(0x0123456789ABCDEF) * (i + 1) / 2;
        memcpy(rows, stale, sizeof rows);
        memcpy(columns, stale, sizeof columns);
        put_set(rows, VIZTUREL_ROWS, n, runs);
        put_set(columns, VIZTUREL_COLUMNS, n, runs);
        fresh(s, WORDS);
        right &= vizturel_build(s, WORDS, here, runs, 2 * n) == 0;
        memcpy(turned, stale, sizeof turned);
        w = vizturel_write(s, WORDS, here, VIZTUREL_COLUMNS, turned, length - 1);
        right &= w.refusal == VIZTUREL_OUTPUT_SHORT && w.bytes == 0 && memcmp(turned, stale, sizeof turned) == 0;
        w = vizturel_write(s, WORDS, here, VIZTUREL_COLUMNS, turned, sizeof turned);
        right &= w.refusal == 0 && w.bytes == length && memcmp(turned, columns, sizeof turned) == 0;
        memcpy(turned, stale, sizeof turned);
        w = vizturel_write(s, WORDS, here, VIZTUREL_ROWS, turned, sizeof turned);
        right &= w.refusal == 0 && w.bytes == length && memcmp(turned, rows, sizeof turned) == 0;
        fresh(b, WORDS);
        right &= vizturel_load(b, WORDS, here, columns, length) == 0 && vizturel_eq(s, WORDS, here, b, WORDS, here).value == 1;
        fresh(b, WORDS);
        right &= vizturel_load(b, WORDS, here, rows, length) == 0 && vizturel_eq(s, WORDS, here, b, WORDS, here).value == 1;
        /* each into the other; one byte less is refused with 2 and stays */
        memcpy(turned, stale, sizeof turned);
        w = vizturel_convert(rows, length, turned, length - 1);
        right &= w.refusal == VIZTUREL_OUTPUT_SHORT && w.bytes == 0 && memcmp(turned, stale, sizeof turned) == 0;
        w = vizturel_convert(rows, length, turned, sizeof turned);
        right &= w.refusal == 0 && w.bytes == length && memcmp(turned, columns, sizeof turned) == 0;
        memcpy(turned, stale, sizeof turned);
        w = vizturel_convert(columns, length, turned, length);
        right &= w.refusal == 0 && w.bytes == length && memcmp(turned, rows, sizeof turned) == 0;
        check(right, "a written set in both editions", __LINE__);
    }
    /* the last set again: this version writes rows where a number names no edition */
    length = VIZTUREL_SET_BYTES(most);
    for (i = 0; i < sizeof numbers / sizeof *numbers; i++) {
        memcpy(turned, stale, sizeof turned);
        w = vizturel_write(s, WORDS, here, numbers[i], turned, sizeof turned);
        CHECK(w.refusal == 0 && w.bytes == length && memcmp(turned, rows, sizeof turned) == 0);
    }
    /* 3 under 5 bytes, 4, 3, 5 of touching runs, whether there is room or not */
    memcpy(turned, stale, sizeof turned);
    for (i = 0; i < 4; i++) {
        size_t room = i / 2 * sizeof turned;
        memcpy(rows, touching[i % 2], sizeof touching[0]);
        CHECK(vizturel_convert(rows, sizeof touching[0], turned, room).refusal == VIZTUREL_RUN_ORDER);
        CHECK(vizturel_convert(rows, sizeof touching[0] - 1, turned, room).refusal == VIZTUREL_SET_LENGTH);
        CHECK(vizturel_convert(rows, 4, turned, room).refusal == VIZTUREL_SET_LENGTH);
        CHECK(vizturel_convert(NULL, 0, turned, room).refusal == VIZTUREL_SET_LENGTH);
        for (j = 0; j < sizeof no_edition; j++) {
            rows[0] = no_edition[j];
            CHECK(vizturel_convert(rows, 4, turned, room).refusal == VIZTUREL_SET_LENGTH);
            CHECK(vizturel_convert(rows, 5, turned, room).refusal == VIZTUREL_SET_VERSION);
            CHECK(vizturel_convert(rows, sizeof touching[0], turned, room).refusal == VIZTUREL_SET_VERSION);
        }
    }
    CHECK(memcmp(turned, stale, sizeof turned) == 0);
}

/* Runs in any order, in both editions: the outcome, where every run of it is written and held, and what became of each; the bytes after both; each
 * slice one byte too short, which changes neither; and one run more than there is room for. */
static void mended(void) {
    static const struct {
        size_t n, outcome;
        uint64_t runs[12], due[8];
        uint8_t fates[6];
    } given[] = {
        {0, 0, {0}, {0}, {0}},
        {1, 0, {4, 3}, {0}, {0}},
        {2, 2, {2, 3, 8, 9}, {2, 3, 8, 9}, {2, 2}},
        {2, 2, {8, 9, 2, 3}, {2, 3, 8, 9}, {2, 2}},
        {2, 1, {4, 5, 2, 3}, {2, 5}, {1, 1}},
        {2, 2, {5, 6, 2, 3}, {2, 3, 5, 6}, {2, 2}},
        {3, 1, {2, 3, 2, 3, 3, 2}, {2, 3}, {1, 1, 0}},
        {3, 1, {2, 9, 4, 5, M, 0}, {2, 9}, {1, 1, 0}},
        {2, 2, {M, M, 0, 0}, {0, 0, M, M}, {2, 2}},
        {4, 1, {M, M, 0, 0, M - 1, M - 1, 1, M - 2}, {0, M}, {1, 1, 1, 1}},
        {6, 3, {20, 21, 2, 3, 9, 8, 5, 7, 4, 4, 12, 12}, {2, 7, 12, 12, 20, 21}, {2, 1, 0, 1, 1, 2}},
    };
    uint8_t bytes[sizeof out], due[sizeof out], set[sizeof out], stale[sizeof out], report[8];
    uint64_t edition;
    size_t i, length, filled;
    vizturel_mended m;
    ASSERT(sizeof(vizturel_mended) == 24, "three words");
    memset(stale, 0xEE, sizeof stale);
    for (i = 0; i < sizeof given / sizeof *given; i++) {
        for (edition = VIZTUREL_ROWS; edition <= VIZTUREL_COLUMNS; edition++) {
            size_t n = given[i].n;
            int right = 1;
            length = put_set(bytes, edition, n, given[i].runs);
            memcpy(due, stale, sizeof due);
            filled = put_set(due, edition, given[i].outcome, given[i].due);
            only(s, WORDS, 30, 40);
            memcpy(kept, s, sizeof s);
            memcpy(set, stale, sizeof set);
            memcpy(report, stale, sizeof report);
            m = vizturel_mend(s, WORDS, here, bytes, length, set, filled - 1, report, sizeof report);
            right &= m.refusal == VIZTUREL_OUTPUT_SHORT && m.bytes == 0 && m.report == 0;
            if (n > 0) right &= vizturel_mend(s, WORDS, here, bytes, length, set, sizeof set, report, n - 1).refusal == VIZTUREL_OUTPUT_SHORT;
            right &= memcmp(s, kept, sizeof s) == 0 && memcmp(set, stale, sizeof set) == 0 && memcmp(report, stale, sizeof report) == 0;
            m = vizturel_mend(s, WORDS, here, bytes, length, set, sizeof set, report, sizeof report);
            right &= m.refusal == VIZTUREL_DONE && m.bytes == filled && m.report == n && memcmp(set, due, sizeof set) == 0;
            right &= memcmp(report, given[i].fates, n) == 0 && memcmp(report + n, stale, sizeof report - n) == 0;
            right &= holds(s, WORDS, given[i].outcome, given[i].due);
            memcpy(set, stale, sizeof set);
            right &= vizturel_mend(s, WORDS, here, bytes, length, set, filled, report, n).refusal == VIZTUREL_DONE && memcmp(set, due, sizeof set) == 0;
            check(right, "a mended set", __LINE__);
        }
    }
    /* 3 under 5 bytes, 4, 3, then 8 by the outcome's runs, whether there is room or not; a pool for one run */
    only(one, VIZTUREL_WORDS(1), 30, 40);
    memcpy(kept, one, sizeof one);
    memcpy(set, stale, sizeof set);
    memcpy(report, stale, sizeof report);
    for (i = 0; i < 4; i++) {
        size_t room = i / 2 * sizeof set, told = i / 2 * sizeof report;
        length = put_set(bytes, 1 + i % 2, 2, given[3].runs);
        CHECK(vizturel_mend(one, VIZTUREL_WORDS(1), here, bytes, length, set, room, report, told).refusal == VIZTUREL_CAPACITY);
        CHECK(vizturel_mend(one, VIZTUREL_WORDS(1), here, bytes, length - 1, set, room, report, told).refusal == VIZTUREL_SET_LENGTH);
        CHECK(vizturel_mend(one, VIZTUREL_WORDS(1), here, bytes, 4, set, room, report, told).refusal == VIZTUREL_SET_LENGTH);
        CHECK(vizturel_mend(one, VIZTUREL_WORDS(1), here, NULL, 0, set, room, report, told).refusal == VIZTUREL_SET_LENGTH);
        bytes[0] = 3;
        CHECK(vizturel_mend(one, VIZTUREL_WORDS(1), here, bytes, length - 1, set, room, report, told).refusal == VIZTUREL_SET_VERSION);
        CHECK(vizturel_mend(one, VIZTUREL_WORDS(1), here, bytes, 4, set, room, report, told).refusal == VIZTUREL_SET_LENGTH);
    }
    CHECK(memcmp(one, kept, sizeof one) == 0 && memcmp(set, stale, sizeof set) == 0 && memcmp(report, stale, sizeof report) == 0);
    /* two runs that make one do fit */
    length = put_set(bytes, VIZTUREL_COLUMNS, 2, given[4].runs);
    m = vizturel_mend(one, VIZTUREL_WORDS(1), here, bytes, length, set, 21, report, 2);
    CHECK(m.refusal == VIZTUREL_DONE && m.bytes == 21 && m.report == 2 && holds(one, VIZTUREL_WORDS(1), 1, given[4].due));
}

static void gaps(void) {
    vizturel_found f;
    uint64_t n;

    /* an empty set: gaps of M start at 0 and at 1 */
    fresh(s, WORDS);
    CHECK(at(vizturel_gap(s, WORDS, here, ALL, ALL, M), 0));
    CHECK(at(vizturel_gap(s, WORDS, here, ALL, ALL, 1), 0));
    CHECK(at(vizturel_gap(s, WORDS, here, IN(7), ALL, 1), 7));
    CHECK(at(vizturel_gap(s, WORDS, here, IN(1), ALL, M), 1));
    CHECK(at(vizturel_gap(s, WORDS, here, ALL, EX(M), M), 0));
    CHECK(nowhere(vizturel_gap(s, WORDS, here, IN(1), EX(M), M)));
    CHECK(at(vizturel_gap(s, WORDS, here, IN(M), IN(M), 1), M));
    CHECK(nowhere(vizturel_gap(s, WORDS, here, IN(M), IN(M), 2)));

    /* a full set */
    vizturel_set(s, WORDS, here, ALL, ALL, 1);
    CHECK(nowhere(vizturel_gap(s, WORDS, here, ALL, ALL, 1)));
    CHECK(nowhere(vizturel_gap(s, WORDS, here, ALL, ALL, M)));

    /* a gap at 0, and one that ends at M */
    only(s, WORDS, 4, M - 3);
    CHECK(at(vizturel_gap(s, WORDS, here, ALL, ALL, 4), 0));
    CHECK(nowhere(vizturel_gap(s, WORDS, here, ALL, ALL, 5)));
    CHECK(at(vizturel_gap(s, WORDS, here, ALL, ALL, 3), 0));
    CHECK(at(vizturel_gap(s, WORDS, here, IN(1), ALL, 3), 1));
    CHECK(at(vizturel_gap(s, WORDS, here, IN(2), ALL, 3), M - 2));
    CHECK(at(vizturel_gap(s, WORDS, here, EX(1), EX(M), 2), 2));
    CHECK(at(vizturel_gap(s, WORDS, here, EX(2), EX(M), 2), M - 2));
    CHECK(nowhere(vizturel_gap(s, WORDS, here, EX(2), EX(M), 3)));

    /* the lowest one: neither past the range nor on a held position, and none though the last free run is too short by one */
    only(s, WORDS, 10, 19);
    put(s, WORDS, 30, 40, 1);
    CHECK(at(vizturel_gap(s, WORDS, here, IN(10), IN(39), 10), 20));
    CHECK(nowhere(vizturel_gap(s, WORDS, here, IN(10), IN(39), 11)));
    CHECK(at(vizturel_gap(s, WORDS, here, IN(10), IN(50), 11), 40));
    CHECK(nowhere(vizturel_gap(s, WORDS, here, IN(10), IN(49), 11)));
    CHECK(at(vizturel_gap(s, WORDS, here, IN(15), IN(24), 5), 20));
    CHECK(nowhere(vizturel_gap(s, WORDS, here, IN(15), IN(23), 5)));
    CHECK(at(vizturel_gap(s, WORDS, here, ALL, ALL, 10), 0));
    CHECK(at(vizturel_gap(s, WORDS, here, IN(1), ALL, 10), 20));
    CHECK(at(vizturel_gap(s, WORDS, here, IN(21), ALL, 10), 40));
    CHECK(at(vizturel_gap(s, WORDS, here, IN(19), IN(20), 1), 20));
    CHECK(at(vizturel_gap(s, WORDS, here, IN(21), IN(23), 3), 21));

    /* After both shifts position 8 lies at the start of the physical positions, and 7 at their end: gaps go over that place. */
    only(s, WORDS, 0, 2);
    put(s, WORDS, 20, 25, 1);
    CHECK(vizturel_shift(s, WORDS, here, 12, 1) == 0 && vizturel_shift(s, WORDS, here, 4, 0) == 0);
    CHECK(is_count(put(s, WORDS, 0, 2, 1), 2));
    /* held are 0 1, 8 9 10 and 28 .. 32 */
    for (n = 1; n <= 17; n++) CHECK(at(vizturel_gap(s, WORDS, here, ALL, IN(32), n), n <= 6 ? 2 : 11));
    CHECK(nowhere(vizturel_gap(s, WORDS, here, ALL, IN(32), 18)));
    CHECK(at(vizturel_gap(s, WORDS, here, ALL, ALL, 18), 33));
    CHECK(vizturel_set(s, WORDS, here, IN(8), IN(10), 0).low == 3);
    CHECK(at(vizturel_gap(s, WORDS, here, ALL, IN(30), 26), 2));
    CHECK(nowhere(vizturel_gap(s, WORDS, here, ALL, IN(30), 27)));

    /* empty and reversed ranges have none */
    fresh(s, WORDS);
    CHECK(nowhere(vizturel_gap(s, WORDS, here, IN(6), EX(6), 1)));
    CHECK(nowhere(vizturel_gap(s, WORDS, here, IN(9), IN(2), 1)));
    CHECK(nowhere(vizturel_gap(s, WORDS, here, EX(M), ALL, 1)));
    CHECK(nowhere(vizturel_gap(s, WORDS, here, ALL, EX(0), 1)));

    /* 9, after 1 and 7; a refusal has zeros beside it, and no word has changed */
    memcpy(kept, s, sizeof s);
    f = vizturel_gap(s, WORDS, here, ALL, ALL, 0);
    CHECK(f.refusal == VIZTUREL_GAP_LENGTH && f.found == 0 && f.position == 0);
    CHECK(vizturel_gap(s, WORDS, here, IN(6), EX(6), 0).refusal == VIZTUREL_GAP_LENGTH);
    CHECK(vizturel_gap(s, WORDS - 1, here, ALL, ALL, 0).refusal == VIZTUREL_STORE_LENGTH);
    CHECK(memcmp(kept, s, sizeof s) == 0);
    s[7] = 1;
    CHECK(vizturel_gap(s, WORDS, here, ALL, ALL, 0).refusal == VIZTUREL_UNSOUND);
    CHECK(vizturel_gap(s, WORDS, here, ALL, ALL, 1).refusal == VIZTUREL_UNSOUND);
}

/* Strict set, flip and tally: 14 for a reversed range, after 1, 7 and 12; an empty one changes nothing, and any other is set, inverted and
 * tallied. */
static void strict_calls(void) {
    const vizturel_bound reversed[][2] = {{EX(5), EX(5)}, {EX(M), IN(M - 1)}, {IN(1), EX(0)}, {IN(9), IN(3)}, {EX(M), EX(0)}};
    const vizturel_bound empty[][2] = {{EX(5), EX(6)}, {IN(5), EX(5)}, {EX(M), ALL}, {ALL, EX(0)}, {EX(M), IN(M)}, {IN(0), EX(0)}};
    static const uint64_t left[] = {2, 3, 6, 9};
    size_t i;
    only(s, WORDS, 2, 7);
    memcpy(kept, s, sizeof s);
    for (i = 0; i < sizeof reversed / sizeof *reversed; i++) {
        vizturel_bound lower = reversed[i][0], upper = reversed[i][1];
        vizturel_counted c = vizturel_set_strict(s, WORDS, here, lower, upper, 1);
        vizturel_tallied t = vizturel_tally_strict(s, WORDS, here, lower, upper, 1);
        CHECK(c.refusal == VIZTUREL_RANGE_REVERSED && c.carry == 0 && c.low == 0);
        CHECK(t.refusal == VIZTUREL_RANGE_REVERSED && t.carry == 0 && t.low == 0 && t.runs == 0);
        CHECK(vizturel_flip_strict(s, WORDS, here, lower, upper) == VIZTUREL_RANGE_REVERSED);
        CHECK(is_count(vizturel_set(s, WORDS, here, lower, upper, 1), 0) && vizturel_flip(s, WORDS, here, lower, upper) == 0);
        CHECK(vizturel_set_strict(s, WORDS - 1, here, lower, upper, 1).refusal == VIZTUREL_STORE_LENGTH);
        CHECK(vizturel_flip_strict(s, WORDS, 3, lower, upper) == VIZTUREL_WORLD_UNOPENED);
    }
    for (i = 0; i < sizeof empty / sizeof *empty; i++) {
        vizturel_bound lower = empty[i][0], upper = empty[i][1];
        CHECK(is_count(vizturel_set_strict(s, WORDS, here, lower, upper, 1), 0) && vizturel_flip_strict(s, WORDS, here, lower, upper) == 0);
        CHECK(is_tally(vizturel_tally_strict(s, WORDS, here, lower, upper, 0), 0, 0));
    }
    CHECK(memcmp(kept, s, sizeof s) == 0);
    CHECK(is_count(vizturel_set_strict(s, WORDS, here, IN(6), EX(10), 1), 2) && vizturel_flip_strict(s, WORDS, here, IN(4), IN(5)) == 0);
    CHECK(is_tally(vizturel_tally_strict(s, WORDS, here, IN(3), EX(8), 1), 3, 2) && holds(s, WORDS, 2, left));
    only(one, VIZTUREL_WORDS(1), 2, 7);
    CHECK(vizturel_set_strict(one, VIZTUREL_WORDS(1), here, IN(4), EX(6), 0).refusal == VIZTUREL_CAPACITY);
    CHECK(vizturel_flip_strict(one, VIZTUREL_WORDS(1), here, IN(9), IN(9)) == VIZTUREL_CAPACITY);
    s[7] = 1;
    CHECK(vizturel_tally_strict(s, WORDS, 3, IN(9), IN(3), 1).refusal == VIZTUREL_UNSOUND);
}

/* Numbers that are no kind of a bound, among them that of words which nobody wrote. */
static const uint64_t no_kinds[] = {0, 4, 5, 257, (UINT64_C(1) << 32) + 1, (UINT64_C(1) << 32) + 3, (UINT64_C(1) << 63) + 2, M};
#define NO_KINDS (sizeof no_kinds / sizeof *no_kinds)

/* A range with such a bound at either end is empty, whatever the other bound is, and not reversed: no call of all that take a range changes or finds
 * anything, and none is refused. */
static const uint64_t kinds_of_others[] = {0, 1, 2, 3, 4, M};
#define OTHERS (sizeof kinds_of_others / sizeof *kinds_of_others)

static void is_empty_range(vizturel_bound lower, vizturel_bound upper) {
    uint64_t v;
    for (v = 0; v < 2; v++) {
        CHECK(is_count(vizturel_set(s, WORDS, here, lower, upper, v), 0) && is_count(vizturel_set_strict(s, WORDS, here, lower, upper, v), 0));
        CHECK(nowhere(vizturel_find(s, WORDS, here, lower, upper, v)) && nowhere(vizturel_select(s, WORDS, here, lower, upper, v, 0)));
        CHECK(is_tally(vizturel_tally(s, WORDS, here, lower, upper, v), 0, 0));
        CHECK(is_tally(vizturel_tally_strict(s, WORDS, here, lower, upper, v), 0, 0));
        CHECK(lists(s, WORDS, lower, upper, v, 0, NULL));
    }
    CHECK(vizturel_flip(s, WORDS, here, lower, upper) == VIZTUREL_DONE && vizturel_flip_strict(s, WORDS, here, lower, upper) == VIZTUREL_DONE);
    CHECK(nowhere(vizturel_gap(s, WORDS, here, lower, upper, 1)));
    CHECK(memcmp(kept, s, sizeof s) == 0);
}

static void kinds(void) {
    const vizturel_bound zeroed = {0, 0};
    size_t i, j;
    only(s, WORDS, 100, 199);
    memcpy(kept, s, sizeof s);
    for (i = 0; i < NO_KINDS; i++) {
        for (j = 0; j < OTHERS; j++) {
            /* values of a range that holds positions of both values, and of one that would be reversed */
            const vizturel_bound odd_low = {no_kinds[i], 90}, high = {kinds_of_others[j], 150}, low = {kinds_of_others[j], 90}, odd_high = {no_kinds[i], 150};
            const vizturel_bound odd_beyond = {no_kinds[i], M}, before = {kinds_of_others[j], 0}, beyond = {kinds_of_others[j], M}, odd_before = {no_kinds[i], 0};
            is_empty_range(odd_low, high);
            is_empty_range(low, odd_high);
            is_empty_range(odd_beyond, before);
            is_empty_range(beyond, odd_before);
        }
    }
    /* what a record of values alone does */
    CHECK(is_count(vizturel_set(s, WORDS, here, zeroed, zeroed, 0), 0) && is_tally(vizturel_tally(s, WORDS, here, ALL, ALL, 1), 100, 1));
    /* refused for all that an empty range is refused for */
    CHECK(vizturel_gap(s, WORDS, here, zeroed, zeroed, 0).refusal == VIZTUREL_GAP_LENGTH);
    CHECK(vizturel_set(s, WORDS, 3, zeroed, zeroed, 1).refusal == VIZTUREL_WORLD_UNOPENED);
    /* no bound is a kind of its own, whatever its value */
    {
        const vizturel_bound none = {3, 77};
        CHECK(VIZTUREL_UNBOUNDED == 3 && is_tally(vizturel_tally(s, WORDS, here, none, none, 1), 100, 1));
        CHECK(is_tally(vizturel_tally(s, WORDS, here, none, EX(150), 1), 50, 1) && is_tally(vizturel_tally(s, WORDS, here, IN(190), none, 1), 10, 1));
    }
}

/* Maps of every length from 1 to 17 with every last byte, against a reading bit by bit: read_map is refused with 10 exactly if a spare bit is one,
 * and else sets the window; clear_map zeroes the spare bits, tells how many were one, and what it leaves is read as the map without them. */
static void spare_bits(void) {
    static const uint64_t runs[] = {1, 2, 6, 8, 30, 40};
    uint64_t length, byte, i;
    fresh(s, WORDS);
    for (length = 1; length <= 17; length++) {
        size_t bytes = (length + 7) / 8;
        int right = 1;
        for (byte = 0; byte < 256; byte++) {
            uint8_t map[3] = {0xA5, 0x5A, 0xEE}, used[3], kept_map[3];
            uint64_t stray = 0, changed = 0;
            vizturel_counted c;
            vizturel_numbered n;
            map[bytes - 1] = (uint8_t)byte;
            memcpy(kept_map, map, 3);
            memcpy(used, map, 3);
            for (i = length; i < 8 * bytes; i++) {
                stray += map[i / 8] >> (i % 8) & 1;
                used[i / 8] = (uint8_t)(used[i / 8] & ~(1u << (i % 8)));
            }
            vizturel_build(s, WORDS, here, runs, 6);
            for (i = 0; i < length; i++) changed += vizturel_get(s, WORDS, here, 3 + i).value != (used[i / 8] >> (i % 8) & 1u);
            memcpy(kept, s, sizeof s);
            c = vizturel_read_map(s, WORDS, here, 3, length, map, bytes);
            right &= memcmp(map, kept_map, 3) == 0;
            if (stray > 0) {
                right &= c.refusal == VIZTUREL_STRAY_BIT && c.carry == 0 && c.low == 0 && memcmp(kept, s, sizeof s) == 0;
                right &= vizturel_clear_map(3, length + 8, map, bytes).refusal == VIZTUREL_WINDOW && memcmp(map, kept_map, 3) == 0;
            } else {
                right &= is_count(c, changed);
            }
            n = vizturel_clear_map(3, length, map, bytes);
            right &= n.refusal == 0 && n.number == stray && memcmp(map, used, 3) == 0;
            n = vizturel_clear_map(3, length, map, bytes);
            right &= n.refusal == 0 && n.number == 0 && memcmp(map, used, 3) == 0;
            if (stray > 0) right &= is_count(vizturel_read_map(s, WORDS, here, 3, length, map, bytes), changed);
            for (i = 0; i < 60; i++) {
                uint64_t held = (1 <= i && i <= 2) || (6 <= i && i <= 8) || (30 <= i && i <= 40);
                if (3 <= i && i < 3 + length) held = used[(i - 3) / 8] >> ((i - 3) % 8) & 1u;
                right &= vizturel_get(s, WORDS, here, i).value == held;
            }
        }
        check(right, "every last byte of a map", __LINE__);
    }
    /* 10 comes after 1, 7 and 6, and before 8 */
    only(one, VIZTUREL_WORDS(1), 2, 7);
    out[0] = 0xD5;
    CHECK(vizturel_read_map(one, VIZTUREL_WORDS(1), here, 0, 7, out, 1).refusal == VIZTUREL_STRAY_BIT);
    CHECK(vizturel_read_map(one, VIZTUREL_WORDS(1), here, 0, 7, out, 2).refusal == VIZTUREL_WINDOW);
    CHECK(vizturel_read_map(one, VIZTUREL_WORDS(1) - 1, here, 0, 7, out, 1).refusal == VIZTUREL_STORE_LENGTH);
    CHECK(vizturel_clear_map(0, 7, out, 1).number == 1 && out[0] == 0x55);
    CHECK(vizturel_read_map(one, VIZTUREL_WORDS(1), here, 0, 7, out, 1).refusal == VIZTUREL_CAPACITY);
    one[7] = 1;
    out[0] = 0xD5;
    CHECK(vizturel_read_map(one, VIZTUREL_WORDS(1), here, 0, 7, out, 1).refusal == VIZTUREL_UNSOUND);
    /* clearing is refused with 6 alone, and then no byte has changed */
    CHECK(vizturel_clear_map(0, 0, out, 0).refusal == VIZTUREL_WINDOW);
    CHECK(vizturel_clear_map(0, 7, out, 2).refusal == VIZTUREL_WINDOW);
    CHECK(vizturel_clear_map(M, 2, out, 1).refusal == VIZTUREL_WINDOW);
    CHECK(vizturel_clear_map(0, 524289, out, 1).refusal == VIZTUREL_WINDOW);
    CHECK(out[0] == 0xD5);
}

/* Both forms of a map's calls, by words and by single bytes: windows of every length up to 140 against a map made bit by bit, the bytes after it,
 * what reading leaves, and each refusal. */
static void both_forms(void) {
    static const uint64_t runs[] = {1, 2, 6, 8, 30, 99, 103, 103, 120, M};
    static const uint64_t moved[] = {0, 0, 5, 8, 31, 64, 66, 67, 104, 120, 130, 135};
    uint8_t map[24], by_words[24], by_bytes[24];
    uint64_t length, i;
    vizturel_written w;
    fresh(s, WORDS);
    CHECK(vizturel_build(s, WORDS, here, runs, 10) == VIZTUREL_DONE);
    fresh(b, WORDS);
    CHECK(vizturel_build(b, WORDS, here, moved, 12) == VIZTUREL_DONE);
    for (length = 1; length <= 140; length++) {
        size_t bytes = (size_t)(length + 7) / 8;
        int right = 1;
        vizturel_counted c, d;
        /* written, also the bytes after the map; one byte less is refused with 2 and stays */
        memset(map, 0xEE, sizeof map);
        memset(by_words, 0xEE, sizeof by_words);
        memset(by_bytes, 0xEE, sizeof by_bytes);
        right &= vizturel_write_map(s, WORDS, here, 1, length, by_words, bytes - 1).refusal == VIZTUREL_OUTPUT_SHORT;
        right &= vizturel_write_map_by_bytes(s, WORDS, here, 1, length, by_bytes, bytes - 1).refusal == VIZTUREL_OUTPUT_SHORT;
        right &= memcmp(by_words, map, sizeof map) == 0 && memcmp(by_bytes, map, sizeof map) == 0;
        memset(map, 0, bytes);
        for (i = 0; i < length; i++) map[i / 8] = (uint8_t)(map[i / 8] | vizturel_get(s, WORDS, here, 1 + i).value << (i % 8));
        w = vizturel_write_map(s, WORDS, here, 1, length, by_words, sizeof by_words);
        right &= w.refusal == 0 && w.bytes == bytes && memcmp(by_words, map, sizeof map) == 0;
        w = vizturel_write_map_by_bytes(s, WORDS, here, 1, length, by_bytes, sizeof by_bytes);
        right &= w.refusal == 0 && w.bytes == bytes && memcmp(by_bytes, map, sizeof map) == 0;
        /* the map of another set is read: the same number, the same positions */
        right &= vizturel_write_map(b, WORDS, here, 1, length, map, sizeof map).refusal == 0;
        memcpy(a, s, sizeof s);
        memcpy(kept, s, sizeof s);
        c = vizturel_read_map(a, WORDS, here, 1, length, map, bytes);
        d = vizturel_read_map_by_bytes(kept, WORDS, here, 1, length, map, bytes);
        right &= c.refusal == 0 && d.refusal == 0 && c.carry == 0 && d.carry == 0 && c.low == d.low;
        right &= vizturel_eq(a, WORDS, here, kept, WORDS, here).value == 1;
        for (i = 0; i < 144; i++) {
            const uint64_t *from = 1 <= i && i <= length ? b : s;
            right &= vizturel_get(kept, WORDS, here, i).value == vizturel_get(from, WORDS, here, i).value;
        }
        check(right, "both forms of a window's map", __LINE__);
    }
    /* 1, 7, 12, 6, 10 and 8 of the forms by single bytes */
    only(one, VIZTUREL_WORDS(1), 2, 7);
    memcpy(kept, one, sizeof one);
    map[0] = 0xD5;
    CHECK(vizturel_read_map_by_bytes(one, VIZTUREL_WORDS(1) - 1, here, 0, 7, map, 1).refusal == VIZTUREL_STORE_LENGTH);
    CHECK(vizturel_write_map_by_bytes(one, VIZTUREL_WORDS(1) - 1, here, 0, 7, map, 1).refusal == VIZTUREL_STORE_LENGTH);
    CHECK(vizturel_read_map_by_bytes(one, VIZTUREL_WORDS(1), 3, 0, 0, map, 1).refusal == VIZTUREL_WORLD_UNOPENED);
    CHECK(vizturel_write_map_by_bytes(one, VIZTUREL_WORDS(1), 3, 0, 0, map, 1).refusal == VIZTUREL_WORLD_UNOPENED);
    CHECK(vizturel_read_map_by_bytes(one, VIZTUREL_WORDS(1), here, 0, 7, map, 2).refusal == VIZTUREL_WINDOW);
    CHECK(vizturel_write_map_by_bytes(one, VIZTUREL_WORDS(1), here, M, 2, map, 0).refusal == VIZTUREL_WINDOW);
    CHECK(vizturel_read_map_by_bytes(one, VIZTUREL_WORDS(1), here, 0, 7, map, 1).refusal == VIZTUREL_STRAY_BIT);
    map[0] = 0x55;
    CHECK(vizturel_read_map_by_bytes(one, VIZTUREL_WORDS(1), here, 0, 7, map, 1).refusal == VIZTUREL_CAPACITY);
    CHECK(memcmp(kept, one, sizeof one) == 0 && map[0] == 0x55);
    one[7] = 1;
    CHECK(vizturel_read_map_by_bytes(one, VIZTUREL_WORDS(1), here, 0, 7, map, 1).refusal == VIZTUREL_UNSOUND);
    CHECK(vizturel_write_map_by_bytes(one, VIZTUREL_WORDS(1), here, 0, 7, map, 1).refusal == VIZTUREL_UNSOUND && map[0] == 0x55);
}

/* How high a world's tree is: its root stands first in its record, and the height is word 4 of a node. */
static uint64_t height_of(const uint64_t *w, uint64_t world) {
    uint64_t root = w[8 * (1 + world)];
    return root == 0 ? 0 : w[8 * (16 + root) + 4];
}

/* The lists for heights: set run by run into an empty world, each makes its height with its last run. Slices of a word less, and of more; a pool that
 * is not sound; and the refusals, in their order. */
static void deepest(void) {
    static const size_t least[] = {0, 1, 2, 4, 7, 12, 20};
    static const uint64_t no_height[] = {0, VIZTUREL_HEIGHT + 1, UINT64_C(1) << 32, (UINT64_C(1) << 32) + 1, M};
    uint64_t list[2 * CAPACITY + 1], same[2 * CAPACITY + 1], unwritten[2 * CAPACITY + 1];
    /* where the others of the pool leave room */
    uint64_t most = here == 0 ? 5 : 4, h;
    vizturel_worded d;
    size_t i, n;
    memset(unwritten, 0xEE, sizeof unwritten);
    for (h = 1; h <= most; h++) {
        int right = 1;
        n = least[h];
        fresh(s, WORDS);
        memcpy(kept, s, sizeof s);
        memcpy(list, unwritten, sizeof list);
        d = vizturel_deepest(s, WORDS, h, list, 2 * n - 1);
        right &= d.refusal == VIZTUREL_OUTPUT_SHORT && d.words == 0 && memcmp(list, unwritten, sizeof list) == 0;
        d = vizturel_deepest(s, WORDS, h, list, sizeof list / sizeof *list);
        right &= d.refusal == VIZTUREL_DONE && d.words == 2 * n && memcmp(list + 2 * n, unwritten, sizeof list - 16 * n) == 0;
        right &= memcmp(kept, s, sizeof s) == 0;
        for (i = 0; i < n; i++) {
            right &= height_of(s, here) < h;
            right &= vizturel_set(s, WORDS, here, IN(list[2 * i]), IN(list[2 * i + 1]), 1).refusal == VIZTUREL_DONE;
        }
        right &= height_of(s, here) == h;
        /* equal calls get equal lists: in a slice of just what is due, of a pool that is not sound, and of words that are none */
        s[3]++;
        memcpy(same, unwritten, sizeof same);
        d = vizturel_deepest(s, WORDS, h, same, 2 * n);
        right &= d.refusal == VIZTUREL_DONE && d.words == 2 * n && memcmp(same, list, sizeof list) == 0;
        memset(a, 0xEE, sizeof a);
        memcpy(same, unwritten, sizeof same);
        d = vizturel_deepest(a, WORDS, h, same, 2 * n + 1);
        right &= d.refusal == VIZTUREL_DONE && d.words == 2 * n && memcmp(same, list, sizeof list) == 0;
        check(right, "the list for a height", __LINE__);
    }
    /* 1, then 13, then 8, then 2 */
    memcpy(kept, s, sizeof s);
    memcpy(list, unwritten, sizeof list);
    for (i = 0; i < sizeof no_height / sizeof *no_height; i++) {
        CHECK(vizturel_deepest(s, WORDS - 1, no_height[i], list, 0).refusal == VIZTUREL_STORE_LENGTH);
        CHECK(vizturel_deepest(s, WORDS, no_height[i], list, 0).refusal == VIZTUREL_TREE_HEIGHT);
        CHECK(vizturel_deepest(s, WORDS, no_height[i], list, 2 * CAPACITY).refusal == VIZTUREL_TREE_HEIGHT);
    }
    CHECK(vizturel_deepest(s, WORDS, 6, list, 0).refusal == VIZTUREL_CAPACITY && vizturel_deepest(s, WORDS, 6, list, 2 * CAPACITY).refusal == VIZTUREL_CAPACITY);
    CHECK(vizturel_deepest(s, WORDS, VIZTUREL_HEIGHT, list, 2 * CAPACITY).refusal == VIZTUREL_CAPACITY);
    CHECK(vizturel_deepest(s, VIZTUREL_WORDS(11), 5, list, 2 * CAPACITY).refusal == VIZTUREL_CAPACITY);
    CHECK(vizturel_deepest(s, VIZTUREL_WORDS(12), 5, list, 23).refusal == VIZTUREL_OUTPUT_SHORT);
    CHECK(vizturel_deepest(s, VIZTUREL_WORDS(1), 1, NULL, 0).refusal == VIZTUREL_OUTPUT_SHORT);
    CHECK(vizturel_deepest(NULL, 0, 1, list, 2 * CAPACITY).refusal == VIZTUREL_STORE_LENGTH);
    CHECK(memcmp(list, unwritten, sizeof list) == 0 && memcmp(kept, s, sizeof s) == 0);
    CHECK(vizturel_deepest(s, VIZTUREL_WORDS(12), 5, list, 24).words == 24);
}

#define RECT vizturel_corners
static int is_number(vizturel_numbered n, uint64_t x) { return n.refusal == 0 && n.number == x; }

/* Why lists of ranges are refused, over structs and over words: of every list of up to four of some ranges the places told are refused when they are
 * set into an empty pool, at the last of them, and the list stops there; without any one of them they are not; and each is the first in its run.
 * Slices of a word less, and of more; a pool that is not sound; and the refusals, in their order. */
#define SPAWNS 9
static void why_full(void) {
    const vizturel_range some[SPAWNS] = {
        vizturel_between(IN(0), IN(0)), vizturel_between(ALL, EX(2)), vizturel_between(IN(2), IN(2)), vizturel_between(EX(3), IN(5)),
        vizturel_between(IN(M), ALL), vizturel_between(EX(M - 3), EX(M - 1)), vizturel_between(IN(4), EX(M - 2)), vizturel_between(EX(5), EX(6)),
        vizturel_between(IN(9), IN(3))};
    /* the first position of each but the last two, which have none */
    static const uint64_t firsts[] = {0, 0, 2, 4, M, M - 2, 4};
    const size_t holding = sizeof firsts / sizeof *firsts;
    size_t which[4];
    vizturel_range spawn[4];
    uint64_t told[6], unwritten[6];
    const uint64_t *flat = (const uint64_t *)(const void *)spawn;
    size_t c, n, i, j, code, codes, stops;
    vizturel_worded d;
    memset(unwritten, 0xEE, sizeof unwritten);
    for (c = 1; c <= 3; c++) {
        size_t words = VIZTUREL_WORDS(c);
        int right = 1, refused = 0;
        for (n = 0, codes = 1; n <= 4; n++, codes *= SPAWNS) {
            for (code = 0; code < codes; code++) {
                for (i = 0, j = code; i < n; i++, j /= SPAWNS) which[i] = j % SPAWNS;
                for (i = 0; i < n; i++) spawn[i] = some[which[i]];
                vizturel_new_one(a, words);
                for (stops = 0; stops < n && vizturel_set(a, words, 0, spawn[stops].lower, spawn[stops].upper, 1).refusal == 0; stops++);
                memcpy(told, unwritten, sizeof told);
                memcpy(kept, a, sizeof a);
                d = vizturel_why(a, words, spawn, n, told, c);
                right &= d.refusal == (stops < n ? VIZTUREL_OUTPUT_SHORT : VIZTUREL_NOT_REFUSED) && d.words == 0;
                right &= memcmp(told, unwritten, sizeof told) == 0;
                d = vizturel_why(a, words, spawn, n, told, 6);
                right &= memcmp(kept, a, sizeof a) == 0;
                if (stops == n) {
                    right &= d.refusal == VIZTUREL_NOT_REFUSED && d.words == 0 && memcmp(told, unwritten, sizeof told) == 0;
                    continue;
                }
                refused++;
                right &= d.refusal == VIZTUREL_DONE && d.words == c + 1 && memcmp(told + c + 1, unwritten, sizeof told - 8 * (c + 1)) == 0;
                right &= told[c] == stops;
                for (i = 0; i < c; i++) right &= told[i] < told[i + 1];
                for (i = 0; i <= c && right; i++) right &= which[told[i]] < holding;
                if (!right) break;
                /* all of them, and then all but one: i is the one that is left out, if there is one */
                for (i = 0; i <= c + 1; i++) {
                    vizturel_new_one(a, words);
                    for (j = 0; j <= c; j++) {
                        uint64_t due = i == c + 1 && j == c ? VIZTUREL_CAPACITY : VIZTUREL_DONE;
                        if (i != j) right &= vizturel_set(a, words, 0, spawn[told[j]].lower, spawn[told[j]].upper, 1).refusal == due;
                    }
                }
                /* what all ranges up to that one hold, where there is room for it: no range before one that is told has a position in its run */
                vizturel_new_one(b, WORDS);
                for (i = 0; i <= stops; i++) vizturel_set(b, WORDS, 0, spawn[i].lower, spawn[i].upper, 1);
                for (i = 0; i <= c; i++) {
                    uint64_t run = vizturel_run_at(b, WORDS, 0, firsts[which[told[i]]]).start;
                    for (j = 0; j < told[i]; j++)
                        right &= which[j] >= holding || vizturel_run_at(b, WORDS, 0, firsts[which[j]]).start != run;
                }
                /* by words, with some after the last range */
                if (n == 3) {
                    spawn[3] = some[0];
                    right &= vizturel_why_full(a, words, flat, 12 + code % 4, told, 6).words == c + 1 && told[c] == stops;
                }
            }
        }
        check(right, "why lists stop", __LINE__);
        CHECK(refused > 100);
    }
    /* the pool is only measured: any words of that length, whatever their worlds and limits are */
    for (i = 0; i < 3; i++) spawn[i] = some[2 * i];
    fresh(s, VIZTUREL_WORDS(2));
    s[3]++;
    memset(a, 0xEE, sizeof a);
    CHECK(vizturel_why(s, VIZTUREL_WORDS(2), spawn, 3, told, 3).words == 3 && told[0] == 0 && told[1] == 1 && told[2] == 2);
    CHECK(vizturel_why(a, VIZTUREL_WORDS(2), spawn, 3, told, 3).words == 3 && told[0] == 0 && told[1] == 1 && told[2] == 2);
    /* a range with a bound of a reserved kind holds nothing: it is never told, and keeps its place */
    for (i = 0; i < NO_KINDS; i++) {
        for (j = 0; j < OTHERS; j++) {
            const vizturel_bound odd = {no_kinds[i], 0}, other = {kinds_of_others[j], M}, low = {kinds_of_others[j], 0}, odd_high = {no_kinds[i], M};
            vizturel_range list[4];
            list[0] = vizturel_between(odd, other);
            list[1] = vizturel_between(IN(5), IN(5));
            list[2] = vizturel_between(low, odd_high);
            list[3] = vizturel_between(IN(9), EX(10));
            d = vizturel_why(a, VIZTUREL_WORDS(1), list, 4, told, 6);
            CHECK(d.refusal == VIZTUREL_DONE && d.words == 2 && told[0] == 1 && told[1] == 3);
            CHECK(vizturel_why(a, VIZTUREL_WORDS(1), list, 3, told, 6).refusal == VIZTUREL_NOT_REFUSED);
        }
    }
    /* 1, then 16, then 2 */
    memcpy(told, unwritten, sizeof told);
    CHECK(vizturel_why(a, VIZTUREL_WORDS(2) - 1, spawn, 3, told, 0).refusal == VIZTUREL_STORE_LENGTH);
    CHECK(vizturel_why(a, VIZTUREL_WORDS(0), spawn, 3, told, 6).refusal == VIZTUREL_STORE_LENGTH);
    CHECK(vizturel_why(NULL, 0, spawn, 0, told, 6).refusal == VIZTUREL_STORE_LENGTH);
    CHECK(vizturel_why(a, VIZTUREL_WORDS(2), spawn, 2, told, 0).refusal == VIZTUREL_NOT_REFUSED);
    CHECK(vizturel_why(a, VIZTUREL_WORDS(3), spawn, 3, NULL, 0).refusal == VIZTUREL_NOT_REFUSED);
    CHECK(vizturel_why(a, VIZTUREL_WORDS(2), NULL, 0, NULL, 0).refusal == VIZTUREL_NOT_REFUSED);
    CHECK(vizturel_why_full(a, VIZTUREL_WORDS(2), flat, 11, told, 6).refusal == VIZTUREL_NOT_REFUSED);
    CHECK(vizturel_why(a, VIZTUREL_WORDS(2), spawn, 3, NULL, 0).refusal == VIZTUREL_OUTPUT_SHORT);
    CHECK(vizturel_why(a, VIZTUREL_WORDS(2), spawn, 3, told, 2).refusal == VIZTUREL_OUTPUT_SHORT);
    CHECK(memcmp(told, unwritten, sizeof told) == 0);
}

/* Whether words are a survey of a square of the pool s, as told: every cell in one piece, and of its value; no two pieces that are halves of one and
 * of one value, which would have been listed as that one. */
static int is_survey(uint64_t row, uint64_t column, uint64_t side, const uint64_t *p, size_t words) {
    uint8_t met[64];
    uint64_t r, c;
    size_t i;
    memset(met, 0, sizeof met);
    if (words % 5 != 0 || side > 8) return 0;
    for (i = 0; i < words; i += 5) {
        if (p[i] < row || p[i + 1] < column || p[i] + p[i + 2] > row + side || p[i + 1] + p[i + 3] > column + side) return 0;
        for (r = p[i]; r < p[i] + p[i + 2]; r++) {
            for (c = p[i + 1]; c < p[i + 1] + p[i + 3]; c++) {
                if (met[8 * (r - row) + c - column]++) return 0;
                if (vizturel_get(s, WORDS, here, vizturel_cell((uint16_t)r, (uint16_t)c)).value != p[i + 4]) return 0;
            }
        }
        if (i >= 5 && p[i - 1] == p[i + 4] && p[i - 3] == p[i + 2] && p[i - 2] == p[i + 3]) {
            int above = p[i - 4] == p[i + 1] && p[i - 5] + p[i + 2] == p[i] && p[i + 2] == p[i + 3] && (p[i - 5] - row) % (2 * p[i + 2]) == 0;
            int before = p[i - 5] == p[i] && p[i - 4] + p[i + 3] == p[i + 1] && p[i + 2] == 2 * p[i + 3] && (p[i - 4] - column) % (2 * p[i + 3]) == 0;
            if (above || before) return 0;
        }
    }
    for (r = 0; r < side; r++) {
        for (c = 0; c < side; c++) {
            if (!met[8 * r + c]) return 0;
        }
    }
    return 1;
}

/* Cells of a grid: rectangles at the plane's corners, of full width and of all cells; with no room for a run more; surveys against single cells, in
 * slices of just what is due, of a word less and of more; and the refusals, in their order. */
static void cells(void) {
    static const uint64_t block[] = {65538, 65540, 131074, 131076, 196610, 196612}, row[] = {131072, 196607};
    static const uint64_t due[] = {0, 0, 4, 2, 0, 0, 2, 1, 1, 0, 1, 2, 1, 1, 1, 0, 3, 1, 1, 0, 1, 3, 1, 1, 1, 2, 2, 2, 2, 1};
    static const uint64_t no_side[] = {9, 10, 63, 64, UINT64_C(1) << 32, M};
    static const uint64_t off[] = {65536, 65537, UINT64_C(1) << 32, M - 65535, M};
    enum { DUE = sizeof due / sizeof *due };
    uint64_t pieces[VIZTUREL_SURVEY_WORDS(3)], unwritten[VIZTUREL_SURVEY_WORDS(3)], i, k;
    /* where the others of the pool leave room */
    uint64_t most = here == 0 ? CAPACITY : CAPACITY - 2;
    vizturel_worded d;
    memset(unwritten, 0xEE, sizeof unwritten);

    fresh(s, WORDS);
    CHECK(is_count(vizturel_set_rect(s, WORDS, here, RECT(1, 2, 3, 4), 1), 9) && holds(s, WORDS, 3, block));
    CHECK(is_count(vizturel_set_rect(s, WORDS, here, RECT(1, 2, 3, 4), M), 0));
    CHECK(is_number(vizturel_count_rect(s, WORDS, here, RECT(0, 0, 1, 9)), 3) && is_number(vizturel_count_rect(s, WORDS, here, RECT(2, 3, 2, 3)), 1));
    CHECK(is_number(vizturel_count_rect(s, WORDS, here, RECT(0, 0, 65535, 65535)), 9) && is_number(vizturel_count_rect(s, WORDS, here, RECT(4, 2, 4, 4)), 0));
    memcpy(kept, s, sizeof s);
    memcpy(pieces, unwritten, sizeof pieces);
    d = vizturel_survey(s, WORDS, here, 0, 0, 2, pieces, DUE - 1);
    CHECK(d.refusal == VIZTUREL_OUTPUT_SHORT && d.words == 0 && memcmp(pieces, unwritten, sizeof pieces) == 0);
    CHECK(vizturel_survey(s, WORDS, here, 0, 0, 2, NULL, 0).refusal == VIZTUREL_OUTPUT_SHORT);
    d = vizturel_survey(s, WORDS, here, 0, 0, 2, pieces, sizeof pieces / sizeof *pieces);
    CHECK(d.refusal == VIZTUREL_DONE && d.words == DUE && memcmp(pieces, due, sizeof due) == 0);
    CHECK(memcmp(pieces + DUE, unwritten + DUE, sizeof pieces - sizeof due) == 0);
    memcpy(pieces, unwritten, sizeof pieces);
    d = vizturel_survey(s, WORDS, here, 0, 0, 2, pieces, DUE);
    CHECK(d.words == DUE && memcmp(pieces, due, sizeof due) == 0);
    CHECK(memcmp(kept, s, sizeof s) == 0);
    for (k = 0; k <= 3; k++) {
        for (i = 0; i < 25; i++) {
            d = vizturel_survey(s, WORDS, here, i / 5, i % 5, k, pieces, VIZTUREL_SURVEY_WORDS(k));
            CHECK(d.refusal == VIZTUREL_DONE && is_survey(i / 5, i % 5, UINT64_C(1) << k, pieces, d.words));
        }
    }
    d = vizturel_survey(s, WORDS, here, 65280, 65280, 8, pieces, 5);
    CHECK(d.words == 5 && pieces[0] == 65280 && pieces[1] == 65280 && pieces[2] == 256 && pieces[3] == 256 && pieces[4] == 0);

    /* full width is one run, and so is the plane; its corners are its first and last positions */
    fresh(s, WORDS);
    CHECK(is_count(vizturel_set_rect(s, WORDS, here, RECT(2, 0, 2, 65535), 1), 65536) && holds(s, WORDS, 1, row));
    CHECK(is_count(vizturel_set_rect(s, WORDS, here, RECT(0, 0, 65535, 65535), 1), (UINT64_C(1) << 32) - 65536));
    CHECK(is_run(vizturel_run_at(s, WORDS, here, 7), 0, (UINT64_C(1) << 32) - 1));
    CHECK(is_count(vizturel_set_rect(s, WORDS, here, RECT(65535, 65535, 65535, 65535), 0), 1) && vizturel_get(s, WORDS, here, 4294967295).value == 0);
    CHECK(is_number(vizturel_count_rect(s, WORDS, here, RECT(0, 0, 65535, 65535)), (UINT64_C(1) << 32) - 1));
    CHECK(vizturel_set_rect(s, WORDS, here, RECT(0, 9, 65535, 9), 0).refusal == VIZTUREL_CAPACITY);

    /* row 1 has as many runs as there is room for: row 0 may have one where these are joined, and not alone */
    fresh(s, WORDS);
    for (i = 0; i < most; i++) CHECK(is_count(vizturel_set_rect(s, WORDS, here, RECT(1, 2 * i, 1, 2 * i), 1), 1));
    memcpy(kept, s, sizeof s);
    CHECK(vizturel_set_rect(s, WORDS, here, RECT(0, 0, 0, 25), 1).refusal == VIZTUREL_CAPACITY);
    CHECK(vizturel_set_rect(s, WORDS, here, RECT(0, 0, most, 0), 1).refusal == VIZTUREL_CAPACITY && memcmp(kept, s, sizeof s) == 0);
    CHECK(is_count(vizturel_set_rect(s, WORDS, here, RECT(0, 0, 1, 25), 1), 2 * 26 - most) && is_tally(vizturel_tally(s, WORDS, here, ALL, ALL, 1), 52, 2));

    /* 15 for each number of the corners, for corners that are swapped, for k and for squares; before 8 and 2, after 1 and 12 */
    only(one, VIZTUREL_WORDS(1), 2, 7);
    memcpy(kept, one, sizeof one);
    memcpy(pieces, unwritten, sizeof pieces);
    for (i = 0; i < sizeof off / sizeof *off; i++) {
        uint64_t n = off[i];
        const vizturel_rect rects[] = {RECT(n, 9, 65535, 9), RECT(0, n, 0, 65535), RECT(0, 9, n, 9), RECT(0, 9, 0, n), RECT(n, n, n, n)};
        for (k = 0; k < sizeof rects / sizeof *rects; k++) {
            vizturel_counted c = vizturel_set_rect(one, VIZTUREL_WORDS(1), here, rects[k], 1);
            vizturel_numbered held = vizturel_count_rect(one, VIZTUREL_WORDS(1), here, rects[k]);
            CHECK(c.refusal == VIZTUREL_OFF_PLANE && c.carry == 0 && c.low == 0 && held.refusal == VIZTUREL_OFF_PLANE && held.number == 0);
            CHECK(vizturel_set_rect(one, VIZTUREL_WORDS(1) - 1, here, rects[k], 1).refusal == VIZTUREL_STORE_LENGTH);
            CHECK(vizturel_count_rect(one, VIZTUREL_WORDS(1), 3, rects[k]).refusal == VIZTUREL_WORLD_UNOPENED);
        }
        CHECK(vizturel_survey(one, VIZTUREL_WORDS(1), here, n, 0, 0, pieces, 5).refusal == VIZTUREL_OFF_PLANE);
        CHECK(vizturel_survey(one, VIZTUREL_WORDS(1), here, 0, n, 0, pieces, 0).refusal == VIZTUREL_OFF_PLANE);
    }
    CHECK(vizturel_set_rect(one, VIZTUREL_WORDS(1), here, RECT(1, 9, 0, 9), 1).refusal == VIZTUREL_OFF_PLANE);
    CHECK(vizturel_set_rect(one, VIZTUREL_WORDS(1), here, RECT(0, 9, 0, 8), 1).refusal == VIZTUREL_OFF_PLANE);
    CHECK(vizturel_count_rect(one, VIZTUREL_WORDS(1), here, RECT(1, 1, 0, 0)).refusal == VIZTUREL_OFF_PLANE);
    for (i = 0; i < sizeof no_side / sizeof *no_side; i++) {
        CHECK(vizturel_survey(one, VIZTUREL_WORDS(1), here, 0, 0, no_side[i], pieces, 0).refusal == VIZTUREL_OFF_PLANE);
        CHECK(vizturel_survey(one, VIZTUREL_WORDS(1), 3, 0, 0, no_side[i], pieces, 0).refusal == VIZTUREL_WORLD_UNOPENED);
        CHECK(vizturel_survey(one, VIZTUREL_WORDS(1) - 1, here, 0, 0, no_side[i], pieces, 0).refusal == VIZTUREL_STORE_LENGTH);
    }
    for (k = 0; k <= 8; k++) {
        CHECK(vizturel_survey(one, VIZTUREL_WORDS(1), here, 65537 - (UINT64_C(1) << k), 0, k, pieces, 5).refusal == VIZTUREL_OFF_PLANE);
        CHECK(vizturel_survey(one, VIZTUREL_WORDS(1), here, 0, 65537 - (UINT64_C(1) << k), k, pieces, 0).refusal == VIZTUREL_OFF_PLANE);
        CHECK(vizturel_survey(one, VIZTUREL_WORDS(1), here, 65536 - (UINT64_C(1) << k), 0, k, pieces, 4).refusal == VIZTUREL_OUTPUT_SHORT);
    }
    CHECK(vizturel_set_rect(one, VIZTUREL_WORDS(1), here, RECT(0, 9, 0, 9), 1).refusal == VIZTUREL_CAPACITY);
    CHECK(memcmp(kept, one, sizeof one) == 0 && memcmp(pieces, unwritten, sizeof pieces) == 0);
    one[7] = 1;
    CHECK(vizturel_set_rect(one, VIZTUREL_WORDS(1), 3, RECT(1, 9, 0, 9), 1).refusal == VIZTUREL_UNSOUND);
    CHECK(vizturel_count_rect(one, VIZTUREL_WORDS(1), 3, RECT(1, 9, 0, 9)).refusal == VIZTUREL_UNSOUND);
    CHECK(vizturel_survey(one, VIZTUREL_WORDS(1), 3, 0, 0, 9, pieces, 0).refusal == VIZTUREL_UNSOUND);
}

static void refusals(void) {
    static const uint8_t version_three[] = {3, 0, 0, 0, 0};
    uint8_t nothing[8] = {9, 9, 9, 9, 9, 9, 9, 9}, same[8] = {9, 9, 9, 9, 9, 9, 9, 9};

    only(s, WORDS, 2, 7);
    memcpy(kept, s, sizeof s);
    CHECK(vizturel_new_one(s, WORDS - 1) == VIZTUREL_STORE_LENGTH);
    CHECK(vizturel_get(s, 24, here, 0).refusal == VIZTUREL_STORE_LENGTH);
    CHECK(vizturel_combine(s, WORDS, here, 0, a, 0, here, kept, WORDS, here) == VIZTUREL_STORE_LENGTH);
    CHECK(vizturel_write(s, WORDS, here, VIZTUREL_ROWS, nothing, sizeof nothing).refusal == VIZTUREL_OUTPUT_SHORT);
    CHECK(vizturel_write(s, WORDS, here, VIZTUREL_COLUMNS, nothing, sizeof nothing).refusal == VIZTUREL_OUTPUT_SHORT);
    CHECK(vizturel_write_map(s, WORDS, here, 0, 65, nothing, sizeof nothing).refusal == VIZTUREL_OUTPUT_SHORT);
    CHECK(vizturel_load(s, WORDS, here, version_three, 4) == VIZTUREL_SET_LENGTH);
    CHECK(vizturel_load(s, WORDS, here, version_three, 5) == VIZTUREL_SET_VERSION);
    CHECK(vizturel_mend(s, WORDS - 1, here, version_three, 5, nothing, sizeof nothing, NULL, 0).refusal == VIZTUREL_STORE_LENGTH);
    CHECK(vizturel_mend(s, WORDS, here, version_three, 5, nothing, sizeof nothing, NULL, 0).refusal == VIZTUREL_SET_VERSION);
    CHECK(vizturel_fill(s, WORDS, here, 0, 0).refusal == VIZTUREL_WINDOW);
    CHECK(vizturel_fill(s, WORDS, here, M, 2).refusal == VIZTUREL_WINDOW);
    CHECK(vizturel_read_map(s, WORDS, here, 0, 10, nothing, 3).refusal == VIZTUREL_WINDOW);
    CHECK(memcmp(nothing, same, sizeof same) == 0);
    CHECK(memcmp(kept, s, sizeof s) == 0);
    s[3]++;
    memcpy(kept, s, sizeof s);
    CHECK(vizturel_get(s, WORDS, here, 0).refusal == VIZTUREL_UNSOUND);
    CHECK(vizturel_set(s, WORDS, here, ALL, ALL, 1).refusal == VIZTUREL_UNSOUND);
    CHECK(vizturel_draw_front(s, WORDS, here, 1, 0, 1).refusal == VIZTUREL_UNSOUND);
    CHECK(vizturel_write(s, WORDS, here, VIZTUREL_ROWS, nothing, sizeof nothing).refusal == VIZTUREL_UNSOUND);
    CHECK(vizturel_write(s, WORDS, here, VIZTUREL_COLUMNS, nothing, sizeof nothing).refusal == VIZTUREL_UNSOUND);
    CHECK(vizturel_mend(s, WORDS, here, version_three, 5, nothing, sizeof nothing, NULL, 0).refusal == VIZTUREL_UNSOUND);
    CHECK(memcmp(nothing, same, sizeof same) == 0);
    CHECK(memcmp(kept, s, sizeof s) == 0);
}

/* ---- lists of calls */

static vizturel_call ask(uint64_t call, vizturel_bound lower, vizturel_bound upper, uint64_t value, uint64_t k) {
    vizturel_call c = {call, lower, upper, value, k, here};
    return c;
}

static int is(vizturel_answer a, uint64_t refusal, uint64_t found, uint64_t number, uint64_t end, uint64_t first, uint64_t last, uint64_t value) {
    return a.refusal == refusal && a.found == found && a.number == number && a.end == end && a.first == first && a.last == last &&
           a.value == value && a.reserved == 0;
}

#define MANY 24
static vizturel_call list[MANY];
static vizturel_answer told[MANY + 1], stale[MANY + 1];

/* plays the first n calls of the list on the pool s, with room for one answer more: that one stays as it was */
static uint64_t play(size_t n) {
    uint64_t refusal;
    memset(stale, 0xEE, sizeof stale);
    memcpy(told, stale, sizeof told);
    refusal = vizturel_play(s, WORDS, list, n, told, n + 1);
    CHECK(memcmp(told + n, stale + n, sizeof *told) == 0);
    return refusal;
}

/* every kind of call, and what each tells */
static void every_call(void) {
    size_t n = 0;
    only(s, WORDS, 40, 49);
    list[n++] = ask(VIZTUREL_CALL_EMPTY, IN(1), EX(2), 3, 4);
    list[n++] = ask(VIZTUREL_CALL_SET, IN(2), EX(8), 1, 0);
    list[n++] = ask(VIZTUREL_CALL_SET, IN(10), IN(14), M, 0);
    list[n++] = ask(VIZTUREL_CALL_GET, IN(7), ALL, 0, 0);
    list[n++] = ask(VIZTUREL_CALL_GET, EX(8), ALL, 0, 0);
    list[n++] = ask(VIZTUREL_CALL_RUN_AT, IN(9), ALL, 0, 0);
    list[n++] = ask(VIZTUREL_CALL_FIND, IN(4), ALL, 0, 0);
    list[n++] = ask(VIZTUREL_CALL_FIND, IN(2), EX(8), 0, 0);
    list[n++] = ask(VIZTUREL_CALL_TALLY, ALL, ALL, 1, 0);
    list[n++] = ask(VIZTUREL_CALL_SELECT, IN(4), EX(12), 1, 4);
    list[n++] = ask(VIZTUREL_CALL_SELECT, IN(4), EX(12), 1, 6);
    list[n++] = ask(VIZTUREL_CALL_TALLY, IN(4), EX(12), 7, 0);
    list[n++] = ask(VIZTUREL_CALL_RANGES, IN(4), EX(12), 7, 0);
    list[n++] = ask(VIZTUREL_CALL_DRAW_FRONT, IN(4), IN(11), 7, 0);
    list[n++] = ask(VIZTUREL_CALL_DRAW_BACK, IN(4), IN(11), 0, 0);
    list[n++] = ask(VIZTUREL_CALL_DRAW_FRONT, IN(15), IN(M), 1, 0);
    list[n++] = ask(VIZTUREL_CALL_FILL, IN(0), IN(3), 0, 0);
    list[n++] = ask(VIZTUREL_CALL_FLIP, IN(4), EX(12), 0, 0);
    list[n++] = ask(VIZTUREL_CALL_SHIFT, IN(2), ALL, 0, 0);
    list[n++] = ask(VIZTUREL_CALL_SHIFT, IN(5), ALL, 2, 0);
    list[n++] = ask(VIZTUREL_CALL_TALLY, ALL, ALL, 0, 0);
    list[n++] = ask(VIZTUREL_CALL_FLIP, ALL, ALL, 0, 0);
    list[n++] = ask(VIZTUREL_CALL_SET, ALL, ALL, 1, 0);
    list[n++] = ask(VIZTUREL_CALL_SET, EX(M), ALL, 0, 0);
    CHECK(n == MANY);
    CHECK(play(MANY) == VIZTUREL_DONE);
    CHECK(is(told[0], 0, 0, 0, 0, 0, 0, 0));
    CHECK(is(told[1], 0, 0, 6, 0, 0, 0, 0));
    CHECK(is(told[2], 0, 0, 5, 0, 0, 0, 0));
    CHECK(is(told[3], 0, 0, 1, 0, 0, 0, 0));
    CHECK(is(told[4], 0, 0, 0, 0, 0, 0, 0));
    CHECK(is(told[5], 0, 0, 8, 9, 0, 0, 0));
    CHECK(is(told[6], 0, 1, 8, 0, 0, 0, 0));
    CHECK(is(told[7], 0, 0, 0, 0, 0, 0, 0));
    CHECK(is(told[8], 0, 0, 11, 2, 0, 0, 0));
    CHECK(is(told[9], 0, 1, 10, 0, 0, 0, 0));
    CHECK(is(told[10], 0, 0, 0, 0, 0, 0, 0));
    CHECK(is(told[11], 0, 0, 6, 2, 0, 0, 0));
    CHECK(is(told[12], 0, 0, 0, 0, 4, 11, 1));
    CHECK(is(told[13], 0, 1, 4, 7, 8, 11, 1));
    CHECK(is(told[14], 0, 1, 8, 9, 4, 7, 0));
    CHECK(is(told[15], 0, 0, 0, 0, 1, 0, 1));
    CHECK(is(told[16], 0, 0, 334, 0, 0, 0, 0));
    /* the flip leaves 2 3, 8 9 and 12 .. 14; after both shifts these seven are 5 6, 11 12 and 15 .. 17 */
    CHECK(is(told[17], 0, 0, 0, 0, 0, 0, 0));
    CHECK(is(told[18], 0, 0, 0, 0, 0, 0, 0));
    CHECK(is(told[19], 0, 0, 0, 0, 0, 0, 0));
    CHECK(is(told[20], 0, 0, M - 6, 4, 0, 0, 0));
    CHECK(is(told[21], 0, 0, 0, 0, 0, 0, 0));
    CHECK(is(told[22], 0, 0, 7, 0, 0, 0, 0));
    CHECK(is(told[23], 0, 0, 0, 0, 0, 0, 0));
    /* all 2^64 positions: a carry */
    list[0] = ask(VIZTUREL_CALL_TALLY, ALL, ALL, 1, 0);
    list[1] = ask(VIZTUREL_CALL_SET, ALL, ALL, 0, 0);
    list[2] = ask(VIZTUREL_CALL_TALLY, ALL, ALL, 1, 0);
    CHECK(play(3) == VIZTUREL_DONE);
    CHECK(is(told[0], 0, 1, 0, 1, 0, 0, 0));
    CHECK(is(told[1], 0, 1, 0, 0, 0, 0, 0));
    CHECK(is(told[2], 0, 0, 0, 0, 0, 0, 0));
    CHECK(holds(s, WORDS, 0, NULL));
    /* gaps: the lowest, the next one when it was taken, none, and one of no position */
    only(s, WORDS, 2, 7);
    put(s, WORDS, 10, 15, 1);
    list[0] = ask(VIZTUREL_CALL_GAP, IN(1), ALL, 0, 2);
    list[1] = ask(VIZTUREL_CALL_SET, IN(8), IN(9), 1, 0);
    list[2] = ask(VIZTUREL_CALL_GAP, IN(1), ALL, M, 2);
    list[3] = ask(VIZTUREL_CALL_GAP, IN(1), IN(15), 0, 2);
    list[4] = ask(VIZTUREL_CALL_GAP, ALL, ALL, 0, 0);
    CHECK(play(5) == VIZTUREL_DONE);
    CHECK(is(told[0], 0, 1, 8, 0, 0, 0, 0));
    CHECK(is(told[2], 0, 1, 15, 0, 0, 0, 0));
    CHECK(is(told[3], 0, 0, 0, 0, 0, 0, 0));
    CHECK(is(told[4], VIZTUREL_GAP_LENGTH, 0, 0, 0, 0, 0, 0));
    /* strict calls, of a reversed range and of another */
    only(s, WORDS, 2, 7);
    list[0] = ask(VIZTUREL_CALL_SET_STRICT, IN(9), IN(3), 1, 0);
    list[1] = ask(VIZTUREL_CALL_FLIP_STRICT, IN(9), IN(3), 0, 0);
    list[2] = ask(VIZTUREL_CALL_TALLY_STRICT, IN(9), IN(3), 1, 0);
    list[3] = ask(VIZTUREL_CALL_SET_STRICT, IN(7), EX(10), M, 0);
    list[4] = ask(VIZTUREL_CALL_FLIP_STRICT, IN(4), EX(6), 0, 0);
    list[5] = ask(VIZTUREL_CALL_TALLY_STRICT, EX(2), ALL, 1, 0);
    CHECK(play(6) == VIZTUREL_DONE);
    CHECK(is(told[0], VIZTUREL_RANGE_REVERSED, 0, 0, 0, 0, 0, 0) && is(told[1], VIZTUREL_RANGE_REVERSED, 0, 0, 0, 0, 0, 0));
    CHECK(is(told[2], VIZTUREL_RANGE_REVERSED, 0, 0, 0, 0, 0, 0) && is(told[3], 0, 0, 2, 0, 0, 0, 0));
    CHECK(is(told[4], 0, 0, 0, 0, 0, 0, 0) && is(told[5], 0, 0, 5, 2, 0, 0, 0));
}

/* rectangles in a list: their corners stand in the words of the bounds */
static void rectangles(void) {
    const vizturel_bound first = {1, 2}, last = {2, 4}, plane_first = {0, 0}, plane_last = {65535, 65535}, past = {2, 65536};
    only(s, WORDS, 2, 7);
    list[0] = ask(VIZTUREL_CALL_SET_RECT, first, last, M, 9);
    list[1] = ask(VIZTUREL_CALL_COUNT_RECT, plane_first, plane_last, 0, 9);
    list[2] = ask(VIZTUREL_CALL_SET_RECT, last, first, 1, 0);
    list[3] = ask(VIZTUREL_CALL_COUNT_RECT, first, past, 1, 0);
    list[4] = ask(VIZTUREL_CALL_SET_RECT, plane_first, last, 0, 0);
    list[5] = ask(VIZTUREL_CALL_COUNT_RECT, plane_first, last, 1, 0);
    list[6] = ask(VIZTUREL_CALL_TALLY, ALL, ALL, 1, 0);
    CHECK(play(7) == VIZTUREL_DONE);
    CHECK(is(told[0], 0, 0, 6, 0, 0, 0, 0) && is(told[1], 0, 0, 12, 0, 0, 0, 0));
    CHECK(is(told[2], VIZTUREL_OFF_PLANE, 0, 0, 0, 0, 0, 0) && is(told[3], VIZTUREL_OFF_PLANE, 0, 0, 0, 0, 0, 0));
    /* columns 0 to 4 of rows 0 to 2: of the run 2 .. 7 three cells, and all six of the rectangle */
    CHECK(is(told[4], 0, 0, 9, 0, 0, 0, 0) && is(told[5], 0, 0, 0, 0, 0, 0, 0) && is(told[6], 0, 0, 3, 1, 0, 0, 0));
}

/* reserved numbers, as this version answers them: calls are gets, a range with a bound of another kind is empty; and withdrawn ones, which are refused */
static void any_record(void) {
    static const uint64_t gets[] = {0, 21, 22, 258, (UINT64_C(1) << 32) + 2, (UINT64_C(1) << 63) + 2, M};
    static const uint64_t run[] = {2, 7};
    /* the calls that take a range, and what a record of them tells where it is empty: nothing, but for the ended listing */
    static const uint64_t ranged[] = {VIZTUREL_CALL_SET, VIZTUREL_CALL_FLIP, VIZTUREL_CALL_FIND, VIZTUREL_CALL_SELECT, VIZTUREL_CALL_RANGES, VIZTUREL_CALL_GAP,
                                      VIZTUREL_CALL_TALLY, VIZTUREL_CALL_SET_STRICT, VIZTUREL_CALL_FLIP_STRICT, VIZTUREL_CALL_TALLY_STRICT};
    const size_t some = sizeof ranged / sizeof *ranged;
    size_t i, j, k, n = sizeof gets / sizeof *gets;
    vizturel_call zeroed;
    only(s, WORDS, 2, 7);
    for (i = 0; i < n; i++) list[i] = ask(gets[i], IN(7), IN(9), 0, 0);
    CHECK(play(n) == VIZTUREL_DONE);
    for (i = 0; i < n; i++) CHECK(is(told[i], 0, 0, 1, 0, 0, 0, 0));
    CHECK(holds(s, WORDS, 1, run));
    for (i = 0; i < NO_KINDS; i++) {
        for (j = 0; j < 2 * OTHERS; j++) {
            vizturel_bound odd = {no_kinds[i], j < OTHERS ? 5 : M}, other = {kinds_of_others[j % OTHERS], j < OTHERS ? UINT64_C(6) : 0};
            for (k = 0; k < some; k++) list[k] = ask(ranged[k], odd, other, 0, 1);
            for (k = 0; k < some; k++) list[some + k] = ask(ranged[k], other, odd, 1, 1);
            CHECK(play(2 * some) == VIZTUREL_DONE);
            for (k = 0; k < 2 * some; k++) {
                int ended = list[k].call == VIZTUREL_CALL_RANGES;
                CHECK(is(told[k], 0, 0, 0, 0, ended, 0, ended && k >= some));
            }
        }
    }
    CHECK(holds(s, WORDS, 1, run));
    /* a record with its values alone: its range is empty, and nothing is freed; all zeros are a get */
    memset(&zeroed, 0, sizeof zeroed);
    zeroed.world = here;
    list[0] = zeroed;
    zeroed.call = VIZTUREL_CALL_SET;
    zeroed.lower.value = 2;
    zeroed.upper.value = 8;
    list[1] = zeroed;
    list[2] = ask(VIZTUREL_CALL_TALLY, ALL, ALL, 1, 0);
    CHECK(play(3) == VIZTUREL_DONE);
    CHECK(is(told[0], 0, 0, 0, 0, 0, 0, 0) && is(told[1], 0, 0, 0, 0, 0, 0, 0) && is(told[2], 0, 0, 6, 1, 0, 0, 0));
    /* a withdrawn number at a world that is opened, and the call after it */
    list[0] = ask(7, ALL, ALL, 1, 0);
    list[1] = ask(9, IN(4), EX(6), 0, 0);
    list[2] = ask(VIZTUREL_CALL_GET, IN(4), ALL, 0, 0);
    CHECK(play(3) == VIZTUREL_DONE);
    CHECK(is(told[0], VIZTUREL_WORLD_UNOPENED, 0, 0, 0, 0, 0, 0) && is(told[1], VIZTUREL_WORLD_UNOPENED, 0, 0, 0, 0, 0, 0));
    CHECK(is(told[2], 0, 0, 1, 0, 0, 0, 0) && holds(s, WORDS, 1, run));
}

static void refused_lists(void) {
    static const uint64_t left[] = {2, 3, 6, 6};
    uint64_t few[2 * 8 - 1], same[2 * 8 - 1];
    size_t i;
    /* refused calls of a list go by, and the next ones are made */
    only(one, VIZTUREL_WORDS(1), 2, 7);
    list[0] = ask(VIZTUREL_CALL_SET, IN(4), EX(6), 0, 0);
    list[1] = ask(VIZTUREL_CALL_FILL, IN(M), IN(2), 0, 0);
    list[2] = ask(VIZTUREL_CALL_FLIP, IN(4), EX(6), 0, 0);
    list[3] = ask(VIZTUREL_CALL_SET, IN(2), EX(4), 0, 0);
    memset(told, 0xEE, sizeof told);
    CHECK(vizturel_play(one, VIZTUREL_WORDS(1), list, 4, told, 4) == VIZTUREL_DONE);
    CHECK(is(told[0], VIZTUREL_CAPACITY, 0, 0, 0, 0, 0, 0));
    CHECK(is(told[1], VIZTUREL_WINDOW, 0, 0, 0, 0, 0, 0));
    CHECK(is(told[2], VIZTUREL_CAPACITY, 0, 0, 0, 0, 0, 0));
    CHECK(is(told[3], 0, 0, 2, 0, 0, 0, 0));
    CHECK(is_run(vizturel_run_at(one, VIZTUREL_WORDS(1), here, 5), 4, 7));

    /* the whole refused: no word of the pool and none of the answers has changed */
    only(s, WORDS, 2, 7);
    memcpy(kept, s, sizeof s);
    list[0] = ask(VIZTUREL_CALL_EMPTY, ALL, ALL, 0, 0);
    list[1] = ask(VIZTUREL_CALL_SET, ALL, ALL, 1, 0);
    memset(told, 0xEE, sizeof told);
    CHECK(vizturel_play(s, WORDS - 1, list, 2, told, 2) == VIZTUREL_STORE_LENGTH);
    CHECK(vizturel_play(s, 24, list, 0, told, 0) == VIZTUREL_STORE_LENGTH);
    CHECK(vizturel_play(s, WORDS, list, 2, told, 1) == VIZTUREL_OUTPUT_SHORT);
    CHECK(vizturel_play(s, WORDS, list, 1, told, 0) == VIZTUREL_OUTPUT_SHORT);
    for (i = 0; i < 2 * 8 - 1; i++) few[i] = same[i] = 9;
    CHECK(vizturel_frame(s, WORDS, (const uint64_t *)(const void *)list, 2 * 8, few, 2 * 8 - 1) == VIZTUREL_OUTPUT_SHORT);
    CHECK(memcmp(few, same, sizeof same) == 0);
    CHECK(memcmp(kept, s, sizeof s) == 0);
    CHECK(vizturel_play(s, WORDS, list, 0, told, 0) == VIZTUREL_DONE);
    CHECK(vizturel_play(s, WORDS, list, 0, NULL, 0) == VIZTUREL_DONE);
    /* words after the last whole record are no call, and need no room */
    list[0] = ask(VIZTUREL_CALL_SET, IN(4), EX(6), 0, 0);
    list[1] = ask(VIZTUREL_CALL_SET, IN(7), IN(7), 0, 0);
    CHECK(vizturel_frame(s, WORDS, (const uint64_t *)(const void *)list, 3 * 8 - 1, few, 2 * 8 - 1) == VIZTUREL_OUTPUT_SHORT);
    CHECK(vizturel_frame(s, WORDS, (const uint64_t *)(const void *)list, 2 * 8 - 1, few, 2 * 8 - 1) == VIZTUREL_DONE);
    CHECK(few[0] == 0 && few[1] == 0 && few[2] == 2 && few[7] == 0 && memcmp(few + 8, same + 8, 7 * sizeof *few) == 0);
    CHECK(vizturel_frame(s, WORDS, (const uint64_t *)(const void *)(list + 1), 8, few, 8) == VIZTUREL_DONE);
    CHECK(few[2] == 1 && holds(s, WORDS, 2, left));
    CHECK(vizturel_frame(s, WORDS, (const uint64_t *)(const void *)list, 7, NULL, 0) == VIZTUREL_DONE);
    s[3]++;
    memcpy(kept, s, sizeof s);
    list[0] = ask(VIZTUREL_CALL_EMPTY, ALL, ALL, 0, 0);
    CHECK(play(1) == VIZTUREL_UNSOUND);
    CHECK(memcmp(told, stale, sizeof told) == 0);
    CHECK(vizturel_play(s, WORDS, list, 1, told, 0) == VIZTUREL_UNSOUND);
    CHECK(vizturel_play(s, WORDS, list, 0, told, 0) == VIZTUREL_UNSOUND);
    CHECK(memcmp(kept, s, sizeof s) == 0);
}

/* ---- worlds in one pool */

#define LIMITS(list) list, sizeof list / sizeof *list

/* Whether a world of the pool s admits a run that begins at x and touches none. */
static uint64_t more(uint64_t world, uint64_t x) { return vizturel_set(s, WORDS, world, IN(x), IN(x), 1).refusal; }

static uint64_t runs_of(uint64_t world) { return vizturel_tally(s, WORDS, world, ALL, ALL, 1).runs; }

/* 11, after 1; what a refused making leaves; and what is no mistake */
static void making(void) {
    static const uint64_t crossed[] = {0, 5, 4, 3}, past[] = {7, 9, 7, 9}, wrapping[] = {M, M, 2, M}, odd[] = {1, 2, 9};
    static const uint64_t whole[] = {6, 6, 7, M}, none[] = {0, 0};
    uint64_t many[2 * (VIZTUREL_WORLDS + 1)];
    size_t i;
    for (i = 0; i < 2 * (VIZTUREL_WORLDS + 1); i++) many[i] = 0;
    only(s, WORDS, 2, 7);
    memcpy(kept, s, sizeof s);
    CHECK(vizturel_new(s, WORDS, none, 0) == VIZTUREL_WORLD_LIMITS);
    CHECK(vizturel_new(s, WORDS, none, 1) == VIZTUREL_WORLD_LIMITS);
    CHECK(vizturel_new(s, WORDS, NULL, 0) == VIZTUREL_WORLD_LIMITS);
    CHECK(vizturel_new(s, WORDS, LIMITS(many)) == VIZTUREL_WORLD_LIMITS);
    CHECK(vizturel_new(s, WORDS, LIMITS(crossed)) == VIZTUREL_WORLD_LIMITS);
    CHECK(vizturel_new(s, WORDS, LIMITS(past)) == VIZTUREL_WORLD_LIMITS);
    CHECK(vizturel_new(s, WORDS, LIMITS(wrapping)) == VIZTUREL_WORLD_LIMITS);
    CHECK(vizturel_new(s, WORDS - 1, LIMITS(many)) == VIZTUREL_STORE_LENGTH);
    CHECK(memcmp(kept, s, sizeof s) == 0);
    /* words that hold anything; sixteen worlds, and a word that is no world beside them */
    memset(s, 0xEE, sizeof s);
    CHECK(vizturel_new(s, WORDS, many, 2 * VIZTUREL_WORLDS + 1) == VIZTUREL_DONE);
    CHECK(vizturel_get(s, WORDS, 15, 0).refusal == VIZTUREL_DONE && vizturel_get(s, WORDS, 16, 0).refusal == VIZTUREL_WORLD_UNOPENED);
    CHECK(more(15, 0) == VIZTUREL_CAPACITY);
    CHECK(vizturel_new(s, WORDS, LIMITS(odd)) == VIZTUREL_DONE);
    CHECK(vizturel_get(s, WORDS, 0, 0).refusal == VIZTUREL_DONE && vizturel_get(s, WORDS, 1, 0).refusal == VIZTUREL_WORLD_UNOPENED);
    /* floors that take all of C, and a ceiling above it */
    CHECK(vizturel_new(s, WORDS, LIMITS(whole)) == VIZTUREL_DONE);
    for (i = 0; i < 7; i++) CHECK(more(1, 2 * i) == VIZTUREL_DONE);
    CHECK(more(1, 14) == VIZTUREL_CAPACITY);
    for (i = 0; i < 6; i++) CHECK(more(0, 2 * i) == VIZTUREL_DONE);
    CHECK(more(0, 12) == VIZTUREL_CAPACITY);
}

/* C is 13: world 0 is sure of 4 runs and has at most 8, world 1 is sure of none, world 2 of 3 and has no more. */
static const uint64_t limits[] = {4, 8, 0, M, 3, 3};

/* 8 by the ceiling, and by the sum; a world reaches its floor whatever the others hold */
static void sharing(void) {
    static const uint64_t two[] = {100, 100, 200, 200};
    uint64_t i;
    CHECK(vizturel_new(s, WORDS, LIMITS(limits)) == VIZTUREL_DONE);
    /* world 1 takes what no floor keeps: 13 - 4 - 3 */
    for (i = 0; i < 6; i++) CHECK(more(1, 2 * i + 1) == VIZTUREL_DONE);
    memcpy(kept, s, sizeof s);
    CHECK(more(1, 13) == VIZTUREL_CAPACITY);
    CHECK(vizturel_not(s, WORDS, 1, kept, WORDS, 1) == VIZTUREL_CAPACITY);
    CHECK(vizturel_load(s, WORDS, 1, out, 0) == VIZTUREL_SET_LENGTH);
    CHECK(memcmp(kept, s, sizeof s) == 0);
    /* the floors are still there, and nothing above them */
    for (i = 0; i < 4; i++) CHECK(more(0, 2 * i) == VIZTUREL_DONE);
    CHECK(more(0, 8) == VIZTUREL_CAPACITY);
    for (i = 0; i < 3; i++) CHECK(more(2, 2 * i) == VIZTUREL_DONE);
    CHECK(more(2, 6) == VIZTUREL_CAPACITY);
    /* what world 1 gives up, world 0 may have, up to its ceiling; a world below its floor frees nothing for others */
    CHECK(vizturel_set(s, WORDS, 2, ALL, ALL, 0).low == 3 && more(1, 13) == VIZTUREL_CAPACITY);
    CHECK(vizturel_build(s, WORDS, 1, two, 4) == VIZTUREL_DONE);
    for (i = 4; i < 8; i++) CHECK(more(0, 2 * i) == VIZTUREL_DONE);
    CHECK(more(0, 16) == VIZTUREL_CAPACITY);
    CHECK(runs_of(0) == 8 && runs_of(1) == 2 && runs_of(2) == 0);
    /* joining runs needs no room, and gives some back */
    CHECK(vizturel_set(s, WORDS, 0, IN(0), IN(14), 1).refusal == VIZTUREL_DONE && runs_of(0) == 1);
    for (i = 0; i < 4; i++) CHECK(more(1, 2 * i) == VIZTUREL_DONE);
    CHECK(more(1, 8) == VIZTUREL_CAPACITY);
}

/* Changes of one world, and overwriting it, leave the others; each world answers by its own positions. */
static void apart(void) {
    static const uint64_t first[] = {2, 7, 20, 29}, third[] = {0, M};
    uint64_t joined[] = {2, 3, 8, 9, 20, 29};
    uint8_t written[VIZTUREL_SET_BYTES(2)];
    vizturel_written w;
    CHECK(vizturel_new(s, WORDS, LIMITS(limits)) == VIZTUREL_DONE);
    CHECK(vizturel_build(s, WORDS, 0, first, 4) == VIZTUREL_DONE && vizturel_build(s, WORDS, 2, third, 2) == VIZTUREL_DONE);
    CHECK(is_tally(vizturel_tally(s, WORDS, 0, ALL, ALL, 1), 16, 2));
    CHECK(is_tally(vizturel_tally(s, WORDS, 1, ALL, ALL, 1), 0, 0));
    CHECK(is_full(vizturel_tally(s, WORDS, 2, ALL, ALL, 1)));
    /* two worlds of one pool are compared as they are; one is made of the other by a copy of the pool */
    CHECK(vizturel_eq(s, WORDS, 0, s, WORDS, 1).value == 0 && vizturel_eq(s, WORDS, 0, s, WORDS, 0).value == 1);
    memcpy(a, s, sizeof s);
    CHECK(vizturel_shifted(s, WORDS, 1, 0, 0, a, WORDS, 0) == VIZTUREL_DONE && vizturel_eq(s, WORDS, 0, s, WORDS, 1).value == 1);
    CHECK(vizturel_flip(s, WORDS, 1, IN(4), EX(10)) == VIZTUREL_DONE);
    w = vizturel_write(s, WORDS, 0, VIZTUREL_COLUMNS, written, sizeof written);
    CHECK(w.refusal == VIZTUREL_DONE && w.bytes == sizeof written);
    here = 1;
    CHECK(holds(s, WORDS, 3, joined));
    CHECK(vizturel_load(s, WORDS, 1, written, sizeof written) == VIZTUREL_DONE && holds(s, WORDS, 2, first));
    CHECK(vizturel_combine(s, WORDS, 1, VIZTUREL_AND, a, WORDS, 0, a, WORDS, 2) == VIZTUREL_DONE && holds(s, WORDS, 2, first));
    CHECK(vizturel_shift(s, WORDS, 1, 30, 0) == VIZTUREL_DONE && holds(s, WORDS, 0, NULL));
    here = 0;
    CHECK(holds(s, WORDS, 2, first) && is_full(vizturel_tally(s, WORDS, 2, ALL, ALL, 1)));
}

/* 12, after 1 and 7 of any pool and before every other; 7 of the pool that receives */
static void unopened(void) {
    static const uint64_t numbers[] = {3, 15, 16, UINT64_C(1) << 32, M}, bad[] = {5, 4};
    uint8_t nothing[1] = {9};
    size_t i;
    CHECK(vizturel_new(s, WORDS, LIMITS(limits)) == VIZTUREL_DONE && vizturel_new(b, WORDS, LIMITS(limits)) == VIZTUREL_DONE);
    memcpy(kept, s, sizeof s);
    for (i = 0; i < sizeof numbers / sizeof *numbers; i++) {
        uint64_t no = numbers[i];
        CHECK(vizturel_get(s, WORDS, no, 0).refusal == VIZTUREL_WORLD_UNOPENED);
        CHECK(vizturel_set(s, WORDS, no, ALL, ALL, 1).refusal == VIZTUREL_WORLD_UNOPENED);
        CHECK(vizturel_gap(s, WORDS, no, ALL, ALL, 0).refusal == VIZTUREL_WORLD_UNOPENED);
        CHECK(vizturel_fill(s, WORDS, no, 0, 0).refusal == VIZTUREL_WORLD_UNOPENED);
        CHECK(vizturel_read_map(s, WORDS, no, 0, 7, nothing, 0).refusal == VIZTUREL_WORLD_UNOPENED);
        CHECK(vizturel_set_rect(s, WORDS, no, RECT(1, 1, 0, 0), 1).refusal == VIZTUREL_WORLD_UNOPENED);
        CHECK(vizturel_survey(s, WORDS, no, 0, 0, 9, NULL, 0).refusal == VIZTUREL_WORLD_UNOPENED);
        CHECK(vizturel_load(s, WORDS, no, nothing, 1) == VIZTUREL_WORLD_UNOPENED);
        CHECK(vizturel_mend(s, WORDS, no, nothing, 1, NULL, 0, NULL, 0).refusal == VIZTUREL_WORLD_UNOPENED);
        CHECK(vizturel_build(s, WORDS, no, bad, 2) == VIZTUREL_WORLD_UNOPENED);
        CHECK(vizturel_write(s, WORDS, no, VIZTUREL_ROWS, nothing, 1).refusal == VIZTUREL_WORLD_UNOPENED);
        CHECK(vizturel_write(s, WORDS, no, VIZTUREL_COLUMNS, nothing, 1).refusal == VIZTUREL_WORLD_UNOPENED);
        CHECK(vizturel_eq(s, WORDS, 0, b, WORDS, no).refusal == VIZTUREL_WORLD_UNOPENED);
        CHECK(vizturel_not(s, WORDS, 0, b, WORDS, no) == VIZTUREL_WORLD_UNOPENED);
        CHECK(vizturel_combine(s, WORDS, 0, 0, b, WORDS, 0, b, WORDS, no) == VIZTUREL_WORLD_UNOPENED);
        CHECK(vizturel_combine(s, WORDS, no, 0, b, WORDS, 0, b, WORDS, 0) == VIZTUREL_WORLD_UNOPENED);
        CHECK(vizturel_get(s, WORDS - 1, no, 0).refusal == VIZTUREL_STORE_LENGTH);
    }
    CHECK(memcmp(kept, s, sizeof s) == 0);
    s[3]++;
    memcpy(kept, s, sizeof s);
    CHECK(vizturel_get(s, WORDS, 3, 0).refusal == VIZTUREL_UNSOUND);
    CHECK(vizturel_load(s, WORDS, 3, nothing, 1) == VIZTUREL_UNSOUND);
    CHECK(vizturel_build(s, WORDS, 0, bad, 2) == VIZTUREL_UNSOUND);
    CHECK(vizturel_not(s, WORDS, 3, b, WORDS, 3) == VIZTUREL_UNSOUND);
    CHECK(vizturel_shifted(b, WORDS, 3, 0, 0, s, WORDS, 3) == VIZTUREL_UNSOUND);
    CHECK(vizturel_combine(b, WORDS, 3, 0, s, WORDS, 3, one, VIZTUREL_WORDS(1) - 1, 3) == VIZTUREL_STORE_LENGTH);
    CHECK(memcmp(kept, s, sizeof s) == 0 && nothing[0] == 9);
}

/* a call of a list at the world */
static vizturel_call ask_at(uint64_t world, uint64_t call, vizturel_bound lower, vizturel_bound upper, uint64_t value) {
    vizturel_call c = {call, lower, upper, value, 0, world};
    return c;
}

/* one list at several worlds: 12 and 8 stand in the answers, and a world is emptied alone */
static void lists_of_worlds(void) {
    size_t i;
    CHECK(vizturel_new(s, WORDS, LIMITS(limits)) == VIZTUREL_DONE);
    list[0] = ask_at(0, VIZTUREL_CALL_SET, IN(2), IN(7), 1);
    list[1] = ask_at(1, VIZTUREL_CALL_SET, IN(4), IN(5), 1);
    list[2] = ask_at(3, VIZTUREL_CALL_EMPTY, ALL, ALL, 1);
    list[3] = ask_at(M, VIZTUREL_CALL_FILL, IN(0), IN(0), 0);
    list[4] = ask_at(1, VIZTUREL_CALL_FIND, ALL, ALL, 1);
    list[5] = ask_at(0, VIZTUREL_CALL_EMPTY, ALL, ALL, 1);
    list[6] = ask_at(0, VIZTUREL_CALL_TALLY, ALL, ALL, 1);
    list[7] = ask_at(1, VIZTUREL_CALL_TALLY, ALL, ALL, 1);
    for (i = 0; i < 4; i++) list[8 + i] = ask_at(2, VIZTUREL_CALL_SET, IN(2 * i), IN(2 * i), 1);
    CHECK(play(12) == VIZTUREL_DONE);
    CHECK(is(told[0], 0, 0, 6, 0, 0, 0, 0) && is(told[1], 0, 0, 2, 0, 0, 0, 0));
    CHECK(is(told[2], VIZTUREL_WORLD_UNOPENED, 0, 0, 0, 0, 0, 0) && is(told[3], VIZTUREL_WORLD_UNOPENED, 0, 0, 0, 0, 0, 0));
    CHECK(is(told[4], 0, 1, 4, 0, 0, 0, 0) && is(told[5], 0, 0, 0, 0, 0, 0, 0));
    CHECK(is(told[6], 0, 0, 0, 0, 0, 0, 0) && is(told[7], 0, 0, 2, 1, 0, 0, 0));
    CHECK(is(told[10], 0, 0, 1, 0, 0, 0, 0) && is(told[11], VIZTUREL_CAPACITY, 0, 0, 0, 0, 0, 0));
    CHECK(runs_of(0) == 0 && runs_of(1) == 1 && runs_of(2) == 3);
}

int main(void) {
    for (here = 0; here < 2; here++) {
        cases();
        editions();
        mended();
        gaps();
        strict_calls();
        kinds();
        spare_bits();
        both_forms();
        deepest();
        why_full();
        cells();
        refusals();
        every_call();
        rectangles();
        any_record();
        refused_lists();
    }
    here = 0;
    making();
    sharing();
    apart();
    unopened();
    lists_of_worlds();
    printf("%d passed, %d failed\n", passed, failed);
    return failed != 0;
}
