/* Every exported call on damaged pools, wrong lengths and damaged bytes, with all that is lent placed so that an access past its ends is
 * seen, whoever makes it:
 *
 *   memory end    each slice ends where an inaccessible page begins
 *   memory start  each slice begins where an inaccessible page ends
 *   memory heap   each slice is a block of its own, of just its size, for a sanitizer or valgrind to watch
 *
 * In the first two, words that are lent to be read only lie in pages that cannot be written. A second word, read or write, makes one call with
 * less memory than its count says, in breach of the header: a run that sees accesses past the ends does not live through it.
 * A number instead makes it one in so many of the damaged pools. The last line is 'N answers, M wrong'. */
#define _GNU_SOURCE
#include <stdio.h>
#include <stdlib.h>
#include <string.h>
#include <sys/mman.h>
#include <unistd.h>
#include "vizturel.h"

#define M UINT64_MAX
#define MOST 16 /* the largest capacity tried */
#define IN vizturel_included
#define ALL vizturel_unbounded()

static enum { END, START, HEAP } place;
static long answers, wrong;

static void check(int ok, const char *what, int line) {
    answers++;
    if (!ok && wrong++ < 20) printf("line %d: %s\n", line, what);
}
#define CHECK(x) check((x), #x, __LINE__)

typedef struct {
    uint8_t *at;
    uint8_t *pages; /* what lies between the inaccessible ones */
    size_t length;  /* of these pages */
} slice;

static slice lend(size_t bytes) {
    size_t page = (size_t)sysconf(_SC_PAGESIZE);
    slice s = {NULL, NULL, (bytes + page - 1) / page * page};
    uint8_t *all;
    if (place == HEAP) {
        s.at = (uint8_t *)malloc(bytes);
        return s;
    }
    all = (uint8_t *)mmap(NULL, s.length + 2 * page, PROT_NONE, MAP_PRIVATE | MAP_ANONYMOUS, -1, 0);
    if (all == MAP_FAILED || (s.length > 0 && mprotect(all + page, s.length, PROT_READ | PROT_WRITE) != 0)) {
        perror("no inaccessible pages");
        exit(2);
    }
    s.pages = all + page;
    s.at = place == END ? s.pages + s.length - bytes : s.pages;
    return s;
}

static void give_back(slice s) {
    size_t page = (size_t)sysconf(_SC_PAGESIZE);
    if (place == HEAP) {
        free(s.at);
    } else {
        munmap(s.pages - page, s.length + 2 * page);
    }
}

static void writable(slice s, int yes) {
    if (place != HEAP && s.length > 0) mprotect(s.pages, s.length, yes ? PROT_READ | PROT_WRITE : PROT_READ);
}

typedef struct {
    slice lent;
    uint64_t *words;
    size_t count;
} pool;

static pool lend_pool(size_t count) {
    pool s;
    s.lent = lend(8 * count);
    s.words = (uint64_t *)(void *)s.lent.at;
    s.count = count;
    return s;
}

static uint64_t state = 20261116;
static uint64_t chance(uint64_t n) {
    state ^= state << 13;
    state ^= state >> 7;
    state ^= state << 17;
    return state % n;
}

/* a sound pool that is lent beside the damaged one, one that receives what is made of it, and sound slices */
static pool partner, receiver;
static slice out, map, set_bytes, run_words, calls, told_calls;
/* a written set to be mended, and slices of just what is due of it */
static slice mixed, mended, fates;
static size_t set_length;
/* slices of just what is due of the list for each height; the last one has more runs than any of the pools */
static slice lists[7];
static const size_t least[] = {0, 1, 2, 4, 7, 12, 20};
/* a slice of just the words of one piece of a survey */
static slice piece;
/* a list of ranges, each a run more than those before it, and slices of just as many places as are due at each capacity up to three */
static slice spawns, chosen[4];

#define MAP_LENGTH 100
#define MAP_BYTES ((MAP_LENGTH + 7) / 8)
#define LIST_RUNS 3
#define SPAWNS 4
#define MIXED_RUNS 4
#define MENDED_RUNS 2
#define CALLS 22 /* each number up to the last that names a call once, and one that names none */
#define RECORD sizeof(vizturel_call)

static const vizturel_bound lowers[] = {{3, 0}, {1, 0}, {1, 40}, {2, M}, {1, M}, {1, UINT64_C(1) << 63}, {0, 0}, {M, 7}};
static const vizturel_bound uppers[] = {{3, 0}, {2, 0}, {1, 90}, {1, 3}, {1, M}, {2, UINT64_C(1) << 63}, {0, 90}, {4, M}};
#define RANGES (sizeof lowers / sizeof *lowers)

/* the first run of free positions in a range that has so many, drawn from the front */
static vizturel_drawn first_fit(pool s, uint64_t at, vizturel_bound lower, vizturel_bound upper, uint64_t length) {
    vizturel_listed l = vizturel_ranges(s.words, s.count, at, lower, upper, 0);
    vizturel_drawn d = vizturel_draw_front(s.words, s.count, at, l.first, l.last, 0);
    while (d.found && d.end - d.start < length - 1) d = vizturel_draw_front(s.words, s.count, at, d.first, d.last, 0);
    return d;
}

/* The list for each height in turn, with a word less than is due every other time. The pool is only measured, sound or not: its length decides. */
static void measuring_call(pool s) {
    static uint64_t turn;
    uint64_t h = turn / 2 % 7;
    size_t due = 2 * least[h], room = due - (h > 0 && turn % 2);
    vizturel_worded d = vizturel_deepest(s.words, s.count, h, (uint64_t *)(void *)lists[h].at, room);
    int fits = s.count % 8 == 0 && s.count >= VIZTUREL_WORDS(1);
    turn++;
    CHECK(d.refusal == (!fits ? VIZTUREL_STORE_LENGTH : h == 0 ? VIZTUREL_TREE_HEIGHT : VIZTUREL_WORDS(least[h]) > s.count ? VIZTUREL_CAPACITY
                        : room < due ? VIZTUREL_OUTPUT_SHORT : VIZTUREL_DONE));
    CHECK(d.words == (d.refusal == VIZTUREL_DONE ? due : 0));
}

/* Why the list of ranges is refused, or the part of it that the capacity has room for, with a word less than is due now and then. */
static void stopping_call(pool s) {
    static uint64_t turn;
    int fits = s.count % 8 == 0 && s.count >= VIZTUREL_WORDS(1);
    size_t c = fits ? s.count / 8 - 49 : 1, n = turn % 2 || c >= SPAWNS ? SPAWNS : c, room = c < SPAWNS ? c + (turn % 3 > 0) : 0;
    slice to = chosen[c < SPAWNS ? c : 0];
    vizturel_worded d = vizturel_why_full(s.words, s.count, (const uint64_t *)(void *)spawns.at, 4 * n, (uint64_t *)(void *)to.at, room);
    turn++;
    CHECK(d.refusal == (!fits ? VIZTUREL_STORE_LENGTH : n <= c ? VIZTUREL_NOT_REFUSED : room <= c ? VIZTUREL_OUTPUT_SHORT : VIZTUREL_DONE));
    CHECK(d.words == (d.refusal == VIZTUREL_DONE ? c + 1 : 0));
}

/* Rectangles of a few rows at the plane's corners and among the runs, some of them off it. */
static vizturel_rect some_rect(void) {
    uint64_t top = chance(2) ? chance(3) : 65533 + chance(4), left = chance(2) ? chance(120) : chance(2) ? 0 : 65530 + chance(7);
    vizturel_rect q = {top, left, top + chance(3), chance(4) ? left + chance(9) : 65535};
    return chance(8) ? q : vizturel_corners(q.bottom, q.right, q.top, q.left);
}

static int on_plane(vizturel_rect q) { return q.top <= q.bottom && q.left <= q.right && q.bottom <= 65535 && q.right <= 65535; }

/* A count and a survey. The slice has just the words that are due of one piece, which is what is due of a square without cells of both values. */
static void reports_of_cells(pool s, uint64_t at, uint64_t told) {
    vizturel_rect q = some_rect();
    uint64_t r = vizturel_count_rect(s.words, s.count, at, q).refusal, k = chance(10), row = chance(3), column = chance(2) ? chance(200) : 65536 - chance(300);
    CHECK(r == (told ? told : on_plane(q) ? VIZTUREL_DONE : VIZTUREL_OFF_PLANE));
    vizturel_worded d = vizturel_survey(s.words, s.count, at, row, column, k, (uint64_t *)(void *)piece.at, 5);
    if (told) {
        CHECK(d.refusal == told && d.words == 0);
    } else if (k > 8 || column + (UINT64_C(1) << k) > 65536) {
        CHECK(d.refusal == VIZTUREL_OFF_PLANE && d.words == 0);
    } else {
        uint64_t side = UINT64_C(1) << k;
        uint64_t held = vizturel_count_rect(s.words, s.count, at, vizturel_corners(row, column, row + side - 1, column + side - 1)).number;
        CHECK(held == 0 || held == side * side ? d.refusal == 0 && d.words == 5 : d.refusal == VIZTUREL_OUTPUT_SHORT && d.words == 0);
    }
}

/* Every call that only reads the pool, or overwrites a world of another. Told is 0, 1, 7 or 12: what each of them must be refused with. */
static void reading_calls(pool s, uint64_t at, uint64_t told) {
    const uint64_t *w = s.words;
    size_t n = s.count, i;
    uint64_t v = chance(2), x = chance(2) ? chance(120) : chance(M), r;
    vizturel_bound lower, upper;
    CHECK(vizturel_get(w, n, at, x).refusal == told);
    CHECK(vizturel_run_at(w, n, at, x).refusal == told);
    for (i = 0; i < 2; i++) {
        lower = lowers[chance(RANGES)];
        upper = uppers[chance(RANGES)];
        CHECK(vizturel_find(w, n, at, lower, upper, v).refusal == told);
        CHECK(vizturel_tally(w, n, at, lower, upper, v).refusal == told);
        r = vizturel_tally_strict(w, n, at, lower, upper, v).refusal;
        CHECK(told ? r == told : r == 0 || r == VIZTUREL_RANGE_REVERSED);
        CHECK(vizturel_select(w, n, at, lower, upper, v, chance(40)).refusal == told);
        CHECK(vizturel_ranges(w, n, at, lower, upper, v).refusal == told);
    }
    /* the lowest gap starts with the first free run that is long enough */
    uint64_t length = chance(4) ? 1 + chance(12) : chance(M);
    lower = lowers[chance(RANGES)];
    upper = uppers[chance(RANGES)];
    vizturel_found gap = vizturel_gap(w, n, at, lower, upper, length);
    CHECK(told ? gap.refusal == told : gap.refusal == (length ? 0 : VIZTUREL_GAP_LENGTH));
    if (gap.refusal == 0) {
        vizturel_drawn fit = first_fit(s, at, lower, upper, length);
        CHECK(fit.refusal == 0 && gap.found == fit.found && gap.position == fit.start);
    }
    CHECK(vizturel_draw_front(w, n, at, x, M, v).refusal == told);
    CHECK(vizturel_draw_back(w, n, at, 0, x, v).refusal == told);
    CHECK(vizturel_fill(w, n, at, x / 2, 1 + chance(200)).refusal == told);
    CHECK(vizturel_eq(w, n, at, partner.words, partner.count, 0).refusal == told);
    CHECK(vizturel_eq(partner.words, partner.count, 0, w, n, at).refusal == told);
    measuring_call(s);
    stopping_call(s);
    reports_of_cells(s, at, told);
    CHECK(vizturel_write(w, n, at, VIZTUREL_ROWS, out.at, VIZTUREL_SET_BYTES(MOST)).refusal == told);
    CHECK(vizturel_write(w, n, at, VIZTUREL_COLUMNS, out.at, VIZTUREL_SET_BYTES(MOST)).refusal == told);
    CHECK(vizturel_write_map(w, n, at, x / 2, MAP_LENGTH, map.at, MAP_BYTES).refusal == told);
    CHECK(vizturel_write_map_by_bytes(w, n, at, x / 2, MAP_LENGTH, map.at, MAP_BYTES).refusal == told);
    /* into another pool; there it may also not fit */
    r = vizturel_combine(receiver.words, receiver.count, 0, chance(3), w, n, at, partner.words, partner.count, 0);
    CHECK(told ? r == told : r == 0 || r == VIZTUREL_CAPACITY);
    r = vizturel_combine(receiver.words, receiver.count, 0, chance(3), partner.words, partner.count, 0, w, n, at);
    CHECK(told ? r == told : r == 0 || r == VIZTUREL_CAPACITY);
    r = vizturel_not(receiver.words, receiver.count, 0, w, n, at);
    CHECK(told ? r == told : r == 0 || r == VIZTUREL_CAPACITY);
    r = vizturel_shifted(receiver.words, receiver.count, 0, x, v, w, n, at);
    CHECK(told ? r == told : r == 0 || r == VIZTUREL_CAPACITY);
}

static int is_stale(slice s, size_t bytes) {
    size_t i;
    for (i = 0; i < bytes; i++) {
        if (s.at[i] != 0xEE) return 0;
    }
    return 1;
}

/* Every call at once, at several worlds; told as before, but that 12 stands in answers. A refused frame has written no answer. */
static void frame(pool s, uint64_t told) {
    uint64_t refusal, due = told == VIZTUREL_WORLD_UNOPENED ? 0 : told;
    memset(told_calls.at, 0xEE, CALLS * RECORD);
    refusal = vizturel_play(s.words, s.count, (const vizturel_call *)(void *)calls.at, CALLS, (vizturel_answer *)(void *)told_calls.at, CALLS);
    CHECK(refusal == due && is_stale(told_calls, CALLS * RECORD) == (due != 0));
}

/* Every call that changes the pool, each on the same words; told as before. A refused one has changed none of them. */
static void changing_calls(pool s, uint64_t at, const uint64_t *damaged, uint64_t told) {
    static const uint64_t limits[] = {0, M, 1, 1};
    uint64_t v = chance(2), x = chance(2) ? chance(120) : chance(M), refusal = 0;
    vizturel_bound lower = lowers[chance(RANGES)], upper = uppers[chance(RANGES)];
    const uint64_t *p = partner.words;
    size_t n = partner.count;
    vizturel_rect q = some_rect();
    int which;
    for (which = 0; which < 14; which++) {
        switch (which) {
        case 0: refusal = vizturel_set(s.words, s.count, at, lower, upper, v).refusal; break;
        case 1: refusal = vizturel_flip(s.words, s.count, at, lower, upper); break;
        case 2: refusal = vizturel_shift(s.words, s.count, at, x, v); break;
        case 3: refusal = vizturel_read_map(s.words, s.count, at, x / 2, MAP_LENGTH, map.at, MAP_BYTES).refusal; break;
        case 4: refusal = vizturel_load(s.words, s.count, at, set_bytes.at, set_length); break;
        case 5: refusal = vizturel_build(s.words, s.count, at, (const uint64_t *)(void *)run_words.at, 2 * LIST_RUNS); break;
        case 6: refusal = vizturel_combine(s.words, s.count, at, v, p, n, 0, p, n, 0); break;
        case 7: refusal = vizturel_not(s.words, s.count, at, p, n, 0); break;
        case 8: refusal = vizturel_shifted(s.words, s.count, at, x, v, p, n, 0); break;
        case 9: refusal = vizturel_read_map_by_bytes(s.words, s.count, at, x / 2, MAP_LENGTH, map.at, MAP_BYTES).refusal; break;
        case 10:
            refusal = vizturel_mend(s.words, s.count, at, mixed.at, VIZTUREL_SET_BYTES(MIXED_RUNS), mended.at, VIZTUREL_SET_BYTES(MENDED_RUNS),
                                    fates.at, MIXED_RUNS).refusal;
            break;
        case 11: refusal = vizturel_set_strict(s.words, s.count, at, lower, upper, v).refusal; break;
        case 12: refusal = vizturel_flip_strict(s.words, s.count, at, lower, upper); break;
        case 13: refusal = vizturel_set_rect(s.words, s.count, at, q, v).refusal; break;
        }
        CHECK(told ? refusal == told : refusal == 0 || refusal == VIZTUREL_CAPACITY || (which >= 11 && which < 13 && refusal == VIZTUREL_RANGE_REVERSED) ||
              (which == 13 && refusal == VIZTUREL_OFF_PLANE));
        CHECK(told || which != 13 || (refusal == VIZTUREL_OFF_PLANE) == !on_plane(q));
        CHECK(refusal == 0 || memcmp(s.words, damaged, 8 * s.count) == 0);
        memcpy(s.words, damaged, 8 * s.count);
    }
    frame(s, told);
    CHECK((told != VIZTUREL_STORE_LENGTH && told != VIZTUREL_UNSOUND) || memcmp(s.words, damaged, 8 * s.count) == 0);
    /* making looks at no word */
    memcpy(s.words, damaged, 8 * s.count);
    refusal = vizturel_new(s.words, s.count, limits, sizeof limits / sizeof *limits);
    CHECK(refusal == (told == VIZTUREL_STORE_LENGTH ? told : 0));
    CHECK(refusal != 0 || (vizturel_get(s.words, s.count, 1, 0).refusal == 0 && vizturel_get(s.words, s.count, 2, 0).refusal == VIZTUREL_WORLD_UNOPENED));
}

static long sound, unsound;

/* Every call, at some world, on these words: whether they are a sound pool. */
static int every_call(pool s, const uint64_t *damaged) {
    uint64_t at = chance(4) ? chance(3) : chance(VIZTUREL_WORLDS + 1), told;
    memcpy(s.words, damaged, 8 * s.count);
    told = vizturel_get(s.words, s.count, at, 0).refusal;
    if (told == 0 || told == VIZTUREL_WORLD_UNOPENED) {
        CHECK((at < s.words[0]) == (told == 0));
        sound++;
    } else {
        CHECK(told == VIZTUREL_UNSOUND || told == VIZTUREL_STORE_LENGTH);
    }
    if (told == VIZTUREL_UNSOUND) unsound++;
    writable(s.lent, 0);
    reading_calls(s, at, told);
    writable(s.lent, 1);
    changing_calls(s, at, damaged, told);
    return told == 0 || told == VIZTUREL_WORLD_UNOPENED;
}

/* The words of a world's record, and of a node. */
#define RECORD_OF(w) (8 * (1 + (size_t)(w)))
#define NODE(n) (8 * (16 + (size_t)(n)))
enum { ROOT = 0, OFFSET = 1, RUNS = 3, FLOOR = 6, CEILING = 7, LEFT = 2, RIGHT = 3, HEIGHT = 4, WORLD = 7 };

#define KINDS 7
#define SHARED 5 /* from this kind on there are several worlds */

/* a sound pool, of which kind there are seven: five of one world, one of three worlds, one of sixteen */
static void fill_pool(pool s, size_t capacity, int kind) {
    uint64_t limits[2 * VIZTUREL_WORLDS];
    uint64_t i, worlds = kind < SHARED ? 1 : kind == SHARED ? 3 : VIZTUREL_WORLDS;
    for (i = 0; i < worlds; i++) {
        limits[2 * i] = kind >= SHARED && i < capacity;
        limits[2 * i + 1] = kind >= SHARED ? capacity : M;
    }
    CHECK(vizturel_new(s.words, s.count, limits, 2 * worlds) == 0);
    if (kind == 1) CHECK(vizturel_set(s.words, s.count, 0, ALL, ALL, 1).refusal == 0);
    if (kind >= 2) {
        for (i = 0; i < capacity; i++) CHECK(vizturel_set(s.words, s.count, i % worlds, IN(9 * i), IN(9 * i + i % 5), 1).refusal == 0);
    }
    /* kind 3 goes over the place where physical positions end; in kind 4 nodes have been freed and used again */
    if (kind == 3) {
        CHECK(vizturel_shift(s.words, s.count, 0, 20, 0) == 0);
        CHECK(vizturel_shift(s.words, s.count, 0, 33, 1) == 0);
    }
    if (kind == 4) {
        for (i = 0; i < capacity; i += 3) CHECK(vizturel_set(s.words, s.count, 0, IN(9 * i), IN(9 * i + 4), 0).refusal == 0);
        CHECK(vizturel_set(s.words, s.count, 0, IN(1), IN(2), 1).refusal == 0);
    }
}

/* Whether the limits of a pool are kept, whose offsets are 0, so that physical runs are runs. */
static int limits_kept(const uint64_t *w, size_t capacity) {
    uint64_t i, left = capacity;
    for (i = 0; i < w[0]; i++) {
        const uint64_t *r = w + RECORD_OF(i);
        uint64_t claim = r[RUNS] > r[FLOOR] ? r[RUNS] : r[FLOOR];
        if (r[FLOOR] > r[CEILING] || r[RUNS] > r[CEILING] || claim > left) return 0;
        left -= claim;
    }
    return 1;
}

/* Damage that only worlds in one pool can have: all of it is found. */
static void crossed_worlds(pool s, const uint64_t *whole, uint64_t *damaged, size_t capacity) {
    size_t count = s.count, bytes = 8 * count;
    uint64_t i, j, k, n, nodes = capacity + 32;
    for (i = 0; i < whole[0]; i++) {
        for (j = 0; j < whole[0]; j++) {
            const uint64_t *a = whole + RECORD_OF(i), *b = whole + RECORD_OF(j);
            if (i == j || a[ROOT] == b[ROOT]) continue;
            /* two records swapped, and all of one but its limits copied over the other */
            memcpy(damaged, whole, bytes);
            memcpy(damaged + RECORD_OF(i), b, 64);
            memcpy(damaged + RECORD_OF(j), a, 64);
            CHECK(!every_call(s, damaged));
            memcpy(damaged, whole, bytes);
            memcpy(damaged + RECORD_OF(i), b, 8 * FLOOR);
            CHECK(!every_call(s, damaged));
        }
        /* a world's root is any other node, and a limit any other number */
        for (n = 0; n <= nodes + 1; n++) {
            if (n == whole[RECORD_OF(i) + ROOT]) continue;
            memcpy(damaged, whole, bytes);
            damaged[RECORD_OF(i) + ROOT] = n;
            CHECK(!every_call(s, damaged));
            for (k = FLOOR; k <= CEILING; k++) {
                memcpy(damaged, whole, bytes);
                damaged[RECORD_OF(i) + k] = n;
                CHECK(every_call(s, damaged) == limits_kept(damaged, capacity));
            }
        }
    }
    for (n = 1; n <= nodes; n++) {
        int used = whole[NODE(n) + HEIGHT] != 0;
        /* a node of another world, or a free one that names a world */
        for (k = 0; k <= VIZTUREL_WORLDS; k++) {
            if (k == whole[NODE(n) + WORLD]) continue;
            memcpy(damaged, whole, bytes);
            damaged[NODE(n) + WORLD] = k;
            CHECK(!every_call(s, damaged));
        }
        /* a link to any other node, of a world or free */
        for (j = 0; j <= nodes + 1; j++) {
            for (k = LEFT; k <= (used ? RIGHT : LEFT); k++) {
                if (j == whole[NODE(n) + k]) continue;
                memcpy(damaged, whole, bytes);
                damaged[NODE(n) + k] = j;
                CHECK(!every_call(s, damaged));
            }
        }
    }
}

static void damaged_pools(size_t capacity, long stride) {
    size_t count = VIZTUREL_WORDS(capacity), i, k;
    pool s = lend_pool(count);
    uint64_t *whole = (uint64_t *)malloc(8 * count), *damaged = (uint64_t *)malloc(8 * count);
    long turn = 0;
    int kind;
    for (kind = 0; kind < KINDS; kind++) {
        fill_pool(s, capacity, kind);
        memcpy(whole, s.words, 8 * count);
        CHECK(every_call(s, whole));
        for (i = 0; i < count; i++) {
            uint64_t w = whole[i];
            /* links just past the last node, and such that eight times them wraps; then each bit, but of a 0 these */
            static const uint64_t few[] = {2, 4, 31, 32, 63};
            const uint64_t values[] = {0, 1, 2, capacity, capacity + 1, capacity + 32, capacity + 33, capacity + 48, capacity + 49, count - 1, count,
                w + 1, w - 1, ~w, M - 1, UINT64_C(1) << 61, (UINT64_C(1) << 61) + 1, (M >> 3) + 1 + capacity, M >> 3, M >> 1};
            size_t given = sizeof values / sizeof *values, bits = w ? 64 : sizeof few / sizeof *few;
            for (k = 0; k < given + bits; k++) {
                if (turn++ % stride != 0) continue;
                memcpy(damaged, whole, 8 * count);
                damaged[i] = k < given ? values[k] : w ^ UINT64_C(1) << (w ? k - given : few[k - given]);
                every_call(s, damaged);
            }
        }
        /* several words at once: copies of other words, links of either kind, anything */
        for (k = 0; k < 2000; k++) {
            size_t many = 1 + chance(6);
            if (turn++ % stride != 0) continue;
            memcpy(damaged, whole, 8 * count);
            for (i = 0; i < many; i++) {
                uint64_t at = chance(count);
                damaged[at] = chance(2) ? whole[chance(count)] : chance(2) ? chance(capacity + 35) : chance(M);
            }
            every_call(s, damaged);
        }
        if (kind >= SHARED && capacity <= 9 && stride == 1) crossed_worlds(s, whole, damaged, capacity);
    }
    free(whole);
    free(damaged);
    give_back(s.lent);
}

/* Every length up to 440 words, none of which is a pool but 400, 408, .. 440. */
static void wrong_lengths(void) {
    uint64_t garbage[440];
    size_t count, i;
    for (count = 0; count <= 440; count++) {
        pool s = lend_pool(count);
        for (i = 0; i < 440; i++) garbage[i] = chance(2) ? chance(12) : chance(M);
        CHECK(!every_call(s, garbage));
        give_back(s.lent);
    }
}

/* As many runs as so many bytes can tell, as a written set, by columns where that is its version; the version and the number of runs may be others. */
static void fill_set(slice s, size_t length, uint8_t version, const uint8_t *count) {
    size_t i, runs = length < 21 ? 1 : (length - 5) / 16;
    memset(s.at, 0, length);
    for (i = 5; i < length; i++) {
        size_t run = version == 2 ? (i - 5) % runs : (i - 5) / 16, byte = version == 2 ? (i - 5) / runs : (i - 5) % 16;
        if (byte % 8 == 7) s.at[i] = (uint8_t)(3 * (2 * run + byte / 8));
    }
    if (length > 0) s.at[0] = version;
    for (i = 1; i < 5 && i < length; i++) s.at[i] = count[i - 1];
}

/* What the runs of a mixed set are, in turn: one position, two, up to the one before it in the set, none, and three. */
enum { SINGLE, REACHED, REACHING, REVERSED, THREE, IN_TURN };

/* Fills a slice with a written set of n runs that fall, by fives of these kinds, and tells how many runs its positions have. */
static size_t mix(slice s, size_t n, uint64_t edition) {
    static const uint64_t ends[IN_TURN] = {4, 5, 7, 3, 6};
    size_t i, j, outcome = 0;
    memset(s.at, 0, 5);
    s.at[0] = (uint8_t)edition;
    s.at[3] = (uint8_t)(n >> 8);
    s.at[4] = (uint8_t)n;
    for (i = 0; i < n; i++) {
        uint64_t below = 4 * (n - i), run[2];
        run[0] = below + 4;
        run[1] = below + ends[i % IN_TURN];
        outcome += i % IN_TURN != REVERSED && i % IN_TURN != REACHING;
        for (j = 0; j < 16; j++) s.at[5 + (edition == VIZTUREL_ROWS ? 16 * i + j : n * j + i)] = (uint8_t)(run[j / 8] >> (56 - 8 * (j % 8)));
    }
    return outcome;
}

/* Mixed sets of a few runs and of about as many as the library takes at once, in a slice of just their length, mended into slices of just what is
 * due, and of a byte less. */
static void mend_lengths(void) {
    static const size_t counts[] = {0, 1, 2, 3, 4, 5, 6, 11, 511, 512, 513, 1024, 1025};
    pool s = lend_pool(VIZTUREL_WORDS(1025));
    size_t c, i;
    uint64_t edition;
    for (c = 0; c < sizeof counts / sizeof *counts; c++) {
        for (edition = VIZTUREL_ROWS; edition <= VIZTUREL_COLUMNS; edition++) {
            size_t n = counts[c], length = VIZTUREL_SET_BYTES(n), due;
            slice bytes = lend(length);
            due = VIZTUREL_SET_BYTES(mix(bytes, n, edition));
            slice set = lend(due), less = lend(due - 1), report = lend(n), fewer = lend(n > 0 ? n - 1 : 0);
            writable(bytes, 0);
            CHECK(vizturel_new_one(s.words, s.count) == 0);
            CHECK(vizturel_mend(s.words, s.count, 0, bytes.at, length, less.at, due - 1, report.at, n).refusal == VIZTUREL_OUTPUT_SHORT);
            CHECK(n == 0 || vizturel_mend(s.words, s.count, 0, bytes.at, length, set.at, due, fewer.at, n - 1).refusal == VIZTUREL_OUTPUT_SHORT);
            CHECK(vizturel_mend(s.words, s.count, 0, bytes.at, length > 5 ? length - 1 : 4, set.at, due, report.at, n).refusal == VIZTUREL_SET_LENGTH);
            vizturel_mended m = vizturel_mend(s.words, s.count, 0, bytes.at, length, set.at, due, report.at, n);
            CHECK(m.refusal == 0 && m.bytes == due && m.report == n);
            /* what was written loads, in the edition read, and is written again */
            CHECK(set.at[0] == edition && vizturel_load(s.words, s.count, 0, set.at, due) == 0);
            slice again = lend(due);
            CHECK(vizturel_write(s.words, s.count, 0, edition, again.at, due).refusal == 0 && memcmp(again.at, set.at, due) == 0);
            for (i = 0; i < n; i++) {
                int joined = i % IN_TURN == REACHING || (i % IN_TURN == REACHED && i + 1 < n);
                CHECK(report.at[i] == (i % IN_TURN == REVERSED ? VIZTUREL_DROPPED : joined ? VIZTUREL_JOINED : VIZTUREL_KEPT));
            }
            give_back(bytes);
            give_back(set);
            give_back(less);
            give_back(report);
            give_back(fewer);
            give_back(again);
        }
    }
    give_back(s.lent);
}

/* Written sets of every length up to some, of every version up to 3, with right and wrong counts of runs, loaded and converted; outputs of every
 * length; run lists and maps too. */
static void damaged_bytes(void) {
    static const uint8_t counts[][4] = {{0, 0, 0, 0}, {0, 0, 0, 1}, {0, 0, 0, 3}, {0, 0, 0, 4}, {255, 255, 255, 255}, {16, 0, 0, 0}, {16, 0, 0, 1}, {128, 0, 0, 0}};
    pool s = lend_pool(VIZTUREL_WORDS(3));
    size_t length, c, i;
    fill_pool(s, 3, 0);
    for (length = 0; length <= 5 + 16 * 5; length++) {
        slice bytes = lend(length);
        for (c = 0; c < sizeof counts / 4; c++) {
            uint8_t version;
            for (version = 0; version < 4; version++) {
                slice turned = lend(length), shorter = lend(length > 0 ? length - 1 : 0);
                vizturel_written w;
                int known = version == 1 || version == 2;
                fill_set(bytes, length, version, counts[c]);
                writable(bytes, 0);
                uint64_t r = vizturel_load(s.words, s.count, 0, bytes.at, length);
                CHECK(length < 5 ? r == VIZTUREL_SET_LENGTH : !known ? r == VIZTUREL_SET_VERSION : r == 0 || r == VIZTUREL_SET_LENGTH || r == VIZTUREL_CAPACITY);
                /* the converter refuses as a reader does, but that it asks for no capacity; what it writes is converted back */
                w = vizturel_convert(bytes.at, length, turned.at, length);
                CHECK(r == 0 || r == VIZTUREL_CAPACITY ? w.refusal == 0 && w.bytes == length : w.refusal == r && w.bytes == 0);
                if (w.refusal == 0) {
                    slice back = lend(length);
                    writable(turned, 0);
                    CHECK(vizturel_convert(turned.at, length, back.at, length).refusal == 0 && memcmp(back.at, bytes.at, length) == 0);
                    give_back(back);
                }
                w = vizturel_convert(bytes.at, length, shorter.at, length > 0 ? length - 1 : 0);
                CHECK(r == 0 || r == VIZTUREL_CAPACITY ? w.refusal == VIZTUREL_OUTPUT_SHORT : w.refusal == r);
                /* mending too, where there is room: these runs are right already, and come back */
                slice kept = lend(length / 16);
                writable(turned, 1);
                vizturel_mended m = vizturel_mend(s.words, s.count, 0, bytes.at, length, turned.at, length, kept.at, length / 16);
                CHECK(m.refusal == r && (r != 0 || (m.bytes == length && m.report == length / 16 && memcmp(turned.at, bytes.at, length) == 0)));
                give_back(kept);
                writable(bytes, 1);
                give_back(turned);
                give_back(shorter);
            }
        }
        /* a slice to write to, a map to read and a run list, of that length */
        fill_pool(s, 3, 2);
        vizturel_written w = vizturel_write(s.words, s.count, 0, VIZTUREL_ROWS, bytes.at, length);
        CHECK(length < VIZTUREL_SET_BYTES(3) ? w.refusal == VIZTUREL_OUTPUT_SHORT : w.refusal == 0);
        w = vizturel_write(s.words, s.count, 0, VIZTUREL_COLUMNS, bytes.at, length);
        CHECK(length < VIZTUREL_SET_BYTES(3) ? w.refusal == VIZTUREL_OUTPUT_SHORT : w.refusal == 0);
        w = vizturel_write_map(s.words, s.count, 0, 3, 8 * 20, bytes.at, length);
        CHECK(length < 20 ? w.refusal == VIZTUREL_OUTPUT_SHORT : w.refusal == 0);
        w = vizturel_write_map_by_bytes(s.words, s.count, 0, 3, 8 * 20, bytes.at, length);
        CHECK(length < 20 ? w.refusal == VIZTUREL_OUTPUT_SHORT : w.refusal == 0);
        for (i = 0; i < length; i++) bytes.at[i] = 255;
        uint64_t r = vizturel_read_map(s.words, s.count, 0, 3, 8 * 20, bytes.at, length).refusal;
        CHECK(length == 20 ? r == 0 : r == VIZTUREL_WINDOW);
        r = vizturel_read_map_by_bytes(s.words, s.count, 0, 3, 8 * 20, bytes.at, length).refusal;
        CHECK(length == 20 ? r == 0 : r == VIZTUREL_WINDOW);
        /* all bits are one: those past the window are stray, until they are cleared */
        uint64_t window = 7 * length + 1;
        int fits = (window + 7) / 8 == length;
        r = vizturel_read_map(s.words, s.count, 0, M - 7 * length, window, bytes.at, length).refusal;
        CHECK(!fits ? r == VIZTUREL_WINDOW : window % 8 ? r == VIZTUREL_STRAY_BIT : r == 0 || r == VIZTUREL_CAPACITY);
        vizturel_numbered cleared = vizturel_clear_map(M - 7 * length, window, bytes.at, length);
        CHECK(fits ? cleared.refusal == 0 && cleared.number == 8 * length - window : cleared.refusal == VIZTUREL_WINDOW);
        writable(bytes, 0);
        r = vizturel_read_map(s.words, s.count, 0, M - 7 * length, window, bytes.at, length).refusal;
        CHECK(fits ? r == 0 || r == VIZTUREL_CAPACITY : r == VIZTUREL_WINDOW);
        writable(bytes, 1);
        give_back(bytes);
        if (length <= 10) {
            slice list = lend(8 * length);
            uint64_t *runs = (uint64_t *)(void *)list.at;
            for (i = 0; i < length; i++) runs[i] = 5 * i;
            writable(list, 0);
            r = vizturel_build(s.words, s.count, 0, runs, length);
            CHECK(length / 2 > 3 ? r == VIZTUREL_CAPACITY : r == 0);
            give_back(list);
        }
    }
    give_back(s.lent);
}

/* Maps of 1 to 24 bytes, each in a slice of just its length, written and read by words and by single bytes: a word that goes past the last byte,
 * or begins before the first, is seen. */
static void map_lengths(void) {
    size_t capacity = 9, count = VIZTUREL_WORDS(9), bytes, i;
    pool s = lend_pool(count), wide = lend_pool(count), narrow = lend_pool(count);
    int kind, which;
    uint64_t n;
    for (kind = 0; kind < KINDS; kind++) {
        uint64_t at = kind < SHARED ? 0 : 1;
        fill_pool(s, capacity, kind);
        writable(s.lent, 0);
        for (bytes = 1; bytes <= 24; bytes++) {
            slice by_words = lend(bytes), by_bytes = lend(bytes);
            for (n = 8 * bytes - 7; n <= 8 * bytes; n++) {
                const uint64_t bases[] = {0, 5, M - (n - 1)};
                for (i = 0; i < sizeof bases / sizeof *bases; i++) {
                    vizturel_written w = vizturel_write_map(s.words, count, at, bases[i], n, by_words.at, bytes);
                    vizturel_written b = vizturel_write_map_by_bytes(s.words, count, at, bases[i], n, by_bytes.at, bytes);
                    CHECK(w.refusal == 0 && w.bytes == bytes && b.refusal == 0 && b.bytes == bytes);
                    CHECK(memcmp(by_words.at, by_bytes.at, bytes) == 0);
                    /* the map itself, which changes nothing; the same turned over, and all ones */
                    for (which = 0; which < 3; which++) {
                        size_t j;
                        for (j = 0; j < bytes; j++) by_bytes.at[j] = which == 0 ? by_words.at[j] : which == 1 ? (uint8_t)~by_words.at[j] : 0xFF;
                        CHECK(vizturel_clear_map(bases[i], n, by_bytes.at, bytes).refusal == 0);
                        memcpy(wide.words, s.words, 8 * count);
                        memcpy(narrow.words, s.words, 8 * count);
                        writable(by_bytes, 0);
                        vizturel_counted c = vizturel_read_map(wide.words, count, at, bases[i], n, by_bytes.at, bytes);
                        vizturel_counted d = vizturel_read_map_by_bytes(narrow.words, count, at, bases[i], n, by_bytes.at, bytes);
                        writable(by_bytes, 1);
                        CHECK(c.refusal == d.refusal && c.carry == d.carry && c.low == d.low && (which || (c.refusal == 0 && c.low == 0)));
                        CHECK(vizturel_eq(wide.words, count, at, narrow.words, count, at).value == 1);
                    }
                }
            }
            give_back(by_words);
            give_back(by_bytes);
        }
        writable(s.lent, 1);
    }
    give_back(s.lent);
    give_back(wide.lent);
    give_back(narrow.lent);
}

/* The list for each height up to 10, in slices of just what is due, of some words less, and of more. */
static void list_lengths(void) {
    pool s = lend_pool(VIZTUREL_WORDS(143));
    size_t runs = 0, next = 1, room, i;
    uint64_t h;
    memset(s.words, 0xEE, 8 * s.count);
    writable(s.lent, 0);
    for (h = 1; h <= 10; h++) {
        size_t more = runs + next + 1;
        runs = next;
        next = more;
        for (room = 2 * runs > 5 ? 2 * runs - 5 : 0; room <= 2 * runs + 5; room++) {
            slice list = lend(8 * room);
            memset(list.at, 0xEE, 8 * room);
            vizturel_worded d = vizturel_deepest(s.words, s.count, h, (uint64_t *)(void *)list.at, room);
            if (room < 2 * runs) {
                CHECK(d.refusal == VIZTUREL_OUTPUT_SHORT && d.words == 0 && is_stale(list, 8 * room));
            } else {
                CHECK(d.refusal == VIZTUREL_DONE && d.words == 2 * runs);
                for (i = 16 * runs; i < 8 * room; i++) CHECK(list.at[i] == 0xEE);
            }
            give_back(list);
        }
    }
    writable(s.lent, 1);
    give_back(s.lent);
}

/* Why lists of any words are refused, in slices of just the list's words, of every number up to 40, and for the places, of every number up to 8; and
 * lists of so many ranges that they are taken in several parts. */
static void why_lengths(void) {
    size_t capacity, length, room, i, stopped = 0, ended = 0;
    for (capacity = 1; capacity <= 4; capacity++) {
        pool s = lend_pool(VIZTUREL_WORDS(capacity));
        memset(s.words, 0xEE, 8 * s.count);
        writable(s.lent, 0);
        for (length = 0; length <= 40; length++) {
            slice list = lend(8 * length);
            uint64_t *words = (uint64_t *)(void *)list.at, due = 0;
            for (i = 0; i < length; i++) words[i] = i % 2 == 0 ? chance(8) ? 1 : chance(4) : i % 4 == 1 ? chance(60) : words[i - 2] + chance(3);
            writable(list, 0);
            for (room = 8; room <= 8; room--) {
                slice to = lend(8 * room);
                memset(to.at, 0xEE, 8 * room);
                vizturel_worded d = vizturel_why_full(s.words, s.count, words, length, (uint64_t *)(void *)to.at, room);
                /* whether the list is refused, as it was told where there was room for any */
                if (room == 8) due = d.refusal == VIZTUREL_DONE;
                if (due) stopped++;
                else ended++;
                CHECK(d.refusal == (!due ? VIZTUREL_NOT_REFUSED : room <= capacity ? VIZTUREL_OUTPUT_SHORT : VIZTUREL_DONE));
                CHECK(d.words == (d.refusal == VIZTUREL_DONE ? capacity + 1 : 0));
                for (i = (size_t)d.words * 8; i < 8 * room; i++) CHECK(to.at[i] == 0xEE);
                give_back(to);
            }
            give_back(list);
        }
        writable(s.lent, 1);
        give_back(s.lent);
    }
    CHECK(stopped > 100 && ended > 100);
    for (capacity = 510; capacity <= 1026; capacity += capacity == 514 ? 508 : 1) {
        pool s = lend_pool(VIZTUREL_WORDS(capacity));
        slice list = lend(32 * (capacity + 1)), to = lend(8 * (capacity + 1));
        uint64_t *words = (uint64_t *)(void *)list.at;
        for (i = 0; i <= capacity; i++) {
            /* in an order that is neither rising nor falling */
            uint64_t x = 3 * (7 * i % 1031);
            const uint64_t range[] = {1, x, 2, x + 1};
            memcpy(words + 4 * i, range, sizeof range);
        }
        writable(list, 0);
        vizturel_worded d = vizturel_why_full(s.words, s.count, words, 4 * capacity, (uint64_t *)(void *)to.at, capacity + 1);
        CHECK(d.refusal == VIZTUREL_NOT_REFUSED && d.words == 0);
        d = vizturel_why_full(s.words, s.count, words, 4 * (capacity + 1), (uint64_t *)(void *)to.at, capacity);
        CHECK(d.refusal == VIZTUREL_OUTPUT_SHORT && d.words == 0);
        d = vizturel_why_full(s.words, s.count, words, 4 * (capacity + 1), (uint64_t *)(void *)to.at, capacity + 1);
        CHECK(d.refusal == VIZTUREL_DONE && d.words == capacity + 1);
        for (i = 0; i <= capacity; i++) CHECK(((const uint64_t *)(void *)to.at)[i] == i);
        give_back(to);
        give_back(list);
        give_back(s.lent);
    }
}

/* Surveys of a block in squares of every side up to 16, in slices of just what is due, of some words less, and of more. */
static void survey_lengths(void) {
    pool s = lend_pool(VIZTUREL_WORDS(16));
    size_t room, i;
    uint64_t k;
    CHECK(vizturel_new_one(s.words, s.count) == 0);
    CHECK(vizturel_set_rect(s.words, s.count, 0, vizturel_corners(1, 1, 14, 14), 1).low == 14 * 14);
    writable(s.lent, 0);
    for (k = 0; k <= 4; k++) {
        slice all = lend(8 * VIZTUREL_SURVEY_WORDS(k));
        size_t due = (size_t)vizturel_survey(s.words, s.count, 0, 0, 0, k, (uint64_t *)(void *)all.at, VIZTUREL_SURVEY_WORDS(k)).words;
        CHECK(due >= 5 && due % 5 == 0);
        for (room = due > 7 ? due - 7 : 0; room <= due + 7; room++) {
            slice list = lend(8 * room);
            memset(list.at, 0xEE, 8 * room);
            vizturel_worded d = vizturel_survey(s.words, s.count, 0, 0, 0, k, (uint64_t *)(void *)list.at, room);
            if (room < due) {
                CHECK(d.refusal == VIZTUREL_OUTPUT_SHORT && d.words == 0 && is_stale(list, 8 * room));
            } else {
                CHECK(d.refusal == VIZTUREL_DONE && d.words == due && memcmp(list.at, all.at, 8 * due) == 0);
                for (i = 8 * due; i < 8 * room; i++) CHECK(list.at[i] == 0xEE);
            }
            give_back(list);
        }
        give_back(all);
    }
    writable(s.lent, 1);
    give_back(s.lent);
}

/* Lists of calls, of any words, and slices for their answers: each of every number of words up to 40. */
static void frame_lengths(void) {
    pool s = lend_pool(VIZTUREL_WORDS(3));
    size_t length, room, i;
    fill_pool(s, 3, 2);
    for (length = 0; length <= 40; length++) {
        slice list = lend(8 * length);
        uint64_t *words = (uint64_t *)(void *)list.at;
        for (i = 0; i < length; i++) words[i] = chance(2) ? chance(16) : chance(M);
        writable(list, 0);
        for (room = 0; room <= 40; room++) {
            slice answered = lend(8 * room);
            uint64_t r = vizturel_frame(s.words, s.count, words, length, (uint64_t *)(void *)answered.at, room);
            CHECK(r == (room / 8 < length / 8 ? VIZTUREL_OUTPUT_SHORT : 0));
            give_back(answered);
        }
        give_back(list);
    }
    give_back(s.lent);
}

/* One word less than the count says is lent, at the end or, where only the start is watched, before it. */
static void breach(int write) {
    size_t count = VIZTUREL_WORDS(1);
    pool s = lend_pool(count), less = lend_pool(count - 1);
    uint64_t *words = place == START ? less.words - 1 : less.words;
    if (write) {
        vizturel_new_one(words, count);
    } else {
        vizturel_new_one(s.words, count);
        memcpy(less.words, s.words + (place == START), 8 * (count - 1));
        vizturel_get(words, count, 0, 0);
    }
    puts("an access past the end was not seen");
}

int main(int argc, char **argv) {
    static const char *places[] = {"end", "start", "heap"};
    static const size_t capacities[] = {1, 3, 9, MOST};
    long stride = argc > 2 ? atol(argv[2]) : 1;
    size_t i;
    for (i = 0; i < 3 && argc > 1; i++) {
        if (strcmp(argv[1], places[i]) == 0) break;
    }
    if (argc < 2 || i == 3) return 2;
    place = i == 0 ? END : i == 1 ? START : HEAP;
    if (argc > 2 && (strcmp(argv[2], "read") == 0 || strcmp(argv[2], "write") == 0)) {
        breach(argv[2][0] == 'w');
        return 0;
    }
    if (stride < 1) return 2;

    partner = lend_pool(VIZTUREL_WORDS(MOST));
    receiver = lend_pool(VIZTUREL_WORDS(3));
    fill_pool(partner, 9, 3);
    fill_pool(receiver, 3, 0);
    out = lend(VIZTUREL_SET_BYTES(MOST));
    map = lend(MAP_BYTES);
    memset(map.at, 0x35, MAP_BYTES);
    CHECK(vizturel_clear_map(0, MAP_LENGTH, map.at, MAP_BYTES).number == 2);
    run_words = lend(8 * 2 * LIST_RUNS);
    for (i = 0; i < 2 * LIST_RUNS; i++) ((uint64_t *)(void *)run_words.at)[i] = 4 * i;
    set_length = VIZTUREL_SET_BYTES(1);
    set_bytes = lend(set_length);
    memset(set_bytes.at, 0, set_length);
    set_bytes.at[0] = set_bytes.at[4] = 1;
    set_bytes.at[20] = 9;
    mixed = lend(VIZTUREL_SET_BYTES(MIXED_RUNS));
    mended = lend(VIZTUREL_SET_BYTES(MENDED_RUNS));
    CHECK(mix(mixed, MIXED_RUNS, VIZTUREL_COLUMNS) == MENDED_RUNS);
    fates = lend(MIXED_RUNS);
    writable(mixed, 0);
    for (i = 0; i < 7; i++) lists[i] = lend(16 * least[i]);
    piece = lend(8 * 5);
    spawns = lend(SPAWNS * sizeof(vizturel_range));
    for (i = 0; i < SPAWNS; i++) ((vizturel_range *)(void *)spawns.at)[i] = vizturel_between(IN(40 - 9 * i), IN(41 - 9 * i));
    writable(spawns, 0);
    for (i = 0; i < SPAWNS; i++) chosen[i] = lend(i == 0 ? 0 : 8 * (i + 1));
    calls = lend(CALLS * RECORD);
    told_calls = lend(CALLS * RECORD);
    for (i = 0; i < CALLS; i++) {
        /* a world is emptied last, so that the others have the damaged one; the last of these was not always opened */
        vizturel_call c = {(i + 2) % CALLS, IN(9 * i), IN(9 * i + 40), i % 2, i, i % 4};
        ((vizturel_call *)(void *)calls.at)[i] = c;
    }
    writable(calls, 0);

    for (i = 0; i < sizeof capacities / sizeof *capacities; i++) damaged_pools(capacities[i], stride);
    wrong_lengths();
    damaged_bytes();
    mend_lengths();
    map_lengths();
    list_lengths();
    why_lengths();
    survey_lengths();
    frame_lengths();
    /* a test that met no sound pool, or no damaged one, would have tested nothing */
    CHECK(sound > 100 && unsound > 1000);
    printf("%ld sound pools and %ld others\n", sound, unsound);
    printf("%ld answers, %ld wrong\n", answers, wrong);
    return wrong != 0;
}
