/* Plays a list of the conformance pack through the names of include/vizturel.h, with whatever library is linked that exports what is at its end.
 *
 *     raw NAME.calls NAME.answers    compares with the answers; the last line is 'N passed, M failed'
 *     raw NAME.calls                 prints the answers
 *
 * Each line is played more than once, on copies of the pools, since some things show in C alone. Nothing but the last playing stays.
 *   odd      truth values are above 1, no bound has a value, an empty range is one of all positions but for a bound of a reserved kind, xor is a reserved
 *            operation, and a list of limits, runs, ranges or calls has words after its last whole one: the answer and all positions are the same
 *   by bytes a map is read or written by the form by single bytes: the same
 *   longer   each pool that is lent is a word longer, and then a word shorter: refused with 1
 * A slice of length 0 is NULL. A refused answer has zeros in all other fields, and no word of a pool and no byte or word of a slice has changed. */
#include <inttypes.h>
#include <stdarg.h>
#include <stdio.h>
#include <stdlib.h>
#include <string.h>
#include "vizturel.h"

#define STORES 4
#define LINE 4098
#define STALE 0xee

enum how { PLAIN, ODD, BY_BYTES, LONGER, SHORTER, HOWS };
static const char *const names[HOWS] = {"as it is", "odd", "by bytes", "a word longer", "a word shorter"};

typedef struct {
    uint64_t *words;
    size_t count;
} store;

typedef struct {
    char **text;
    size_t count;
} lines;

static enum how how;
static store *stores; /* the four that are played on */
static const char *at;
static char told[1 << 18];
static size_t told_length;
static int varied, pool_lent; /* whether the line that was played last differs in this way, and whether it lent a pool */

static void *need(void *p) {
    if (p == NULL) {
        puts("no memory");
        exit(2);
    }
    return p;
}

/* room of its own for so many bytes, so that a sanitizer sees what goes past it */
static void *room(size_t bytes) {
    return bytes == 0 ? NULL : memset(need(malloc(bytes)), STALE, bytes);
}

static void put(const char *format, ...) {
    va_list list;
    va_start(list, format);
    told_length += (size_t)vsnprintf(told + told_length, sizeof told - told_length, format, list);
    va_end(list);
}

/* ---- words of a line */

static void word(char *out, size_t size) {
    size_t n = 0;
    while (*at != ' ' && *at != 0) {
        if (n + 1 < size) out[n++] = *at;
        at++;
    }
    out[n] = 0;
    if (*at == ' ') at++;
}

static uint64_t number(void) {
    char text[24];
    word(text, sizeof text);
    return strtoull(text, NULL, 10);
}

/* a truth value: any number but 0 is true */
static uint64_t truth(void) {
    uint64_t v = number();
    if (how != ODD) return v;
    varied = 1;
    return v ? (uint64_t)1 << 40 : 0;
}

static vizturel_bound bound(void) {
    char text[24];
    vizturel_bound b;
    word(text, sizeof text);
    b.kind = text[0] == 'i' ? 1 : text[0] == 'e' ? 2 : 3;
    b.value = b.kind != 3 ? strtoull(text + 1, NULL, 10) : 0;
    if (how == ODD && b.kind == 3) {
        varied = 1;
        b.value = 5;
    }
    return b;
}

/* whether the range is empty and not reversed: from 2^64 on to 2^64, or from a position on to the one before it */
static int is_empty(vizturel_bound l, vizturel_bound h) {
    int from_end = l.kind == 2 && l.value == UINT64_MAX, to_end = h.kind == 3 || (h.kind == 1 && h.value == UINT64_MAX);
    uint64_t first = l.kind == 3 ? 0 : l.value + (l.kind == 2), past = h.kind == 3 ? 0 : h.value + (h.kind == 1);
    return from_end == to_end && first == past;
}

/* a range in the place of an empty one: all positions, but that the kind of a bound, or of both, is reserved */
static void reserve(vizturel_bound *l, vizturel_bound *h) {
    static const uint64_t kinds[][2] = {{0, 3}, {3, 0}, {0, 0}, {4, 3}, {3, UINT64_MAX}, {UINT64_MAX, 4}};
    static size_t turn;
    varied = 1;
    l->kind = kinds[turn][0];
    h->kind = kinds[turn][1];
    l->value = 0;
    h->value = UINT64_MAX;
    turn = (turn + 1) % (sizeof kinds / sizeof *kinds);
}

static unsigned digit(char c) {
    return c <= '9' ? (unsigned)(c - '0') : (unsigned)(c - 'a') + 10;
}

static uint8_t *bytes(size_t *count) {
    static char text[LINE];
    word(text, sizeof text);
    *count = strcmp(text, "-") == 0 ? 0 : strlen(text) / 2;
    uint8_t *out = (uint8_t *)room(*count);
    for (size_t i = 0; i < *count; i++) out[i] = (uint8_t)(16 * digit(text[2 * i]) + digit(text[2 * i + 1]));
    return out;
}

/* so many words, and a few more that are no whole part of a list */
static uint64_t *numbers(size_t count, size_t more, size_t *lent) {
    *lent = count + (how == ODD ? more : 0);
    if (how == ODD && more) varied = 1;
    uint64_t *out = (uint64_t *)room(8 * *lent);
    for (size_t i = 0; i < count; i++) out[i] = number();
    return out;
}

/* ---- pools. One that is lent stands in words of its own, just as many; a changed one is copied back. */

typedef struct {
    store *of;
    uint64_t *words;
    size_t count;
    uint64_t world;
} place;

static place lent(store *s, uint64_t world) {
    place p = {s, NULL, s->count, world};
    pool_lent = 1;
    if (how == LONGER) p.count++;
    if (how == SHORTER && p.count > 0) p.count--;
    p.words = (uint64_t *)room(8 * p.count);
    if (p.count) memcpy(p.words, s->words, 8 * (p.count < s->count ? p.count : s->count));
    return p;
}

static store *named(void) {
    return &stores[number() % STORES];
}

static place where(void) {
    char text[48];
    word(text, sizeof text);
    char *slash = strchr(text, '/');
    store *s = &stores[(text[0] - '0') % STORES];
    return lent(s, slash ? strtoull(slash + 1, NULL, 10) : 0);
}

/* A call on it is done: what it changed goes back, and nothing where it was refused. */
static void back(place p, uint64_t refusal) {
    size_t both = p.count < p.of->count ? p.count : p.of->count;
    if (both && refusal && memcmp(p.words, p.of->words, 8 * both) != 0) put("(a refused call changed a word) ");
    if (both) memcpy(p.of->words, p.words, 8 * both);
    free(p.words);
}

static void seen(place p) {
    if (p.count && memcmp(p.words, p.of->words, 8 * (p.count < p.of->count ? p.count : p.of->count)) != 0) put("(a call changed a word that it reads) ");
    free(p.words);
}

/* ---- answers */

/* whether a refused answer of so many bytes, whose first word is the refusal, has nothing else; says the refusal */
static int refused(const void *answer, size_t size) {
    uint64_t fields[8] = {0};
    memcpy(fields, answer, size);
    if (fields[0] == 0) return 0;
    for (size_t i = 1; i < size / 8; i++) {
        if (fields[i] != 0) put("(a field of a refused answer is not 0) ");
    }
    put("refused %" PRIu64 "\n", fields[0]);
    return 1;
}

#define REFUSED(answer) refused(&(answer), sizeof(answer))

static void done(uint64_t refusal) {
    if (!REFUSED(refusal)) put("done\n");
}

static void hex(const uint8_t *b, size_t count) {
    if (count == 0) put("-");
    for (size_t i = 0; i < count; i++) put("%02x", b[i]);
}

/* a count of positions; there are no more than 2^64 */
static void total(uint64_t carry, uint64_t low) {
    if (carry == 0) {
        put("number %" PRIu64, low);
    } else {
        put(carry == 1 && low == 0 ? "number 18446744073709551616" : "number above 2^64");
    }
}

static void counted(vizturel_counted a) {
    if (REFUSED(a)) return;
    total(a.carry, a.low);
    put("\n");
}

static void tallied(vizturel_tallied a) {
    if (REFUSED(a)) return;
    total(a.carry, a.low);
    put(" %" PRIu64 "\n", a.runs);
}

static void numbered(vizturel_numbered a) {
    if (!REFUSED(a)) put("number %" PRIu64 "\n", a.number);
}

static void tested(vizturel_tested a) {
    if (!REFUSED(a)) put("value %" PRIu64 "\n", a.value);
}

static void found(vizturel_found a) {
    if (REFUSED(a)) return;
    if (a.found == 0 && a.position != 0) put("(a position that was not found is not 0) ");
    if (a.found) {
        put("at %" PRIu64 "\n", a.position);
    } else {
        put("none\n");
    }
}

static void drawn(vizturel_drawn a, uint64_t value) {
    if (REFUSED(a)) return;
    if (a.found == 0 && (a.start != 0 || a.end != 0)) put("(a run that was not found is not 0 .. 0) ");
    if (a.found) {
        put("drawn %" PRIu64 " %" PRIu64, a.start, a.end);
    } else {
        put("end");
    }
    put(" %" PRIu64 " %" PRIu64 " %d\n", a.first, a.last, value != 0);
}

/* a slice that was written, or stayed as it was if not */
static void stale(const void *slice, size_t count) {
    for (size_t i = 0; i < count; i++) {
        if (((const uint8_t *)slice)[i] != STALE) {
            put("(a refused call changed a slice) ");
            return;
        }
    }
}

static void written(vizturel_written a, const uint8_t *out, size_t count) {
    if (a.refusal) stale(out, count);
    if (REFUSED(a)) return;
    put("written %" PRIu64 " ", a.bytes);
    hex(out, count);
    put("\n");
}

static void worded(vizturel_worded a, const uint64_t *out, size_t count) {
    if (a.refusal) stale(out, 8 * count);
    if (REFUSED(a)) return;
    put("worded %" PRIu64, a.words);
    for (size_t i = 0; i < count; i++) put(" %" PRIu64, out[i]);
    put("\n");
}

/* ---- calls */

static vizturel_rect rect(void) {
    vizturel_rect r;
    r.top = number();
    r.left = number();
    r.bottom = number();
    r.right = number();
    return r;
}

/* a frame and the records that follow it; says an answer for each line, and tells how many there are */
static size_t frame(const lines *calls, size_t line) {
    store *s = named();
    size_t f = (size_t)number(), g = (size_t)number(), more = how == ODD ? 7 : 0, odd = how == ODD ? 5 : 0;
    if (how == ODD) varied = 1;
    uint64_t *list = (uint64_t *)room(8 * (8 * f + more));
    for (size_t i = 0; i < f && line + 1 + i < calls->count; i++) {
        at = calls->text[line + 1 + i];
        char name[16];
        word(name, sizeof name);
        for (size_t j = 0; j < 8; j++) list[8 * i + j] = number();
    }
    uint64_t *answers = (uint64_t *)room(8 * (8 * g + odd));
    place p = lent(s, 0);
    uint64_t refusal = vizturel_frame(p.words, p.count, list, 8 * f + more, answers, 8 * g + odd);
    back(p, refusal);
    if (refusal) stale(answers, 8 * (8 * g + odd));
    if (!refusal && answers) stale(answers + 8 * f, 8 * (8 * (g - f) + odd));
    done(refusal);
    for (size_t i = 0; i < f; i++) {
        put(refusal ? "-\n" : "record");
        if (refusal) continue;
        for (size_t j = 0; j < 8; j++) put(" %" PRIu64, answers[8 * i + j]);
        put("\n");
    }
    free(list);
    free(answers);
    return f + 1;
}

#define IS(what) (strcmp(name, what) == 0)

/* what is asked of a world alone, or changes it alone; 0 if the call is another */
static int world_call(const char *name) {
    static const char *const all[] = {"set", "flip", "get", "run_at", "find", "tally", "set_strict", "flip_strict", "tally_strict", "select", "gap", "ranges",
                                      "draw_front", "draw_back", "shift", "fill", "set_rect", "count_rect"};
    int known = 0;
    for (size_t i = 0; i < sizeof all / sizeof *all; i++) known |= IS(all[i]);
    if (!known) return 0;
    place p = where();
    vizturel_bound l = {0, 0}, h = {0, 0};
    uint64_t x = 0, y = 0, v = 0, refusal = 0;
    int ranged = IS("set") || IS("flip") || IS("find") || IS("tally") || IS("set_strict") || IS("flip_strict") || IS("tally_strict") || IS("select") ||
                 IS("gap") || IS("ranges");
    if (ranged) {
        l = bound();
        h = bound();
        if (how == ODD && is_empty(l, h)) reserve(&l, &h);
    }
    if (IS("set") || IS("set_strict")) {
        v = truth();
        vizturel_counted a = IS("set") ? vizturel_set(p.words, p.count, p.world, l, h, v) : vizturel_set_strict(p.words, p.count, p.world, l, h, v);
        refusal = a.refusal;
        counted(a);
    } else if (IS("flip") || IS("flip_strict")) {
        refusal = IS("flip") ? vizturel_flip(p.words, p.count, p.world, l, h) : vizturel_flip_strict(p.words, p.count, p.world, l, h);
        done(refusal);
    } else if (IS("get")) {
        tested(vizturel_get(p.words, p.count, p.world, number()));
    } else if (IS("run_at")) {
        vizturel_around a = vizturel_run_at(p.words, p.count, p.world, number());
        if (!REFUSED(a)) put("run %" PRIu64 " %" PRIu64 "\n", a.start, a.end);
    } else if (IS("find")) {
        found(vizturel_find(p.words, p.count, p.world, l, h, truth()));
    } else if (IS("tally")) {
        tallied(vizturel_tally(p.words, p.count, p.world, l, h, truth()));
    } else if (IS("tally_strict")) {
        tallied(vizturel_tally_strict(p.words, p.count, p.world, l, h, truth()));
    } else if (IS("select")) {
        v = truth();
        found(vizturel_select(p.words, p.count, p.world, l, h, v, number()));
    } else if (IS("gap")) {
        found(vizturel_gap(p.words, p.count, p.world, l, h, number()));
    } else if (IS("ranges")) {
        v = truth();
        vizturel_listed a = vizturel_ranges(p.words, p.count, p.world, l, h, v);
        if (!REFUSED(a)) put("listing %" PRIu64 " %" PRIu64 " %" PRIu64 "\n", a.first, a.last, a.value);
    } else if (IS("draw_front") || IS("draw_back")) {
        x = number();
        y = number();
        v = truth();
        drawn(IS("draw_front") ? vizturel_draw_front(p.words, p.count, p.world, x, y, v) : vizturel_draw_back(p.words, p.count, p.world, x, y, v), v);
    } else if (IS("shift")) {
        x = number();
        refusal = vizturel_shift(p.words, p.count, p.world, x, truth());
        done(refusal);
    } else if (IS("fill")) {
        x = number();
        numbered(vizturel_fill(p.words, p.count, p.world, x, number()));
    } else if (IS("set_rect")) {
        vizturel_rect r = rect();
        vizturel_counted a = vizturel_set_rect(p.words, p.count, p.world, r, truth());
        refusal = a.refusal;
        counted(a);
    } else {
        numbered(vizturel_count_rect(p.words, p.count, p.world, rect()));
    }
    if (IS("set") || IS("set_strict") || IS("flip") || IS("flip_strict") || IS("shift") || IS("set_rect")) {
        back(p, refusal);
    } else {
        seen(p);
    }
    return 1;
}

/* what further worlds or slices are lent to */
static void wide_call(const char *name) {
    if (IS("words")) {
        store *s = named();
        s->count = VIZTUREL_WORDS(number());
        free(s->words);
        s->words = (uint64_t *)need(calloc(s->count, 8));
        put("done\n");
    } else if (IS("spoil")) {
        store *s = named();
        if (s->count > 7) s->words[7] = 1;
        put("done\n");
    } else if (IS("new")) {
        store *s = named();
        size_t lent_words, worlds = (size_t)number();
        uint64_t *limits = numbers(2 * worlds, 1, &lent_words);
        place p = lent(s, 0);
        uint64_t refusal = vizturel_new(p.words, p.count, limits, lent_words);
        back(p, refusal);
        done(refusal);
        free(limits);
    } else if (IS("deepest")) {
        store *s = named();
        uint64_t height = number();
        size_t count = (size_t)number();
        uint64_t *out = (uint64_t *)room(8 * count);
        place p = lent(s, 0);
        worded(vizturel_deepest(p.words, p.count, height, out, count), out, count);
        seen(p);
        free(out);
    } else if (IS("why_full")) {
        store *s = named();
        size_t count = (size_t)number(), bounds = (size_t)number(), lent_words;
        uint64_t *ranges = numbers(2 * bounds, bounds % 2 ? 1 : 3, &lent_words), *out = (uint64_t *)room(8 * count);
        place p = lent(s, 0);
        worded(vizturel_why_full(p.words, p.count, ranges, lent_words, out, count), out, count);
        seen(p);
        free(ranges);
        free(out);
    } else if (IS("shifted") || IS("not")) {
        place p = where(), q = where();
        uint64_t distance = IS("not") ? 0 : number(), left = IS("not") ? 0 : truth();
        uint64_t refusal = IS("not") ? vizturel_not(p.words, p.count, p.world, q.words, q.count, q.world)
                                     : vizturel_shifted(p.words, p.count, p.world, distance, left, q.words, q.count, q.world);
        seen(q);
        back(p, refusal);
        done(refusal);
    } else if (IS("combine")) {
        char op[8];
        place p = where();
        word(op, sizeof op);
        place q = where(), r = where();
        uint64_t which = strcmp(op, "and") == 0 ? VIZTUREL_AND : strcmp(op, "or") == 0 ? VIZTUREL_OR : VIZTUREL_XOR;
        if (how == ODD && which == VIZTUREL_XOR) {
            varied = 1;
            which = (uint64_t)1 << 32;
        }
        uint64_t refusal = vizturel_combine(p.words, p.count, p.world, which, q.words, q.count, q.world, r.words, r.count, r.world);
        seen(q);
        seen(r);
        back(p, refusal);
        done(refusal);
    } else if (IS("eq")) {
        place p = where(), q = where();
        tested(vizturel_eq(p.words, p.count, p.world, q.words, q.count, q.world));
        seen(p);
        seen(q);
    } else if (IS("load")) {
        size_t count;
        place p = where();
        uint8_t *set = bytes(&count);
        uint64_t refusal = vizturel_load(p.words, p.count, p.world, set, count);
        back(p, refusal);
        done(refusal);
        free(set);
    } else if (IS("mend")) {
        size_t count;
        place p = where();
        uint8_t *set = bytes(&count);
        size_t n = (size_t)number(), m = (size_t)number();
        uint8_t *out = (uint8_t *)room(n), *report = (uint8_t *)room(m);
        vizturel_mended a = vizturel_mend(p.words, p.count, p.world, set, count, out, n, report, m);
        back(p, a.refusal);
        if (a.refusal) {
            stale(out, n);
            stale(report, m);
        }
        if (!REFUSED(a)) {
            put("written %" PRIu64 " ", a.bytes);
            hex(out, n);
            put(" %" PRIu64 " ", a.report);
            hex(report, m);
            put("\n");
        }
        free(set);
        free(out);
        free(report);
    } else if (IS("build")) {
        size_t lent_words;
        place p = where();
        size_t count = (size_t)number();
        uint64_t *runs = numbers(2 * count, 1, &lent_words);
        uint64_t refusal = vizturel_build(p.words, p.count, p.world, runs, lent_words);
        back(p, refusal);
        done(refusal);
        free(runs);
    } else if (IS("write_set")) {
        place p = where();
        uint64_t edition = number();
        size_t n = (size_t)number();
        uint8_t *out = (uint8_t *)room(n);
        written(vizturel_write(p.words, p.count, p.world, edition, out, n), out, n);
        seen(p);
        free(out);
    } else if (IS("convert")) {
        size_t count;
        uint8_t *set = bytes(&count);
        size_t n = (size_t)number();
        uint8_t *out = (uint8_t *)room(n);
        written(vizturel_convert(set, count, out, n), out, n);
        free(set);
        free(out);
    } else if (IS("read_map")) {
        size_t count;
        place p = where();
        uint64_t base = number(), length = number();
        uint8_t *map = bytes(&count);
        varied |= how == BY_BYTES;
        vizturel_counted a = how == BY_BYTES ? vizturel_read_map_by_bytes(p.words, p.count, p.world, base, length, map, count)
                                             : vizturel_read_map(p.words, p.count, p.world, base, length, map, count);
        back(p, a.refusal);
        counted(a);
        free(map);
    } else if (IS("clear_map")) {
        size_t count;
        uint64_t base = number(), length = number();
        uint8_t *map = bytes(&count), *before = (uint8_t *)room(count);
        if (count) memcpy(before, map, count);
        vizturel_numbered a = vizturel_clear_map(base, length, map, count);
        if (a.refusal && count && memcmp(map, before, count) != 0) put("(a refused call changed a slice) ");
        if (!REFUSED(a)) {
            put("cleared %" PRIu64 " ", a.number);
            hex(map, count);
            put("\n");
        }
        free(map);
        free(before);
    } else if (IS("write_map")) {
        place p = where();
        uint64_t base = number(), length = number();
        size_t n = (size_t)number();
        uint8_t *out = (uint8_t *)room(n);
        varied |= how == BY_BYTES;
        written(how == BY_BYTES ? vizturel_write_map_by_bytes(p.words, p.count, p.world, base, length, out, n)
                                : vizturel_write_map(p.words, p.count, p.world, base, length, out, n),
                out, n);
        seen(p);
        free(out);
    } else if (IS("survey")) {
        place p = where();
        uint64_t row = number(), column = number(), k = number();
        size_t n = (size_t)number();
        uint64_t *out = (uint64_t *)room(8 * n);
        worded(vizturel_survey(p.words, p.count, p.world, row, column, k, out, n), out, n);
        seen(p);
        free(out);
    } else {
        put("no such call\n");
    }
}

/* plays a line on some stores in some way; what it says is in told; tells how many lines it took */
static size_t play(const lines *calls, size_t line, store *on, enum how way) {
    char name[16];
    how = way;
    stores = on;
    at = calls->text[line];
    told_length = 0;
    told[0] = 0;
    varied = pool_lent = 0;
    word(name, sizeof name);
    if (IS("frame")) return frame(calls, line);
    if (!world_call(name)) wide_call(name);
    return 1;
}

static void copy(store *to, const store *from) {
    for (int i = 0; i < STORES; i++) {
        to[i].count = from[i].count;
        to[i].words = (uint64_t *)room(8 * from[i].count);
        if (from[i].count) memcpy(to[i].words, from[i].words, 8 * from[i].count);
    }
}

static void drop(store *s) {
    for (int i = 0; i < STORES; i++) free(s[i].words);
}

/* whether the worlds of two pools hold the same, by the library's own eq, and as many are refused */
static int alike(const store *a, const store *b) {
    for (int i = 0; i < STORES; i++) {
        if (a[i].count != b[i].count) return 0;
        for (uint64_t w = 0; w <= VIZTUREL_WORLDS; w++) {
            vizturel_tested own = vizturel_eq(a[i].words, a[i].count, w, a[i].words, a[i].count, w);
            vizturel_tested both = vizturel_eq(a[i].words, a[i].count, w, b[i].words, b[i].count, w);
            if (own.refusal != both.refusal || own.value != both.value) return 0;
            if (own.refusal) break;
        }
    }
    return 1;
}

static int untouched(const store *a, const store *b) {
    for (int i = 0; i < STORES; i++) {
        if (a[i].count && memcmp(a[i].words, b[i].words, 8 * a[i].count) != 0) return 0;
    }
    return 1;
}

static lines read_lines(const char *name) {
    static char text[1 << 16];
    lines out = {NULL, 0};
    FILE *file = fopen(name, "r");
    if (file == NULL) {
        printf("%s: not there\n", name);
        exit(2);
    }
    while (fgets(text, sizeof text, file)) {
        text[strcspn(text, "\n")] = 0;
        if (out.count % 1024 == 0) out.text = (char **)need(realloc(out.text, (out.count + 1024) * sizeof *out.text));
        out.text[out.count] = (char *)need(malloc(strlen(text) + 1));
        strcpy(out.text[out.count++], text);
    }
    fclose(file);
    return out;
}

static void forget(lines of) {
    for (size_t i = 0; i < of.count; i++) free(of.text[i]);
    free(of.text);
}

static long passed, failed;

static void judge(int ok, const char *list, size_t line, const char *call, const char *way, const char *due) {
    if (ok) {
        passed++;
        return;
    }
    failed++;
    if (failed <= 20) printf("%s line %zu, %.200s, %s:\n  due  %.400s\n  told %.400s\n", list, line + 1, call, way, due, told);
}

int main(int argc, char **argv) {
    if (argc < 2) {
        puts("raw NAME.calls [NAME.answers]");
        return 2;
    }
    static char due[sizeof told], before[sizeof told];
    lines calls = read_lines(argv[1]), answers = {NULL, 0};
    if (argc > 2) answers = read_lines(argv[2]);
    store real[STORES] = {{NULL, 0}, {NULL, 0}, {NULL, 0}, {NULL, 0}};
    for (size_t line = 0; line < calls.count;) {
        store old[STORES];
        copy(old, real);
        size_t taken = play(&calls, line, real, PLAIN);
        if (argc < 3) fputs(told, stdout);
        due[0] = 0;
        for (size_t i = line; argc > 2 && i < line + taken && i < answers.count; i++) {
            strcat(due, answers.text[i]);
            strcat(due, "\n");
        }
        if (argc > 2) judge(strcmp(told, due) == 0, argv[1], line, calls.text[line], names[PLAIN], due);
        strcpy(before, told);
        for (enum how way = ODD; argc > 2 && way < HOWS; way = (enum how)(way + 1)) {
            store again[STORES];
            copy(again, old);
            play(&calls, line, again, way);
            if (way == ODD || way == BY_BYTES) {
                if (varied) judge(strcmp(told, before) == 0 && alike(real, again), argv[1], line, calls.text[line], names[way], before);
            } else if (pool_lent) {
                judge(strncmp(told, "refused 1\n", 10) == 0 && untouched(old, again), argv[1], line, calls.text[line], names[way], "refused 1\n");
            }
            drop(again);
        }
        drop(old);
        line += taken;
    }
    drop(real);
    forget(calls);
    forget(answers);
    if (argc < 3) return 0;
    if (calls.count != answers.count) judge(0, argv[1], calls.count, "", "as many answers as calls", "");
    printf("%ld passed, %ld failed\n", passed, failed);
    return failed != 0;
}
