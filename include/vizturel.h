/* Vizturel: a proved slot allocator for lockstep physics.
 *
 * POOLS AND WORLDS. A world is a set of positions 0 .. 2^64 - 1 (M is 2^64 - 1). Up to 16 worlds are kept together in words that the caller lends: a
 * pool. A pool for at most C runs of held positions in all its worlds, C from 1 to 65,536, has VIZTUREL_WORDS(C) words. vizturel_new makes it, and
 * gives each world a floor and a ceiling of runs: room for so many runs as the floor is kept for the world, and it never has more than the
 * ceiling. What lies between is shared: whichever world needs a run first gets it. Whoever needs one set makes a pool of one world by
 * vizturel_new_one, and names world 0.
 *
 * A call on a world names it by its number, from 0 on, after the pool's words and their count. A further pool is lent in the same way, and with the
 * number of the world that is meant. vizturel_frame names worlds in its records; vizturel_deepest and vizturel_why_full name none, and
 * vizturel_convert and vizturel_clear_map take no pool. A change of one world leaves the positions of all others, and no call but vizturel_new
 * changes a floor or a ceiling.
 *
 * Any words may be lent to any call: what is no pool, or not a sound one, is refused, and then nothing has changed. Only vizturel_new, and
 * vizturel_deepest and vizturel_why_full, which ask how long a pool is and no more, take words that hold anything. No call allocates, keeps a
 * pointer or writes past what is lent.
 *
 * MEMORY. A slice of length 0 may be NULL. The words of a pool hold no pointers: a copy of all of them, wherever it lies, is the same pool, so a
 * snapshot is taken and put back by memcpy. It is one for the same build: written sets travel between builds (below).
 *
 * THREADS. The library keeps nothing between calls and takes no lock. Calls on different pools may run at once, and so may calls on one pool that
 * only read it (const uint64_t *words). A call that may write a pool must be alone with it; vizturel_frame is one.
 *
 * NO OVERLAP. Two pools or slices lent to one call must not overlap, unless both are only read. So vizturel_eq compares two worlds of one pool as
 * they are, but a world that is overwritten (by vizturel_combine, vizturel_not or vizturel_shifted) cannot be made of worlds of its own pool:
 * copy the pool's words first, and lend the copy for what is read.
 *
 * REFUSALS. Every answer begins with a refusal's number, or is one; 0 means that the call was done. A refused call has changed no word and no
 * byte. Where several would hold, the first of this order is given: 1 of any pool, 11, 7 of any pool, 12 of any world, 13, 16, 9, 14, 15, 6, 10, 3
 * (under 5 bytes), 4, 3, 5, 8, 2. Every call on a world may be refused with 1, 7 and 12, of the pool that receives the result too; vizturel_frame
 * with 1, 7 and 2, and 12 stands in the answer of a record. All other fields of a refused answer are 0, and so is the position, or the run, where
 * found is 0. Later versions may give further refusals: take any number but 0 for one.
 *
 *   1  a pool's length is not 8 * (C + 49) words for a C from 1 to 65,536
 *   2  an output is shorter than what is due
 *   3  a written set has fewer than 5 bytes, or not 5 + 16 * R
 *   4  its version byte is neither 1 nor 2
 *   5  a start exceeds its end, or is below the previous end + 2
 *   6  a window of length 0 or above 524,288, or past 2^64; or a map that has not (length + 7) / 8 bytes
 *   7  a pool is not sound
 *   8  the world would have more runs than its ceiling, or the sum over all worlds of the larger of runs and floor would exceed C; of
 *      vizturel_deepest: its list has more runs than C
 *   9  a gap of length 0 is asked for
 *  10  a spare bit of a map to be read is one
 *  11  a pool is to be made with no world or more than 16, a floor above its ceiling, or floors that together exceed C
 *  12  no world of that number was opened
 *  13  the height of a tree is not from 1 to 22
 *  14  the range of a strict call is reversed
 *  15  a rectangle or a square is not one of the plane of cells: a corner's row or column above 65,535, a first corner beyond the second in row or in
 *      column, a k of vizturel_survey above 8, or a square that is not wholly on the plane
 *  16  no call of the list of vizturel_why_full is refused
 *
 * 8 is given for no other cause. So a world can always have as many runs as its floor, whatever the others hold, and of the others it feels that
 * sum alone.
 *
 * THE SOUNDNESS CHECK. Every call on a pool, but vizturel_new, vizturel_deepest and vizturel_why_full, first passes over all its nodes, used and
 * free ones. The cost goes by the capacity C, not by the runs that are held. vizturel_frame makes many calls, at any worlds of a pool, after one
 * soundness check.
 *
 * LOCKSTEP. Two sound pools of one capacity that opened equally many worlds, with the same positions, floor and ceiling in each, answer every later
 * list of equal calls alike. So all builds of a match need the same C and the same limits, and a late player has to be told them beside a written
 * set for each world, which does not have them.
 *
 * RESERVED NUMBERS. Where numbers have names here (call numbers, kinds of bounds, operations, editions), the named ones stay as they are. The call
 * numbers 7 and 9 are withdrawn and stay so: such a record is answered with 12, whatever world it names, and not as another call. All other
 * numbers are reserved: a later version may give them a meaning. This version takes a reserved call number for a get, a range with a bound of a
 * reserved kind for an empty one, a reserved operation for XOR and a reserved edition for rows. Do not rely on it.
 *
 * One named number is another one than in earlier versions, and the only one: VIZTUREL_UNBOUNDED is 3, and was 0. 0 is a reserved kind, so a bound
 * that nobody filled in selects no position, where it selected all of them. Whoever uses the name or vizturel_unbounded compiles anew; whoever writes
 * kinds as numbers, in records or stored lists, writes 3 for no bound.
 *
 * Link libvizturel.a, for x86-64 Linux: `make lib` writes it to target/lib/, and this header to target/include/. Take both from one build: structs
 * and signatures are that build's. Of a C library it needs memset and memmove alone. What is exported is at the end of this header, under names
 * of its own (vizturel_abi_set), and takes numbers, pointers and counts alone; the calls are inline functions over that. So whoever supplies another
 * library exports those names, and other languages call them. The header is C99 and C++11, and later ones. docs/CALLS.md has every call with its cost.
 */
#ifndef VIZTUREL_H
#define VIZTUREL_H

#include <stddef.h>
#include <stdint.h>

#ifdef __cplusplus
extern "C" {
#endif

/* how many words a pool of capacity c has, how many bytes hold any set that it writes, how many worlds it can have, and how high the tree of one */
#define VIZTUREL_WORDS(c) (8 * ((size_t)(c) + 49))
#define VIZTUREL_SET_BYTES(c) (5 + 16 * (size_t)(c))
#define VIZTUREL_WORLDS 16
#define VIZTUREL_HEIGHT 22

/* how many rows, and how many columns, the plane of cells has; how many words hold any survey of a square of side 2^k */
#define VIZTUREL_SIDE 65536
#define VIZTUREL_SURVEY_WORDS(k) (5 * ((size_t)1 << (2 * (k))))

enum vizturel_refusal {
    VIZTUREL_DONE = 0,
    VIZTUREL_STORE_LENGTH = 1,
    VIZTUREL_OUTPUT_SHORT = 2,
    VIZTUREL_SET_LENGTH = 3,
    VIZTUREL_SET_VERSION = 4,
    VIZTUREL_RUN_ORDER = 5,
    VIZTUREL_WINDOW = 6,
    VIZTUREL_UNSOUND = 7,
    VIZTUREL_CAPACITY = 8,
    VIZTUREL_GAP_LENGTH = 9,
    VIZTUREL_STRAY_BIT = 10,
    VIZTUREL_WORLD_LIMITS = 11,
    VIZTUREL_WORLD_UNOPENED = 12,
    VIZTUREL_TREE_HEIGHT = 13,
    VIZTUREL_RANGE_REVERSED = 14,
    VIZTUREL_OFF_PLANE = 15,
    VIZTUREL_NOT_REFUSED = 16
};

/* Kinds of bounds: one that includes its value, one that excludes it, none. Other numbers, 0 among them, are reserved. */
enum vizturel_bound_kind {
    VIZTUREL_INCLUDED = 1,
    VIZTUREL_EXCLUDED = 2,
    VIZTUREL_UNBOUNDED = 3
};

/* One end of a range. Let s be the first position that the lower bound allows, possibly 2^64, and e the last that the upper one allows, possibly
 * -1: the range is empty if s = e + 1, and reversed if s exceeds e + 1. Neither is a mistake: they change nothing, count 0, list nothing and find
 * none. The strict calls refuse a reversed range, and take an empty one. A range is also empty, and not reversed, if the kind of either bound is
 * reserved, as that of a zeroed bound is: such a call is refused for nothing that an empty range is not. */
typedef struct {
    uint64_t kind;
    uint64_t value;
} vizturel_bound;

static inline vizturel_bound vizturel_included(uint64_t value) {
    vizturel_bound b = {VIZTUREL_INCLUDED, value};
    return b;
}

static inline vizturel_bound vizturel_excluded(uint64_t value) {
    vizturel_bound b = {VIZTUREL_EXCLUDED, value};
    return b;
}

static inline vizturel_bound vizturel_unbounded(void) {
    vizturel_bound b = {VIZTUREL_UNBOUNDED, 0};
    return b;
}

/* A range of a list: four words. */
typedef struct {
    vizturel_bound lower;
    vizturel_bound upper;
} vizturel_range;

static inline vizturel_range vizturel_between(vizturel_bound lower, vizturel_bound upper) {
    vizturel_range r = {lower, upper};
    return r;
}

/* A rectangle of cells by its two corners, which both belong to it: rows top to bottom and columns left to right. The plane has rows and columns 0 to
 * 65,535; the cell at a row and a column is the position that vizturel_cell tells, row * 65,536 + column. */
typedef struct {
    uint64_t top;
    uint64_t left;
    uint64_t bottom;
    uint64_t right;
} vizturel_rect;

static inline vizturel_rect vizturel_corners(uint64_t top, uint64_t left, uint64_t bottom, uint64_t right) {
    vizturel_rect r = {top, left, bottom, right};
    return r;
}

static inline uint64_t vizturel_cell(uint16_t row, uint16_t column) {
    return (uint64_t)row * VIZTUREL_SIDE + column;
}

/* How two sets are joined. Other numbers are reserved. */
enum vizturel_operation {
    VIZTUREL_AND = 0,
    VIZTUREL_OR = 1,
    VIZTUREL_XOR = 2
};

/* How a written set arranges its bytes. It has a version byte, which is the edition's number, then the number of runs as 4 bytes; then come 16 bytes
 * of each run, its start and its end as 8 bytes each, runs rising, all numbers big-endian. By rows the 16 bytes of a run stand together. By
 * columns the first byte of every run comes first, then the second of every run, up to the sixteenth: like bytes stand together, for whoever packs
 * them. Readers take both; one that knows edition 1 alone refuses edition 2 with 4. Other numbers are reserved. */
enum vizturel_edition {
    VIZTUREL_ROWS = 1,
    VIZTUREL_COLUMNS = 2
};

/* What became of a run of a written set that was mended: its start is above its end; it shares its run of the outcome with another one; it is alone
 * there. */
enum vizturel_fate {
    VIZTUREL_DROPPED = 0,
    VIZTUREL_JOINED = 1,
    VIZTUREL_KEPT = 2
};

/* the answers, from abi/calls.toml */
/* How many positions: carry * 2^64 + low. The carry is 1 only for all 2^64 of them. */
typedef struct {
    uint64_t refusal;
    uint64_t carry;
    uint64_t low;
} vizturel_counted;

/* the same, and in how many runs these positions lie */
typedef struct {
    uint64_t refusal;
    uint64_t carry;
    uint64_t low;
    uint64_t runs;
} vizturel_tallied;

/* thousandths of vizturel_fill, cells of vizturel_count_rect, spare bits that were one of vizturel_clear_map */
typedef struct {
    uint64_t refusal;
    uint64_t number;
} vizturel_numbered;

/* value: 1 for held or equal, 0 for not */
typedef struct {
    uint64_t refusal;
    uint64_t value;
} vizturel_tested;

/* the positions start .. end, both in it */
typedef struct {
    uint64_t refusal;
    uint64_t start;
    uint64_t end;
} vizturel_around;

/* a position, where found is 1 */
typedef struct {
    uint64_t refusal;
    uint64_t found;
    uint64_t position;
} vizturel_found;

/* a listing: the runs of the value among first .. last, in the world as it is when one is drawn; the ended one, and that of a range which is empty or
 * reversed, has first 1 and last 0. The value comes back as 0 or 1 */
typedef struct {
    uint64_t refusal;
    uint64_t first;
    uint64_t last;
    uint64_t value;
} vizturel_listed;

/* a run start .. end, where found is 1, and the ends of what is left of the listing: from end + 1, or up to start - 1, and first 1 and last 0 where that
 * is nothing, or where no run was found. So a listing whose last run was drawn may be found without a run by one draw more, and has ended then. Zeros
 * where the draw was refused: then the listing stays */
typedef struct {
    uint64_t refusal;
    uint64_t found;
    uint64_t start;
    uint64_t end;
    uint64_t first;
    uint64_t last;
} vizturel_drawn;

/* how many bytes were written into the front of the slice; the others are as they were */
typedef struct {
    uint64_t refusal;
    uint64_t bytes;
} vizturel_written;

/* the same of the two slices of vizturel_mend: the bytes of the set, and those of the report */
typedef struct {
    uint64_t refusal;
    uint64_t bytes;
    uint64_t report;
} vizturel_mended;

/* how many words were written into the front of the slice; the others are as they were */
typedef struct {
    uint64_t refusal;
    uint64_t words;
} vizturel_worded;
/* end of the answers */

/* ---- making a pool */

/* Makes a pool in words that may hold anything. The limits are the floor and the ceiling of each world, in turn: worlds 0, 1 and so on are
 * opened, all empty. A last word without its partner is no world. A ceiling may exceed C. Refused with 1, 11. */
static inline uint64_t vizturel_new(uint64_t *words, size_t count, const uint64_t *limits, size_t limits_count);

/* The same for one world, number 0, which is bounded by C alone. Refused with 1. */
static inline uint64_t vizturel_new_one(uint64_t *words, size_t count) {
    const uint64_t limits[2] = {0, UINT64_MAX};
    return vizturel_new(words, count, limits, 2);
}

/* ---- changes of a world. A value is 0 for false, anything else for true. Each is refused with 1, 7, 12; also as is said there. */

/* Gives a range the value, and tells how many positions changed. Refused with 8. */
static inline vizturel_counted vizturel_set(uint64_t *words, size_t count, uint64_t world, vizturel_bound lower, vizturel_bound upper,
                                            uint64_t value);

/* Inverts a range. Refused with 8. */
static inline uint64_t vizturel_flip(uint64_t *words, size_t count, uint64_t world, vizturel_bound lower, vizturel_bound upper);

/* The same as vizturel_set and vizturel_flip, but that a reversed range is refused. Refused with 14, 8. */
static inline vizturel_counted vizturel_set_strict(uint64_t *words, size_t count, uint64_t world, vizturel_bound lower, vizturel_bound upper,
                                                   uint64_t value);
static inline uint64_t vizturel_flip_strict(uint64_t *words, size_t count, uint64_t world, vizturel_bound lower, vizturel_bound upper);

/* Gives the cells of a rectangle the value, and tells how many changed. 8 goes by the runs after the whole rectangle: where they do not fit, no row
 * is changed. Refused with 15, 8. */
static inline vizturel_counted vizturel_set_rect(uint64_t *words, size_t count, uint64_t world, vizturel_rect rect, uint64_t value);

/* Moves every position by the distance, up where left is not 0, else down; what leaves 0 .. M is dropped. */
static inline uint64_t vizturel_shift(uint64_t *words, size_t count, uint64_t world, uint64_t distance, uint64_t left);

/* ---- reports of a world. Each is refused with 1, 7, 12; the strict tally, gap, fill and those of cells also as is said there. */

/* The value of position x. */
static inline vizturel_tested vizturel_get(const uint64_t *words, size_t count, uint64_t world, uint64_t x);

/* The run around x, not clipped, of the value that x has. */
static inline vizturel_around vizturel_run_at(const uint64_t *words, size_t count, uint64_t world, uint64_t x);

/* The least position of the value in a range. */
static inline vizturel_found vizturel_find(const uint64_t *words, size_t count, uint64_t world, vizturel_bound lower, vizturel_bound upper,
                                           uint64_t value);

/* How many positions of a range have the value, and in how many runs they lie, clipped to the range. */
static inline vizturel_tallied vizturel_tally(const uint64_t *words, size_t count, uint64_t world, vizturel_bound lower, vizturel_bound upper,
                                              uint64_t value);

/* The same, but that a reversed range is refused. Refused with 14. */
static inline vizturel_tallied vizturel_tally_strict(const uint64_t *words, size_t count, uint64_t world, vizturel_bound lower, vizturel_bound upper,
                                                     uint64_t value);

/* The position of a range that has the value and exactly k such positions before it there; not found where k is at least their count. */
static inline vizturel_found vizturel_select(const uint64_t *words, size_t count, uint64_t world, vizturel_bound lower, vizturel_bound upper,
                                             uint64_t value, uint64_t k);

/* A listing of the runs of the value in a range, to be drawn from either end. */
static inline vizturel_listed vizturel_ranges(const uint64_t *words, size_t count, uint64_t world, vizturel_bound lower, vizturel_bound upper,
                                              uint64_t value);

/* Draws the first run that is left in a listing, in the world as it is then. Go on with the answer's first and last and the same value. */
static inline vizturel_drawn vizturel_draw_front(const uint64_t *words, size_t count, uint64_t world, uint64_t first, uint64_t last, uint64_t value);

/* Draws the last one. */
static inline vizturel_drawn vizturel_draw_back(const uint64_t *words, size_t count, uint64_t world, uint64_t first, uint64_t last, uint64_t value);

/* The start of the lowest gap of a range: the least position x such that x .. x + n - 1 are all in the range and all free. Not found exactly if
 * there is none. Refused with 9. */
static inline vizturel_found vizturel_gap(const uint64_t *words, size_t count, uint64_t world, vizturel_bound lower, vizturel_bound upper,
                                          uint64_t n);

/* 1000 * held positions / window length, rounded up: 0 exactly where none is held, and 1000 where all are. Refused with 6. */
static inline vizturel_numbered vizturel_fill(const uint64_t *words, size_t count, uint64_t world, uint64_t base, uint64_t length);

/* How many cells of a rectangle are held. Refused with 15. */
static inline vizturel_numbered vizturel_count_rect(const uint64_t *words, size_t count, uint64_t world, vizturel_rect rect);

/* Surveys the square of side 2^k, k from 0 to 8, whose first cell is at the row and the column: writes its pieces to the front of out, five words
 * each, first row, first column, rows, columns and value, 1 for held and 0 for free; the rest of out stays. A piece that has one value is listed, and
 * any other is halved: the square by column, its halves by row, their halves by column, and so on; the left half comes before the right one, the
 * upper before the lower. So every cell is in one piece, and worlds that hold the same cells are surveyed alike. VIZTUREL_SURVEY_WORDS(k) words are
 * always enough. Refused with 15, 2. */
static inline vizturel_worded vizturel_survey(const uint64_t *words, size_t count, uint64_t world, uint64_t row, uint64_t column, uint64_t k,
                                              uint64_t *out, size_t out_count);

/* Whether two worlds hold the same positions, whatever the capacities and limits. They may be of one pool. */
static inline vizturel_tested vizturel_eq(const uint64_t *words, size_t count, uint64_t world, const uint64_t *b, size_t b_count, uint64_t b_world);

/* ---- overwriting a world, whatever it held, with what is made of others. Each is refused with 1, 7 (of any pool), 12 (of any world), 8. */

/* Joins two sets; op is a vizturel_operation. */
static inline uint64_t vizturel_combine(uint64_t *words, size_t count, uint64_t world, uint64_t op, const uint64_t *a, size_t a_count,
                                        uint64_t a_world, const uint64_t *b, size_t b_count, uint64_t b_world);

/* The complement over 0 .. M. */
static inline uint64_t vizturel_not(uint64_t *words, size_t count, uint64_t world, const uint64_t *a, size_t a_count, uint64_t a_world);

/* The set moved by the distance, up where left is not 0, else down. */
static inline uint64_t vizturel_shifted(uint64_t *words, size_t count, uint64_t world, uint64_t distance, uint64_t left, const uint64_t *a,
                                        size_t a_count, uint64_t a_world);

/* ---- written sets, run lists and maps. Each that takes a pool is refused with 1, 7, 12, then as is said there. vizturel_convert and
 * vizturel_clear_map take none.
 *
 * Written sets travel between builds; the words of a pool do not, since offsets and the arrangement of nodes are each build's own. */

/* Overwrites a world with the set that a written set of either edition tells. Refused with 3, 4, 3, 5, 8. */
static inline uint64_t vizturel_load(uint64_t *words, size_t count, uint64_t world, const uint8_t *bytes, size_t bytes_count);

/* Overwrites a world with the set of a written set of either edition whose runs may stand in any order, touch and overlap: every position of all
 * runs whose start is not above their end. Writes that set, the outcome, in the edition read, to the front of out, and a vizturel_fate for each
 * run, a byte each in the order read, to the front of report; the rest of both stays. A run is joined if its run of the outcome has another run
 * in it that was not dropped, one that is equal or only touches included. What vizturel_load takes comes back byte for byte, all kept. bytes_count
 * bytes are always enough for out, and a byte for each run read for report. No two of the slices may overlap. It keeps 8 KiB on the stack. Refused
 * with 3, 4, 3, then 8 for the runs of the outcome, then 2 for either slice; never with 5. */
static inline vizturel_mended vizturel_mend(uint64_t *words, size_t count, uint64_t world, const uint8_t *bytes, size_t bytes_count, uint8_t *out,
                                            size_t out_count, uint8_t *report, size_t report_count);

/* Overwrites a world with the set of a run list: start and end of each run, in turn; a last word without its end is no run. Refused with 5, 8. */
static inline uint64_t vizturel_build(uint64_t *words, size_t count, uint64_t world, const uint64_t *runs, size_t runs_count);

/* Writes a world's set; edition is a vizturel_edition. Worlds with equal positions are written as equal bytes in each edition.
 * VIZTUREL_SET_BYTES(C) bytes are always enough. Refused with 2. */
static inline vizturel_written vizturel_write(const uint64_t *words, size_t count, uint64_t world, uint64_t edition, uint8_t *out, size_t out_count);

/* Turns a written set into the other edition: the version byte tells which it has. The set that is written has as many bytes as the one that is
 * read, and the bytes of out after it stay. The two slices must not overlap. It takes no pool. Refused with 3, 4, 3, 5 as vizturel_load is,
 * then with 2. */
static inline vizturel_written vizturel_convert(const uint8_t *bytes, size_t bytes_count, uint8_t *out, size_t out_count);

/* Writes the map of the window of length positions from base on: bit i (0 is least) of byte j is position base + 8j + i. The spare bits, those of
 * the last byte past the window, are 0. Refused with 6, 2. */
static inline vizturel_written vizturel_write_map(const uint64_t *words, size_t count, uint64_t world, uint64_t base, uint64_t length, uint8_t *out,
                                                  size_t out_count);

/* The same by single bytes, for whoever compares: the same answer, refusals and bytes. */
static inline vizturel_written vizturel_write_map_by_bytes(const uint64_t *words, size_t count, uint64_t world, uint64_t base, uint64_t length,
                                                           uint8_t *out, size_t out_count);

/* Sets the window from a map, leaves the other positions, and tells how many changed. A map with a spare bit that is one is not read.
 * Refused with 6, 10, 8. */
static inline vizturel_counted vizturel_read_map(uint64_t *words, size_t count, uint64_t world, uint64_t base, uint64_t length, const uint8_t *bytes,
                                                 size_t bytes_count);

/* The same by single bytes, for whoever compares: the same answer, refusals and positions. */
static inline vizturel_counted vizturel_read_map_by_bytes(uint64_t *words, size_t count, uint64_t world, uint64_t base, uint64_t length,
                                                          const uint8_t *bytes, size_t bytes_count);

/* Makes a map of the window fit to be read: zeroes its spare bits, and tells how many were one. The other bits stay. It takes no pool. Stored maps
 * whose spare bits may hold anything go through it before vizturel_read_map. Refused with 6 alone. */
static inline vizturel_numbered vizturel_clear_map(uint64_t base, uint64_t length, uint8_t *map, size_t map_count);

/* ---- the deepest tree, for whoever sizes a stack by how high a tree can be. It names no world. */

/* Writes the shortest list of runs that makes a tree of the height h, from 1 to VIZTUREL_HEIGHT, if they are set one by one in that order into an
 * empty world: start and end of each run, two words each, to the front of out; the rest of out stays. Heights 1 to 5 take 1, 2, 4, 7 and 12 runs,
 * each height one more than the two before it together, and height 22 takes 46,367. No world of a sound pool has so high a tree with fewer nodes;
 * one that was shifted may have one run less than nodes. Which list it is follows from h alone; another implementation may give another one, as short, so
 * builds that compare answers leave this call out or agree on the list. The pool is asked for its length, so for its C, and
 * for nothing else: it need not be sound, and every word of it stays. 2 * C words are always enough for out. Refused with 1, then 13, then 8 where
 * the list has more runs than C, then 2; never with 7 or 12. */
static inline vizturel_worded vizturel_deepest(const uint64_t *words, size_t count, uint64_t h, uint64_t *out, size_t out_count);

/* ---- why a list stopped, for whoever is sent a list of ranges that was refused for want of room. It names no world. */

/* A list of ranges, each four words (the kind and the value of its lower bound, then of its upper one), set to true one by one into the empty world
 * of a pool of one world with floor 0 and ceiling C, is refused with 8 at some call. Writes the smallest part of the list that is refused when it is
 * set in the same way: the places of its ranges in the list, counted from 0, rising, a word each, to the front of out; the rest of out stays. It has
 * C + 1 ranges, and no fewer of the list are ever refused: from each run of all that is held with the first refused range, the first range listed
 * that has a position in that run. Ranges that are empty or reversed hold nothing, are never refused and never among them. Words after the last
 * whole range are not read. The pool is asked for its length, so for its C, and for nothing else: it need not be sound, and every word of it stays.
 * C + 1 words are enough for out. It keeps 8 KiB on the stack. Refused with 1, then 16 where no call of the list is refused, then 2; never with 7, 12 or 8. */
static inline vizturel_worded vizturel_why_full(const uint64_t *words, size_t count, const uint64_t *ranges, size_t ranges_words, uint64_t *out,
                                                size_t out_count);

/* The same over structs: n ranges. */
static inline vizturel_worded vizturel_why(const uint64_t *words, size_t count, const vizturel_range *ranges, size_t n, uint64_t *out,
                                           size_t out_count) {
    return vizturel_why_full(words, count, (const uint64_t *)(const void *)ranges, 4 * n, out, out_count);
}

/* ---- a frame's calls at once: one soundness check, then every call of a list, each at a world of the pool */

/* Which call a record is. 7 and 9 are withdrawn, others reserved. Number 1 empties its world, as vizturel_build of no runs does; no record makes
 * a pool. */
/* the numbers of a frame, from abi/calls.toml */
enum vizturel_call_number {
    VIZTUREL_CALL_GET = 0,
    VIZTUREL_CALL_EMPTY = 1,
    VIZTUREL_CALL_SET = 2,
    VIZTUREL_CALL_FLIP = 3,
    VIZTUREL_CALL_SHIFT = 4,
    VIZTUREL_CALL_RUN_AT = 5,
    VIZTUREL_CALL_FIND = 6,
    VIZTUREL_CALL_SELECT = 8,
    VIZTUREL_CALL_RANGES = 10,
    VIZTUREL_CALL_DRAW_FRONT = 11,
    VIZTUREL_CALL_DRAW_BACK = 12,
    VIZTUREL_CALL_FILL = 13,
    VIZTUREL_CALL_GAP = 14,
    VIZTUREL_CALL_TALLY = 15,
    VIZTUREL_CALL_SET_STRICT = 16,
    VIZTUREL_CALL_FLIP_STRICT = 17,
    VIZTUREL_CALL_TALLY_STRICT = 18,
    VIZTUREL_CALL_SET_RECT = 19,
    VIZTUREL_CALL_COUNT_RECT = 20
};
/* end of the numbers of a frame */

/* A call as a record of eight words; words that the call has no use for are not read.
 *   lower.value  also the position of get and run_at, the distance of shift, the base of fill, the first position of a draw's listing
 *   upper.value  also the length of fill, the last position of a draw's listing
 *   value        anything but 0 is true; a shift goes up (left) then
 *   k            of select; also the length of gap
 *   world        the number of the call's world, of every call
 * Of set_rect and count_rect lower.kind, lower.value, upper.kind and upper.value are the first row, the first column, the last row and the last
 * column. */
typedef struct {
    uint64_t call;
    vizturel_bound lower;
    vizturel_bound upper;
    uint64_t value;
    uint64_t k;
    uint64_t world;
} vizturel_call;

/* An answer as a record of eight words, zeros where the call tells nothing. A refused call tells its refusal alone.
 *   set, set_rect        found * 2^64 + number positions
 *   tally                found * 2^64 + number positions, in as many runs as end says
 *   fill, count_rect     number
 *   get                  number, 0 or 1
 *   run_at               the run number .. end
 *   find, select, gap    position number, where found is 1
 *   ranges               a listing: first, last and value, which is 0 or 1; the ended one is first 1, last 0
 *   draw_front, _back    the run number .. end, where found is 1, and the listing that is left
 *   empty, flip, shift   nothing
 *   set_strict, flip_strict and tally_strict tell what set, flip and tally do */
typedef struct {
    uint64_t refusal;
    uint64_t found;
    uint64_t number;
    uint64_t end;
    uint64_t first;
    uint64_t last;
    uint64_t value;
    uint64_t reserved; /* 0 */
} vizturel_answer;

/* Makes every call of a list in order and writes their answers into the front of a slice; the words after them stay as they were. A call
 * of the list that is refused (with 12, 9, 14, 15, 6 or 8) has changed nothing, and the next one follows. Words of calls after the last whole record
 * are not read. The whole is refused with 1 or 7 of the pool before the first call, or 2 where answers is too short for a record of each call:
 * then no call was made. */
static inline uint64_t vizturel_frame(uint64_t *words, size_t count, const uint64_t *calls, size_t calls_words, uint64_t *answers,
                                      size_t answers_words);

/* The same over structs: n calls, and room for so many answers. */
static inline uint64_t vizturel_play(uint64_t *words, size_t count, const vizturel_call *calls, size_t n, vizturel_answer *answers, size_t room) {
    return vizturel_frame(words, count, (const uint64_t *)(const void *)calls, 8 * n, (uint64_t *)(void *)answers, 8 * room);
}

/* ---- what is exported, under names of its own: numbers, and a pointer and a count for each slice. A bound is its kind and its value, a rectangle its
 * four numbers. Each returns the refusal's number, or 0. What the call gives goes into answer, the eight words of a vizturel_answer, which must not
 * overlap what else is lent; a refused call leaves them as they were. The calls above are these, over structs. */

/* what is exported, from abi/calls.toml */
uint64_t vizturel_abi_new(uint64_t *words, size_t count, const uint64_t *limits, size_t limits_count);
uint64_t vizturel_abi_set(uint64_t *words, size_t count, uint64_t world, uint64_t lower_kind, uint64_t lower, uint64_t upper_kind, uint64_t upper,
                          uint64_t value, uint64_t *answer);
uint64_t vizturel_abi_flip(uint64_t *words, size_t count, uint64_t world, uint64_t lower_kind, uint64_t lower, uint64_t upper_kind, uint64_t upper);
uint64_t vizturel_abi_set_strict(uint64_t *words, size_t count, uint64_t world, uint64_t lower_kind, uint64_t lower, uint64_t upper_kind,
                                 uint64_t upper, uint64_t value, uint64_t *answer);
uint64_t vizturel_abi_flip_strict(uint64_t *words, size_t count, uint64_t world, uint64_t lower_kind, uint64_t lower, uint64_t upper_kind,
                                  uint64_t upper);
uint64_t vizturel_abi_set_rect(uint64_t *words, size_t count, uint64_t world, uint64_t top, uint64_t left, uint64_t bottom, uint64_t right,
                               uint64_t value, uint64_t *answer);
uint64_t vizturel_abi_shift(uint64_t *words, size_t count, uint64_t world, uint64_t distance, uint64_t left);
uint64_t vizturel_abi_get(const uint64_t *words, size_t count, uint64_t world, uint64_t x, uint64_t *answer);
uint64_t vizturel_abi_run_at(const uint64_t *words, size_t count, uint64_t world, uint64_t x, uint64_t *answer);
uint64_t vizturel_abi_find(const uint64_t *words, size_t count, uint64_t world, uint64_t lower_kind, uint64_t lower, uint64_t upper_kind,
                           uint64_t upper, uint64_t value, uint64_t *answer);
uint64_t vizturel_abi_tally(const uint64_t *words, size_t count, uint64_t world, uint64_t lower_kind, uint64_t lower, uint64_t upper_kind,
                            uint64_t upper, uint64_t value, uint64_t *answer);
uint64_t vizturel_abi_tally_strict(const uint64_t *words, size_t count, uint64_t world, uint64_t lower_kind, uint64_t lower, uint64_t upper_kind,
                                   uint64_t upper, uint64_t value, uint64_t *answer);
uint64_t vizturel_abi_select(const uint64_t *words, size_t count, uint64_t world, uint64_t lower_kind, uint64_t lower, uint64_t upper_kind,
                             uint64_t upper, uint64_t value, uint64_t k, uint64_t *answer);
uint64_t vizturel_abi_ranges(const uint64_t *words, size_t count, uint64_t world, uint64_t lower_kind, uint64_t lower, uint64_t upper_kind,
                             uint64_t upper, uint64_t value, uint64_t *answer);
uint64_t vizturel_abi_draw_front(const uint64_t *words, size_t count, uint64_t world, uint64_t first, uint64_t last, uint64_t value,
                                 uint64_t *answer);
uint64_t vizturel_abi_draw_back(const uint64_t *words, size_t count, uint64_t world, uint64_t first, uint64_t last, uint64_t value, uint64_t *answer);
uint64_t vizturel_abi_gap(const uint64_t *words, size_t count, uint64_t world, uint64_t lower_kind, uint64_t lower, uint64_t upper_kind,
                          uint64_t upper, uint64_t n, uint64_t *answer);
uint64_t vizturel_abi_fill(const uint64_t *words, size_t count, uint64_t world, uint64_t base, uint64_t length, uint64_t *answer);
uint64_t vizturel_abi_count_rect(const uint64_t *words, size_t count, uint64_t world, uint64_t top, uint64_t left, uint64_t bottom, uint64_t right,
                                 uint64_t *answer);
uint64_t vizturel_abi_survey(const uint64_t *words, size_t count, uint64_t world, uint64_t row, uint64_t column, uint64_t k, uint64_t *out,
                             size_t out_count, uint64_t *answer);
uint64_t vizturel_abi_eq(const uint64_t *words, size_t count, uint64_t world, const uint64_t *b, size_t b_count, uint64_t b_world, uint64_t *answer);
uint64_t vizturel_abi_combine(uint64_t *words, size_t count, uint64_t world, uint64_t op, const uint64_t *a, size_t a_count, uint64_t a_world,
                              const uint64_t *b, size_t b_count, uint64_t b_world);
uint64_t vizturel_abi_not(uint64_t *words, size_t count, uint64_t world, const uint64_t *a, size_t a_count, uint64_t a_world);
uint64_t vizturel_abi_shifted(uint64_t *words, size_t count, uint64_t world, uint64_t distance, uint64_t left, const uint64_t *a, size_t a_count,
                              uint64_t a_world);
uint64_t vizturel_abi_load(uint64_t *words, size_t count, uint64_t world, const uint8_t *bytes, size_t bytes_count);
uint64_t vizturel_abi_mend(uint64_t *words, size_t count, uint64_t world, const uint8_t *bytes, size_t bytes_count, uint8_t *out, size_t out_count,
                           uint8_t *report, size_t report_count, uint64_t *answer);
uint64_t vizturel_abi_build(uint64_t *words, size_t count, uint64_t world, const uint64_t *runs, size_t runs_count);
uint64_t vizturel_abi_write(const uint64_t *words, size_t count, uint64_t world, uint64_t edition, uint8_t *out, size_t out_count, uint64_t *answer);
uint64_t vizturel_abi_convert(const uint8_t *bytes, size_t bytes_count, uint8_t *out, size_t out_count, uint64_t *answer);
uint64_t vizturel_abi_write_map(const uint64_t *words, size_t count, uint64_t world, uint64_t base, uint64_t length, uint8_t *out, size_t out_count,
                                uint64_t *answer);
uint64_t vizturel_abi_write_map_by_bytes(const uint64_t *words, size_t count, uint64_t world, uint64_t base, uint64_t length, uint8_t *out,
                                         size_t out_count, uint64_t *answer);
uint64_t vizturel_abi_read_map(uint64_t *words, size_t count, uint64_t world, uint64_t base, uint64_t length, const uint8_t *bytes,
                               size_t bytes_count, uint64_t *answer);
uint64_t vizturel_abi_read_map_by_bytes(uint64_t *words, size_t count, uint64_t world, uint64_t base, uint64_t length, const uint8_t *bytes,
                                        size_t bytes_count, uint64_t *answer);
uint64_t vizturel_abi_clear_map(uint64_t base, uint64_t length, uint8_t *map, size_t map_count, uint64_t *answer);
uint64_t vizturel_abi_deepest(const uint64_t *words, size_t count, uint64_t h, uint64_t *out, size_t out_count, uint64_t *answer);
uint64_t vizturel_abi_why_full(const uint64_t *words, size_t count, const uint64_t *ranges, size_t ranges_words, uint64_t *out, size_t out_count,
                               uint64_t *answer);
uint64_t vizturel_abi_frame(uint64_t *words, size_t count, const uint64_t *calls, size_t calls_words, uint64_t *answers, size_t answers_words);
/* end of what is exported */

/* ---- the calls as they are declared above, over what is exported */

/* the calls, from abi/calls.toml */
static inline uint64_t vizturel_new(uint64_t *words, size_t count, const uint64_t *limits, size_t limits_count) {
    return vizturel_abi_new(words, count, limits, limits_count);
}

static inline vizturel_counted vizturel_set(uint64_t *words, size_t count, uint64_t world, vizturel_bound lower, vizturel_bound upper,
                                            uint64_t value) {
    uint64_t answer[8] = {0};
    uint64_t refusal = vizturel_abi_set(words, count, world, lower.kind, lower.value, upper.kind, upper.value, value, answer);
    vizturel_counted given = {refusal, answer[1], answer[2]};
    return given;
}

static inline uint64_t vizturel_flip(uint64_t *words, size_t count, uint64_t world, vizturel_bound lower, vizturel_bound upper) {
    return vizturel_abi_flip(words, count, world, lower.kind, lower.value, upper.kind, upper.value);
}

static inline vizturel_counted vizturel_set_strict(uint64_t *words, size_t count, uint64_t world, vizturel_bound lower, vizturel_bound upper,
                                                   uint64_t value) {
    uint64_t answer[8] = {0};
    uint64_t refusal = vizturel_abi_set_strict(words, count, world, lower.kind, lower.value, upper.kind, upper.value, value, answer);
    vizturel_counted given = {refusal, answer[1], answer[2]};
    return given;
}

static inline uint64_t vizturel_flip_strict(uint64_t *words, size_t count, uint64_t world, vizturel_bound lower, vizturel_bound upper) {
    return vizturel_abi_flip_strict(words, count, world, lower.kind, lower.value, upper.kind, upper.value);
}

static inline vizturel_counted vizturel_set_rect(uint64_t *words, size_t count, uint64_t world, vizturel_rect rect, uint64_t value) {
    uint64_t answer[8] = {0};
    uint64_t refusal = vizturel_abi_set_rect(words, count, world, rect.top, rect.left, rect.bottom, rect.right, value, answer);
    vizturel_counted given = {refusal, answer[1], answer[2]};
    return given;
}

static inline uint64_t vizturel_shift(uint64_t *words, size_t count, uint64_t world, uint64_t distance, uint64_t left) {
    return vizturel_abi_shift(words, count, world, distance, left);
}

static inline vizturel_tested vizturel_get(const uint64_t *words, size_t count, uint64_t world, uint64_t x) {
    uint64_t answer[8] = {0};
    uint64_t refusal = vizturel_abi_get(words, count, world, x, answer);
    vizturel_tested given = {refusal, answer[2]};
    return given;
}

static inline vizturel_around vizturel_run_at(const uint64_t *words, size_t count, uint64_t world, uint64_t x) {
    uint64_t answer[8] = {0};
    uint64_t refusal = vizturel_abi_run_at(words, count, world, x, answer);
    vizturel_around given = {refusal, answer[2], answer[3]};
    return given;
}

static inline vizturel_found vizturel_find(const uint64_t *words, size_t count, uint64_t world, vizturel_bound lower, vizturel_bound upper,
                                           uint64_t value) {
    uint64_t answer[8] = {0};
    uint64_t refusal = vizturel_abi_find(words, count, world, lower.kind, lower.value, upper.kind, upper.value, value, answer);
    vizturel_found given = {refusal, answer[1], answer[2]};
    return given;
}

static inline vizturel_tallied vizturel_tally(const uint64_t *words, size_t count, uint64_t world, vizturel_bound lower, vizturel_bound upper,
                                              uint64_t value) {
    uint64_t answer[8] = {0};
    uint64_t refusal = vizturel_abi_tally(words, count, world, lower.kind, lower.value, upper.kind, upper.value, value, answer);
    vizturel_tallied given = {refusal, answer[1], answer[2], answer[3]};
    return given;
}

static inline vizturel_tallied vizturel_tally_strict(const uint64_t *words, size_t count, uint64_t world, vizturel_bound lower, vizturel_bound upper,
                                                     uint64_t value) {
    uint64_t answer[8] = {0};
    uint64_t refusal = vizturel_abi_tally_strict(words, count, world, lower.kind, lower.value, upper.kind, upper.value, value, answer);
    vizturel_tallied given = {refusal, answer[1], answer[2], answer[3]};
    return given;
}

static inline vizturel_found vizturel_select(const uint64_t *words, size_t count, uint64_t world, vizturel_bound lower, vizturel_bound upper,
                                             uint64_t value, uint64_t k) {
    uint64_t answer[8] = {0};
    uint64_t refusal = vizturel_abi_select(words, count, world, lower.kind, lower.value, upper.kind, upper.value, value, k, answer);
    vizturel_found given = {refusal, answer[1], answer[2]};
    return given;
}

static inline vizturel_listed vizturel_ranges(const uint64_t *words, size_t count, uint64_t world, vizturel_bound lower, vizturel_bound upper,
                                              uint64_t value) {
    uint64_t answer[8] = {0};
    uint64_t refusal = vizturel_abi_ranges(words, count, world, lower.kind, lower.value, upper.kind, upper.value, value, answer);
    vizturel_listed given = {refusal, answer[4], answer[5], answer[6]};
    return given;
}

static inline vizturel_drawn vizturel_draw_front(const uint64_t *words, size_t count, uint64_t world, uint64_t first, uint64_t last, uint64_t value) {
    uint64_t answer[8] = {0};
    uint64_t refusal = vizturel_abi_draw_front(words, count, world, first, last, value, answer);
    vizturel_drawn given = {refusal, answer[1], answer[2], answer[3], answer[4], answer[5]};
    return given;
}

static inline vizturel_drawn vizturel_draw_back(const uint64_t *words, size_t count, uint64_t world, uint64_t first, uint64_t last, uint64_t value) {
    uint64_t answer[8] = {0};
    uint64_t refusal = vizturel_abi_draw_back(words, count, world, first, last, value, answer);
    vizturel_drawn given = {refusal, answer[1], answer[2], answer[3], answer[4], answer[5]};
    return given;
}

static inline vizturel_found vizturel_gap(const uint64_t *words, size_t count, uint64_t world, vizturel_bound lower, vizturel_bound upper,
                                          uint64_t n) {
    uint64_t answer[8] = {0};
    uint64_t refusal = vizturel_abi_gap(words, count, world, lower.kind, lower.value, upper.kind, upper.value, n, answer);
    vizturel_found given = {refusal, answer[1], answer[2]};
    return given;
}

static inline vizturel_numbered vizturel_fill(const uint64_t *words, size_t count, uint64_t world, uint64_t base, uint64_t length) {
    uint64_t answer[8] = {0};
    uint64_t refusal = vizturel_abi_fill(words, count, world, base, length, answer);
    vizturel_numbered given = {refusal, answer[2]};
    return given;
}

static inline vizturel_numbered vizturel_count_rect(const uint64_t *words, size_t count, uint64_t world, vizturel_rect rect) {
    uint64_t answer[8] = {0};
    uint64_t refusal = vizturel_abi_count_rect(words, count, world, rect.top, rect.left, rect.bottom, rect.right, answer);
    vizturel_numbered given = {refusal, answer[2]};
    return given;
}

static inline vizturel_worded vizturel_survey(const uint64_t *words, size_t count, uint64_t world, uint64_t row, uint64_t column, uint64_t k,
                                              uint64_t *out, size_t out_count) {
    uint64_t answer[8] = {0};
    uint64_t refusal = vizturel_abi_survey(words, count, world, row, column, k, out, out_count, answer);
    vizturel_worded given = {refusal, answer[2]};
    return given;
}

static inline vizturel_tested vizturel_eq(const uint64_t *words, size_t count, uint64_t world, const uint64_t *b, size_t b_count, uint64_t b_world) {
    uint64_t answer[8] = {0};
    uint64_t refusal = vizturel_abi_eq(words, count, world, b, b_count, b_world, answer);
    vizturel_tested given = {refusal, answer[2]};
    return given;
}

static inline uint64_t vizturel_combine(uint64_t *words, size_t count, uint64_t world, uint64_t op, const uint64_t *a, size_t a_count,
                                        uint64_t a_world, const uint64_t *b, size_t b_count, uint64_t b_world) {
    return vizturel_abi_combine(words, count, world, op, a, a_count, a_world, b, b_count, b_world);
}

static inline uint64_t vizturel_not(uint64_t *words, size_t count, uint64_t world, const uint64_t *a, size_t a_count, uint64_t a_world) {
    return vizturel_abi_not(words, count, world, a, a_count, a_world);
}

static inline uint64_t vizturel_shifted(uint64_t *words, size_t count, uint64_t world, uint64_t distance, uint64_t left, const uint64_t *a,
                                        size_t a_count, uint64_t a_world) {
    return vizturel_abi_shifted(words, count, world, distance, left, a, a_count, a_world);
}

static inline uint64_t vizturel_load(uint64_t *words, size_t count, uint64_t world, const uint8_t *bytes, size_t bytes_count) {
    return vizturel_abi_load(words, count, world, bytes, bytes_count);
}

static inline vizturel_mended vizturel_mend(uint64_t *words, size_t count, uint64_t world, const uint8_t *bytes, size_t bytes_count, uint8_t *out,
                                            size_t out_count, uint8_t *report, size_t report_count) {
    uint64_t answer[8] = {0};
    uint64_t refusal = vizturel_abi_mend(words, count, world, bytes, bytes_count, out, out_count, report, report_count, answer);
    vizturel_mended given = {refusal, answer[2], answer[3]};
    return given;
}

static inline uint64_t vizturel_build(uint64_t *words, size_t count, uint64_t world, const uint64_t *runs, size_t runs_count) {
    return vizturel_abi_build(words, count, world, runs, runs_count);
}

static inline vizturel_written vizturel_write(const uint64_t *words, size_t count, uint64_t world, uint64_t edition, uint8_t *out, size_t out_count) {
    uint64_t answer[8] = {0};
    uint64_t refusal = vizturel_abi_write(words, count, world, edition, out, out_count, answer);
    vizturel_written given = {refusal, answer[2]};
    return given;
}

static inline vizturel_written vizturel_convert(const uint8_t *bytes, size_t bytes_count, uint8_t *out, size_t out_count) {
    uint64_t answer[8] = {0};
    uint64_t refusal = vizturel_abi_convert(bytes, bytes_count, out, out_count, answer);
    vizturel_written given = {refusal, answer[2]};
    return given;
}

static inline vizturel_written vizturel_write_map(const uint64_t *words, size_t count, uint64_t world, uint64_t base, uint64_t length, uint8_t *out,
                                                  size_t out_count) {
    uint64_t answer[8] = {0};
    uint64_t refusal = vizturel_abi_write_map(words, count, world, base, length, out, out_count, answer);
    vizturel_written given = {refusal, answer[2]};
    return given;
}

static inline vizturel_written vizturel_write_map_by_bytes(const uint64_t *words, size_t count, uint64_t world, uint64_t base, uint64_t length,
                                                           uint8_t *out, size_t out_count) {
    uint64_t answer[8] = {0};
    uint64_t refusal = vizturel_abi_write_map_by_bytes(words, count, world, base, length, out, out_count, answer);
    vizturel_written given = {refusal, answer[2]};
    return given;
}

static inline vizturel_counted vizturel_read_map(uint64_t *words, size_t count, uint64_t world, uint64_t base, uint64_t length, const uint8_t *bytes,
                                                 size_t bytes_count) {
    uint64_t answer[8] = {0};
    uint64_t refusal = vizturel_abi_read_map(words, count, world, base, length, bytes, bytes_count, answer);
    vizturel_counted given = {refusal, answer[1], answer[2]};
    return given;
}

static inline vizturel_counted vizturel_read_map_by_bytes(uint64_t *words, size_t count, uint64_t world, uint64_t base, uint64_t length,
                                                          const uint8_t *bytes, size_t bytes_count) {
    uint64_t answer[8] = {0};
    uint64_t refusal = vizturel_abi_read_map_by_bytes(words, count, world, base, length, bytes, bytes_count, answer);
    vizturel_counted given = {refusal, answer[1], answer[2]};
    return given;
}

static inline vizturel_numbered vizturel_clear_map(uint64_t base, uint64_t length, uint8_t *map, size_t map_count) {
    uint64_t answer[8] = {0};
    uint64_t refusal = vizturel_abi_clear_map(base, length, map, map_count, answer);
    vizturel_numbered given = {refusal, answer[2]};
    return given;
}

static inline vizturel_worded vizturel_deepest(const uint64_t *words, size_t count, uint64_t h, uint64_t *out, size_t out_count) {
    uint64_t answer[8] = {0};
    uint64_t refusal = vizturel_abi_deepest(words, count, h, out, out_count, answer);
    vizturel_worded given = {refusal, answer[2]};
    return given;
}

static inline vizturel_worded vizturel_why_full(const uint64_t *words, size_t count, const uint64_t *ranges, size_t ranges_words, uint64_t *out,
                                                size_t out_count) {
    uint64_t answer[8] = {0};
    uint64_t refusal = vizturel_abi_why_full(words, count, ranges, ranges_words, out, out_count, answer);
    vizturel_worded given = {refusal, answer[2]};
    return given;
}

static inline uint64_t vizturel_frame(uint64_t *words, size_t count, const uint64_t *calls, size_t calls_words, uint64_t *answers,
                                      size_t answers_words) {
    return vizturel_abi_frame(words, count, calls, calls_words, answers, answers_words);
}
/* end of the calls */

#ifdef __cplusplus
}
#endif

#endif
