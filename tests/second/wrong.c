/* Wrong libraries, by a linker that puts these functions before those of the archive (--wrap): raw.c has to see each. WRONG is the one that is meant. */
#include "vizturel.h"

#define JOIN(a, b) a##b
#define REAL(name) JOIN(__real_vizturel_abi_, name)
#define WRAP(name) JOIN(__wrap_vizturel_abi_, name)

#if WRONG == 1 /* only 1 is true */
uint64_t REAL(set)(uint64_t *words, size_t count, uint64_t world, uint64_t lower_kind, uint64_t lower, uint64_t upper_kind, uint64_t upper, uint64_t value,
                   uint64_t *answer);
uint64_t WRAP(set)(uint64_t *words, size_t count, uint64_t world, uint64_t lower_kind, uint64_t lower, uint64_t upper_kind, uint64_t upper, uint64_t value,
                   uint64_t *answer);
uint64_t WRAP(set)(uint64_t *words, size_t count, uint64_t world, uint64_t lower_kind, uint64_t lower, uint64_t upper_kind, uint64_t upper, uint64_t value,
                   uint64_t *answer) {
    return REAL(set)(words, count, world, lower_kind, lower, upper_kind, upper, value == 1, answer);
}
#elif WRONG == 2 /* a refused call writes into the record */
uint64_t REAL(run_at)(const uint64_t *words, size_t count, uint64_t world, uint64_t x, uint64_t *answer);
uint64_t WRAP(run_at)(const uint64_t *words, size_t count, uint64_t world, uint64_t x, uint64_t *answer);
uint64_t WRAP(run_at)(const uint64_t *words, size_t count, uint64_t world, uint64_t x, uint64_t *answer) {
    uint64_t refusal = REAL(run_at)(words, count, world, x, answer);
    if (refusal == 12) answer[3] = x + 1;
    return refusal;
}
#elif WRONG == 3 /* the form by single bytes counts otherwise */
uint64_t REAL(read_map_by_bytes)(uint64_t *words, size_t count, uint64_t world, uint64_t base, uint64_t length, const uint8_t *map, size_t bytes,
                                 uint64_t *answer);
uint64_t WRAP(read_map_by_bytes)(uint64_t *words, size_t count, uint64_t world, uint64_t base, uint64_t length, const uint8_t *map, size_t bytes,
                                 uint64_t *answer);
uint64_t WRAP(read_map_by_bytes)(uint64_t *words, size_t count, uint64_t world, uint64_t base, uint64_t length, const uint8_t *map, size_t bytes,
                                 uint64_t *answer) {
    uint64_t refusal = REAL(read_map_by_bytes)(words, count, world, base, length, map, bytes, answer);
    if (answer[2] > 2) answer[2]--;
    return refusal;
}
#elif WRONG == 4 /* words after the last node are not counted */
uint64_t REAL(get)(const uint64_t *words, size_t count, uint64_t world, uint64_t x, uint64_t *answer);
uint64_t WRAP(get)(const uint64_t *words, size_t count, uint64_t world, uint64_t x, uint64_t *answer);
uint64_t WRAP(get)(const uint64_t *words, size_t count, uint64_t world, uint64_t x, uint64_t *answer) {
    return REAL(get)(words, count / 8 * 8, world, x, answer);
}
#elif WRONG == 5 /* a start without its end is refused */
uint64_t REAL(build)(uint64_t *words, size_t count, uint64_t world, const uint64_t *runs, size_t runs_count);
uint64_t WRAP(build)(uint64_t *words, size_t count, uint64_t world, const uint64_t *runs, size_t runs_count);
uint64_t WRAP(build)(uint64_t *words, size_t count, uint64_t world, const uint64_t *runs, size_t runs_count) {
    return runs_count % 2 ? VIZTUREL_RUN_ORDER : REAL(build)(words, count, world, runs, runs_count);
}
#elif WRONG == 6 /* a reserved kind is no bound */
uint64_t REAL(find)(const uint64_t *words, size_t count, uint64_t world, uint64_t lower_kind, uint64_t lower, uint64_t upper_kind, uint64_t upper,
                    uint64_t value, uint64_t *answer);
uint64_t WRAP(find)(const uint64_t *words, size_t count, uint64_t world, uint64_t lower_kind, uint64_t lower, uint64_t upper_kind, uint64_t upper,
                    uint64_t value, uint64_t *answer);
uint64_t WRAP(find)(const uint64_t *words, size_t count, uint64_t world, uint64_t lower_kind, uint64_t lower, uint64_t upper_kind, uint64_t upper,
                    uint64_t value, uint64_t *answer) {
    if (lower_kind < VIZTUREL_INCLUDED || lower_kind > VIZTUREL_UNBOUNDED) lower_kind = VIZTUREL_UNBOUNDED;
    if (upper_kind < VIZTUREL_INCLUDED || upper_kind > VIZTUREL_UNBOUNDED) upper_kind = VIZTUREL_UNBOUNDED;
    return REAL(find)(words, count, world, lower_kind, lower, upper_kind, upper, value, answer);
}
#endif
