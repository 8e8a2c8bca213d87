/* Where the runs of these benchmarks lie, and numbers that look random: the same ones in every run of a program. */
#include <stdint.h>

#define BASE ((uint64_t)1 << 40)
#define CELL 1024 /* each run lies in a cell of its own */

static uint64_t seed = 88172645463325252u;
static uint64_t chance(uint64_t below) {
    seed ^= seed << 13;
    seed ^= seed >> 7;
    seed ^= seed << 17;
    return seed % below;
}
