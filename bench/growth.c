/* One soundness check of a pool of capacity C (the argument), whose only world random sets grew to 0.9 C runs. `make bench-growth` counts its
 * instructions, which no cache and no other work on the machine changes. */
#include <stdbool.h>
#include <stdint.h>
#include <stdlib.h>

bool vizturel_bench_new(uint64_t *words, size_t count);
bool vizturel_bench_is_sound(const uint64_t *words, size_t count);
uint64_t vizturel_bench_grow(uint64_t *words, size_t count, uint64_t seed, uint64_t sets);

enum { RUNS = 11 }; /* the word that tells the runs of world 0 */

int main(int argc, char **argv) {
    size_t capacity = argc > 1 ? strtoul(argv[1], NULL, 10) : 0;
    size_t count = 8 * (capacity + 49);
    uint64_t wanted = capacity * 9 / 10, seed = 7919;
    uint64_t *words = calloc(count, sizeof *words);
    if (words == NULL || !vizturel_bench_new(words, count)) return 1;
    while (words[RUNS] < wanted) {
        vizturel_bench_grow(words, count, seed, wanted - words[RUNS]);
        seed += 7919;
    }
    return vizturel_bench_is_sound(words, count) ? 0 : 1;
}
