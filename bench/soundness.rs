// The soundness check against readings of the same words: a walk that follows the tree's links in order (left, node, right) and adds
// up the starts, in plain Rust and bare of bounds tests; and a plain sum of all words. `make bench-soundness` builds and runs it;
// docs/BENCHMARKS.md tells what it gave.
//
// At each capacity, pools of one world are grown by random short sets until 0.9 C runs are there. A repetition times the four, in turn and in
// changing order, on one pool; a figure is the median over all repetitions, a ratio that of two medians. Each pool must be judged
// sound, and damaged copies, one word changed, must not.
use std::hint::black_box;
use std::time::Instant;

extern "C" {
    fn vizturel_bench_new(words: *mut u64, count: usize) -> bool;
    fn vizturel_bench_is_sound(words: *const u64, count: usize) -> bool;
    fn vizturel_bench_grow(words: *mut u64, count: usize, seed: u64, sets: u64) -> u64;
}

const POOLS: u64 = 5;
const REPETITIONS: usize = 41;

// Words of the record of world 0: its root, its runs, and its limits, which may be other numbers in a sound pool.
const ROOT: usize = 8;
const RUNS: usize = 11;
const LIMITS: std::ops::Range<usize> = 14..16;

// Where the words of a node begin.
fn node_at(link: u64) -> usize {
    8 * (16 + link as usize)
}

fn is_sound(words: &[u64]) -> bool {
    unsafe { vizturel_bench_is_sound(words.as_ptr(), words.len()) }
}

#[inline(never)]
fn walk(words: &[u64], link: u64) -> u64 {
    if link == 0 {
        return 0;
    }
    let at = node_at(link);
    let before = walk(words, words[at + 2]);
    let here = words[at];
    before.wrapping_add(here).wrapping_add(walk(words, words[at + 3]))
}

// The same without the tests of the bounds: what the walk costs at the least.
#[inline(never)]
unsafe fn bare_walk(words: &[u64], link: u64) -> u64 {
    if link == 0 {
        return 0;
    }
    let at = node_at(link);
    let before = bare_walk(words, *words.get_unchecked(at + 2));
    let here = *words.get_unchecked(at);
    before
        .wrapping_add(here)
        .wrapping_add(bare_walk(words, *words.get_unchecked(at + 3)))
}

#[inline(never)]
fn sum(words: &[u64]) -> u64 {
    words.iter().fold(0, |s, w| s.wrapping_add(*w))
}

fn next_random(z: &mut u64) -> u64 {
    *z ^= *z << 13;
    *z ^= *z >> 7;
    *z ^= *z << 17;
    *z
}

// Memory of which a part is the pool, so that its first word lies `skip` words after a border of 64 bytes.
struct Lent {
    memory: Vec<u64>,
    from: usize,
    count: usize,
}

impl Lent {
    fn new(count: usize, skip: usize) -> Lent {
        let memory = vec![0u64; count + 16];
        let past = memory.as_ptr() as usize / 8 % 8;
        Lent {
            from: (8 - past) % 8 + skip,
            memory,
            count,
        }
    }
    fn words(&self) -> &[u64] {
        &self.memory[self.from..self.from + self.count]
    }
    fn words_mut(&mut self) -> &mut [u64] {
        &mut self.memory[self.from..self.from + self.count]
    }
}

// A pool of the capacity with 0.9 C runs.
fn grown(capacity: u64, seed: u64, skip: usize) -> Lent {
    let mut lent = Lent::new(8 * (capacity as usize + 49), skip);
    let words = lent.words_mut();
    let wanted = capacity * 9 / 10;
    assert!(unsafe { vizturel_bench_new(words.as_mut_ptr(), words.len()) });
    let mut z = seed;
    while words[RUNS] < wanted {
        let sets = wanted - words[RUNS];
        let done = unsafe { vizturel_bench_grow(words.as_mut_ptr(), words.len(), next_random(&mut z), sets) };
        assert_eq!(done, sets);
    }
    lent
}

// Changes one word of a copy at a time, every `step`-th, and puts it back. Tells how many were judged.
fn damage(words: &[u64], step: usize, z: &mut u64) -> usize {
    let mut copy = words.to_vec();
    let mut judged = 0;
    let first = next_random(z) as usize % step;
    for at in (first..words.len()).step_by(step).filter(|at| !LIMITS.contains(at)) {
        let was = copy[at];
        let bits = if judged % 2 == 0 { 1 } else { next_random(z) };
        copy[at] = was ^ bits;
        assert!(!is_sound(&copy), "word {at} changed from {was} to {}, and judged sound", copy[at]);
        copy[at] = was;
        judged += 1;
    }
    assert!(is_sound(&copy));
    judged
}

fn micros(times: usize, mut f: impl FnMut()) -> f64 {
    let from = Instant::now();
    for _ in 0..times {
        f();
    }
    from.elapsed().as_secs_f64() * 1e6 / times as f64
}

fn median(mut all: Vec<f64>) -> f64 {
    all.sort_by(f64::total_cmp);
    all[all.len() / 2]
}

fn load() -> String {
    let all = std::fs::read_to_string("/proc/loadavg").unwrap_or_default();
    all.split(' ').next().unwrap_or_default().to_string()
}

// One row: the medians, over several pools.
fn row(capacity: u64, skip: usize, judged: &mut usize) {
    let mut taken = [const { Vec::new() }; 4];
    let mut z = 0x9E37_79B9_7F4A_7C15 ^ capacity;
    let mut runs = 0;
    for seed in 1..=POOLS {
        let lent = grown(capacity, seed * 7_919 + capacity, skip);
        let words = lent.words();
        runs = words[RUNS];
        assert!(is_sound(words));
        if skip == 0 {
            let step = if seed == 1 && capacity == 1024 { 1 } else { words.len() / 200 };
            *judged += damage(words, step, &mut z);
        }
        let times = (131_072 / capacity) as usize;
        for repetition in 0..REPETITIONS {
            for turn in 0..4 {
                let which = (repetition + turn) % 4;
                let t = match which {
                    0 => micros(times, || assert!(is_sound(black_box(words)))),
                    1 => micros(times, || {
                        black_box(walk(black_box(words), words[ROOT]));
                    }),
                    2 => micros(times, || {
                        black_box(unsafe { bare_walk(black_box(words), words[ROOT]) });
                    }),
                    _ => micros(times, || {
                        black_box(sum(black_box(words)));
                    }),
                };
                taken[which].push(t);
            }
        }
    }
    let [d, w, b, s] = taken.map(median);
    let each = |t: f64| t * 1e3 / capacity as f64;
    println!(
        "| {capacity} | {runs} | {d:.1} | {w:.1} | {b:.1} | {s:.1} | {:.2} | {:.2} | {:.1} | {:.1} | {:.1} |",
        d / w,
        d / b,
        d / s,
        each(d),
        each(w)
    );
}

fn main() {
    println!("load {} before", load());
    let mut judged = 0;
    let all = [1_024, 2_048, 4_096, 8_192, 16_384, 32_768, 65_536];
    let few = [1_024, 8_192, 65_536];
    let border = "Each node on one cache line (words[0] on a border of 64 bytes):";
    let past = "Each node across two cache lines (words[0] 16 bytes past a border):";
    for (told, skip, capacities) in [(border, 0, &all[..]), (past, 2, &few[..])] {
        println!("\n{told}\n");
        println!("| C | runs | check µs | walk µs | bare walk µs | sum µs | check / walk | check / bare walk | check / sum | check ns / C | walk ns / C |");
        println!("|---|---|---|---|---|---|---|---|---|---|---|");
        for capacity in capacities {
            row(*capacity, skip, &mut judged);
        }
    }
    println!("\n{judged} damaged copies judged unsound; load {} after", load());
}
