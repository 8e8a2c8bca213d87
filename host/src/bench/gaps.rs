//! The search for the lowest gap after the soundness check, against a plain Rust loop over IntervalBitSet's free runs that stops at the first
//! fit.
//!
//! A single call is mostly its soundness check. So the proved search is called by a function of the crate `bench_store`, many times after
//! one check; what the check takes is timed beside it and taken away.

use super::measure::{Figures, Progress, Sides, Times, both, median, nanos};
use super::work::{self, Pair};
use crate::differential::random::Random;
use crate::oracle::IntervalBitSet;

const LABELS: [&str; 5] =
    ["fits early", "fits late", "fits nowhere", "fits only after the last run", "fits at the range's start"];
const REPETITIONS: usize = 21;
// Longer than what is free between two neighbouring cells' runs, shorter than what is free where one is missing.
const LENGTH: u64 = 1_024;

unsafe extern "C" {
    // One soundness check, then so many searches of first ..= last: how many found a gap.
    fn vizturel_bench_gaps(words: *const u64, count: usize, first: u64, last: u64, n: u64, searches: u64) -> u64;
}

// Where is searched for how much.
struct Search {
    first: u64,
    last: u64,
    n: u64,
}

impl Search {
    fn ours(&self, words: &[u64], searches: u64) -> u64 {
        // SAFETY: the slice is lent to be read for the call.
        unsafe { vizturel_bench_gaps(words.as_ptr(), words.len(), self.first, self.last, self.n, searches) }
    }

    #[inline(never)]
    fn theirs(&self, set: &IntervalBitSet) -> Option<usize> {
        let more = self.n as usize - 1;
        set.ranges(self.first as usize..=self.last as usize, false)
            .find(|run| run.end() - run.start() >= more)
            .map(|run| *run.start())
    }

    fn compare(&self, pair: &Pair) {
        let ours = pair.ours.gap(self.first..=self.last, self.n).expect("a sound pool");
        assert_eq!(ours, self.theirs(&pair.theirs).map(|x| x as u64), "the two sides do not answer the same");
    }
}

// The set without one run, and a search that the label names. The range goes from the first held position to the last, so that only
// between two runs is anything free; but for the last two labels, where it ends at M, or begins after a run in the middle.
fn setting(label: usize, size: usize, random: &mut Random) -> (Pair, Search) {
    let mut runs = work::cells(size, random);
    let (first, last) = (runs[0][0], runs[size - 1][1]);
    let from = runs[size / 2][1] + 1;
    match label {
        0 => drop(runs.remove(1)),
        1 => drop(runs.remove(size - 2)),
        _ => {}
    }
    let search = match label {
        3 => Search { first, last: u64::MAX, n: LENGTH },
        4 => Search { first: from, last, n: 64 },
        _ => Search { first, last, n: LENGTH },
    };
    let pair = Pair::new(work::capacity(size), &runs, random);
    search.compare(&pair);
    (pair, search)
}

fn sides(label: usize, size: usize) -> Sides {
    let mut random = Random::new(size as u64);
    let (pair, search) = setting(label, size, &mut random);
    let words = pair.ours.words();
    // Of searches that pass over all runs, and take about as long as the check, a few are enough; of short ones so many are made that the
    // check is little beside them.
    let searches: u64 = if (1..=3).contains(&label) { 40 } else { 10_000 };
    let mut checks = Vec::new();
    let mut times = Times::default();
    for repetition in 0..REPETITIONS {
        let ours = || {
            // The check before or after the searches, in turn, so that neither always finds the pool read just then.
            let mut check = || checks.push(nanos(|| assert_eq!(search.ours(words, 0), 0)));
            if repetition.is_multiple_of(4) {
                check();
            }
            let mut found = 0;
            let time = nanos(|| found = search.ours(words, searches));
            if !repetition.is_multiple_of(4) {
                check();
            }
            assert!(found == if label == 2 { 0 } else { searches }, "not every search answered the same");
            time
        };
        let theirs = || {
            nanos(|| {
                for _ in 0..searches {
                    std::hint::black_box(search.theirs(std::hint::black_box(&pair.theirs)));
                }
            }) / searches as f64
        };
        times.push(both(repetition, ours, theirs));
    }
    let check = median(checks);
    times.ours.iter_mut().for_each(|time| *time = (*time - check) / searches as f64);
    times.medians()
}

/// Medians of nanoseconds for each search, without the soundness check.
pub fn measure(progress: &Progress) -> Figures {
    Figures::measure(&LABELS, "gaps", progress, |size| (0..LABELS.len()).map(|label| sides(label, size)).collect())
}
