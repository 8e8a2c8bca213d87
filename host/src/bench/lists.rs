//! Lists of a thousand calls, which the library takes in frames after one soundness check each, against IntervalBitSet.
//!
//! A side plays eight lists in a row, each timed apart, then the other side plays the same. Fresh lists are played once, as those of a
//! program would be; replayed ones are eight times the same, so that a processor can learn the way of every call. A list is one frame, or
//! several shorter ones, which are timed together.

use super::measure::{Figures, Progress, Sides, Times, both, median, nanos, number};
use super::work::{self, Call, Pair, Report, SIZES, Told};
use crate::differential::random::Random;
use crate::differential::reference::Run;
use crate::{Limits, PoolBuf, raw};

const LABELS: [&str; 8] = [
    "set and flip",
    "get",
    "find",
    "tally",
    "tally, against count",
    "select",
    "get, find, tally, select",
    "half sets, half reports",
];
const CALLS: usize = 1_000;
const ROW: usize = 8;
const REPETITIONS: usize = 9;
const CHECKS: usize = 41;

// The labels whose lists are also played in shorter frames, how many calls these have, and the names of both together.
const MIXED: [usize; 3] = [0, 6, 7];
const LENGTHS: [usize; 3] = [10, 100, CALLS];
const FRAMES: [&str; MIXED.len() * LENGTHS.len()] = [
    "set and flip, 10",
    "set and flip, 100",
    "set and flip, 1,000",
    "four reports, 10",
    "four reports, 100",
    "four reports, 1,000",
    "half and half, 10",
    "half and half, 100",
    "half and half, 1,000",
];

/// How many words a call and its answer have.
pub const RECORD: usize = 8;

/// The exported call.
pub fn frame(words: &mut [u64], calls: &[u64], answers: &mut [u64]) {
    let (w, c, a) = (words.as_mut_ptr(), calls.as_ptr(), answers.as_mut_ptr());
    // SAFETY: the slices are lent for the call, the two that are written uniquely.
    let refusal = unsafe { raw::vizturel_abi_frame(w, words.len(), c, calls.len(), a, answers.len()) };
    assert_eq!(refusal, 0, "a list is refused");
}

/// A call as the library reads it: call, lower kind and value, upper kind and value, value, k, and the world.
pub fn record(call: &Call) -> [u64; RECORD] {
    let range = |call: u64, first: u64, last: u64, value: bool, k: u64| [call, 1, first, 1, last, value.into(), k, 0];
    match *call {
        Call::Get(x) => range(0, x, 0, false, 0),
        Call::Set(first, last, value) => range(2, first, last, value, 0),
        Call::Flip(first, last) => range(3, first, last, false, 0),
        Call::Shift(distance, left) => range(4, distance, 0, left, 0),
        Call::RunAt(x) => range(5, x, 0, false, 0),
        Call::Find(first, last, value) => range(6, first, last, value, 0),
        Call::Select(first, last, value, k) => range(8, first, last, value, k),
        Call::Tally(first, last, value) | Call::Positions(first, last, value) => range(15, first, last, value, 0),
        Call::Draws(..) => unreachable!("lists have no draws"),
    }
}

/// What answers tell, but the runs that no one asked for.
pub fn told<'a>(calls: impl Iterator<Item = &'a Call>, answers: &[u64]) -> Vec<Told> {
    let tell = |(call, a): (&Call, &[u64])| {
        assert_eq!(a[0], 0, "a call of a list is refused");
        let end = if let Call::Positions(..) = call { 0 } else { a[3] };
        Told { found: a[1], number: a[2], end }
    };
    calls.zip(answers.chunks_exact(RECORD)).map(tell).collect()
}

// A list that leaves the set as it was.
fn list(label: usize, runs: &[Run], random: &mut Random) -> Vec<Call> {
    let blocks = |sets: usize, flips: usize, random: &mut Random| {
        let mut blocks: Vec<Vec<Call>> = (0..sets).map(|_| work::sets(runs, random).concat()).collect();
        blocks.extend((0..flips).map(|_| work::flips(runs, random)));
        random.shuffle(&mut blocks);
        blocks.concat()
    };
    let reports = |kinds: &[Report], count: usize, random: &mut Random| -> Vec<Call> {
        (0..count).map(|i| work::report(kinds[i % kinds.len()], runs, random)).collect()
    };
    let calls = match label {
        0 => blocks(20, 10, random),
        1 => reports(&[Report::Get], CALLS, random),
        2 => reports(&[Report::Find], CALLS, random),
        3 => reports(&[Report::Tally], CALLS, random),
        4 => reports(&[Report::Positions], CALLS, random),
        5 => reports(&[Report::Select], CALLS, random),
        // Of these four IntervalBitSet has each as one call.
        6 => reports(&[Report::Get, Report::Find, Report::Positions, Report::Select], CALLS, random),
        _ => {
            let changes = blocks(12, 1, random);
            let all = [Report::Get, Report::RunAt, Report::Find, Report::Tally, Report::Select];
            let reports = reports(&all, changes.len(), random);
            changes.into_iter().zip(reports).flat_map(|(change, report)| [change, report]).collect()
        }
    };
    assert_eq!(calls.len(), CALLS);
    calls
}

// A set on both sides, and the memory that answers are written to.
struct Bench {
    runs: Vec<Run>,
    pair: Pair,
    random: Random,
    answers: Vec<u64>,
    told: Vec<Told>,
    // What frames without calls took, that is the soundness check, each for as many calls as the others have.
    checks: Vec<f64>,
}

// Nanoseconds for each call.
fn each(f: impl FnOnce()) -> f64 {
    nanos(f) / CALLS as f64
}

impl Bench {
    fn new(size: usize) -> Bench {
        let mut random = Random::new(size as u64);
        let runs = work::cells(size, &mut random);
        let pair = Pair::new(work::capacity(size), &runs, &mut random);
        Bench { runs, pair, random, answers: vec![0; ROW * CALLS * RECORD], told: Vec::new(), checks: Vec::new() }
    }

    // Plays the lists on both sides, in frames of so many calls: nanoseconds for each call, list by list.
    fn play(&mut self, repetition: usize, lists: &[Vec<Call>], length: usize) -> (Vec<f64>, Vec<f64>) {
        let records: Vec<Vec<u64>> = lists.iter().map(|list| list.iter().flat_map(record).collect()).collect();
        let words = self.pair.ours.words_mut();
        self.told.clear();
        self.told.reserve(lists.len() * CALLS);
        let times = both(
            repetition,
            || {
                let rooms = self.answers.chunks_exact_mut(CALLS * RECORD);
                let play = |(at, (list, room)): (usize, (&Vec<u64>, &mut [u64]))| {
                    // A frame without calls before or after each, in turn, so that neither always finds the pool read just then.
                    let mut check = |words: &mut [u64]| self.checks.push(each(|| frame(words, &[], &mut [])));
                    if at.is_multiple_of(2) {
                        check(words);
                    }
                    let frames = list.chunks_exact(length * RECORD).zip(room.chunks_exact_mut(length * RECORD));
                    let time = each(|| frames.for_each(|(calls, room)| frame(words, calls, room)));
                    if !at.is_multiple_of(2) {
                        check(words);
                    }
                    time
                };
                records.iter().zip(rooms).enumerate().map(play).collect()
            },
            || lists.iter().map(|list| each(|| work::theirs(&mut self.pair.theirs, list, &mut self.told))).collect(),
        );
        let answered = told(lists.iter().flatten(), &self.answers);
        assert!(answered == self.told, "the two sides do not answer the same");
        times
    }

    // Stops where the two sides do not hold the same after some of a list's calls: a list as a whole leaves the set as it was.
    fn compare_halfway(&mut self, list: &[Call]) {
        let some = &list[..self.random.below(CALLS as u64) as usize];
        let records: Vec<u64> = some.iter().flat_map(record).collect();
        let mut copy = self.pair.clone();
        frame(copy.ours.words_mut(), &records, &mut self.answers);
        work::theirs(&mut copy.theirs, some, &mut Vec::new());
        copy.compare();
    }

    // The times of a label's lists, fresh or replayed, in frames of so many calls.
    fn times(&mut self, label: usize, replayed: bool, length: usize) -> Times {
        let mut times = Times::default();
        for repetition in 0..REPETITIONS {
            let different = if replayed { 1 } else { ROW };
            let some: Vec<Vec<Call>> = (0..different).map(|_| list(label, &self.runs, &mut self.random)).collect();
            let lists: Vec<Vec<Call>> = some.iter().cycle().take(ROW).cloned().collect();
            self.compare_halfway(&lists[0]);
            let (ours, theirs) = self.play(repetition, &lists, length);
            ours.into_iter().zip(theirs).for_each(|each| times.push(each));
        }
        self.pair.compare();
        times
    }
}

fn column(size: usize, replayed: bool, checks: &mut Checks) -> Vec<Sides> {
    let mut bench = Bench::new(size);
    let mut each = Vec::new();
    let sides = (0..LABELS.len()).map(|label| {
        let sides = bench.times(label, replayed, CALLS).medians();
        each.push(median(std::mem::take(&mut bench.checks)));
        sides
    });
    let sides = sides.collect();
    checks.push(each);
    sides
}

// Fresh lists in shorter frames, and in frames of a thousand calls, whose medians are there.
fn frames(size: usize, whole: &[Sides], progress: &Progress) -> Vec<Sides> {
    let mut bench = Bench::new(size);
    let mut sides = Vec::new();
    for label in MIXED {
        for length in LENGTHS {
            if length == CALLS {
                sides.push(whole[label]);
                continue;
            }
            progress.tell(&format!("{}, {length} calls a frame, {size} runs", LABELS[label]));
            sides.push(bench.times(label, false, length).medians());
            bench.checks.clear();
        }
    }
    sides
}

// The last label's lists at the largest capacity, as lists and as single public calls: nanoseconds for each call.
fn single() -> Sides {
    let mut bench = Bench::new(SIZES[SIZES.len() - 1]);
    let mut other = bench.pair.ours.clone();
    let mut times = Times::default();
    for repetition in 0..5 {
        let lists = [list(LABELS.len() - 1, &bench.runs, &mut bench.random)];
        let mut singly = Vec::with_capacity(CALLS);
        let ((list, _), calls) = both(
            repetition,
            || bench.play(repetition, &lists, CALLS),
            || each(|| work::ours(&mut other, &lists[0], &mut singly)),
        );
        assert!(bench.told == singly, "a list and single calls do not answer the same");
        times.push((list[0], calls));
    }
    times.medians()
}

const WORLDS: usize = 16;

// A pool of sixteen worlds that have the runs by turns, each run set in random order.
fn shared(capacity: usize, runs: &[Run], random: &mut Random) -> PoolBuf {
    let mut pool = PoolBuf::with_capacity(capacity, &[Limits::NONE; WORLDS]).expect("a capacity");
    let mut calls: Vec<[u64; RECORD]> =
        runs.iter().map(|&[first, last]| record(&Call::Set(first, last, true))).collect();
    calls.iter_mut().enumerate().for_each(|(i, call)| call[RECORD - 1] = (i % WORLDS) as u64);
    random.shuffle(&mut calls);
    frame(pool.words_mut(), calls.as_flattened(), &mut vec![0; calls.len() * RECORD]);
    pool
}

// Nanoseconds of one soundness check, by capacity: of a new pool with the capacity for each of the sizes, then of pools with that many runs or
// fewer, and last of one that has the most runs in sixteen worlds. A pool is grown to the most runs, then runs are freed by chance, so that its
// free nodes too lie anywhere in memory.
fn checks_alone(progress: &Progress) -> Checks {
    let column = |most: usize| {
        let capacity = work::capacity(most);
        progress.tell(&format!("the soundness check, capacity {capacity}"));
        let row = 131_072 / capacity;
        let time = |words: &mut [u64]| nanos(|| (0..row).for_each(|_| frame(words, &[], &mut []))) / row as f64;
        let check = |words: &mut [u64]| median((0..CHECKS).map(|_| time(words)).collect());
        let new = check(PoolBuf::with_capacity(capacity, &[Limits::NONE]).expect("a capacity").words_mut());

        let mut random = Random::new(most as u64);
        let mut runs = work::cells(most, &mut random);
        let among = check(shared(capacity, &runs, &mut random).words_mut());
        let mut set = Pair::new(capacity, &runs, &mut random).ours;
        random.shuffle(&mut runs);
        let mut times = Vec::new();
        for size in SIZES.into_iter().rev().filter(|size| *size <= most) {
            for some in runs.split_off(size).chunks(CALLS) {
                let calls: Vec<Call> = some.iter().map(|&[first, last]| Call::Set(first, last, false)).collect();
                let records: Vec<u64> = calls.iter().flat_map(record).collect();
                frame(set.words_mut(), &records, &mut vec![0; records.len()]);
            }
            times.push(check(set.words_mut()));
        }
        times.push(new);
        times.reverse();
        times.push(among);
        times
    };
    SIZES.map(column).into()
}

// The soundness check's part in each figure.
type Checks = Vec<Vec<f64>>;

// The figures without the soundness check's part.
fn alone(figures: &Figures, checks: &Checks) -> Figures {
    let column = |(sides, parts): (&Vec<Sides>, &Vec<f64>)| {
        sides.iter().zip(parts).map(|(s, part)| Sides { ours: s.ours - part, theirs: s.theirs }).collect()
    };
    Figures { labels: figures.labels, columns: figures.columns.iter().zip(checks).map(column).collect() }
}

/// Medians of nanoseconds for each call: of frames of ten, a hundred and a thousand calls, of a thousand fresh and replayed ones by kind, of a
/// frame and single public calls; and of the soundness check.
pub struct Lists {
    pub frames: Figures,
    pub fresh: Figures,
    replayed: Figures,
    parts: [Checks; 2],
    single: Sides,
    checks: Checks,
}

impl Lists {
    pub fn measure(progress: &Progress) -> Lists {
        let mut parts = [Vec::new(), Vec::new()];
        let [c, d] = &mut parts;
        let fresh = Figures::measure(&LABELS, "frames of 1000 fresh calls", progress, |size| column(size, false, c));
        let replayed = Figures::measure(&LABELS, "the same replayed", progress, |size| column(size, true, d));
        let mut whole = fresh.columns.iter();
        let frames = Figures::measure(&FRAMES, "shorter frames", progress, |size| {
            frames(size, whole.next().expect("a column for each size"), progress)
        });
        progress.tell("a frame against single calls");
        let single = single();
        Lists { frames, fresh, replayed, parts, single, checks: checks_alone(progress) }
    }

    /// Tables of what a caller gets, with the soundness check of each frame in it.
    pub fn tell(&self) {
        self.frames.table("kind, calls a frame: library / IntervalBitSet", |_, s| number(s.ratio()));
        self.frames.table("kind, calls a frame: µs a frame", |[_, row], s| {
            let calls = LENGTHS[row % LENGTHS.len()] as f64;
            format!("{} / {}", number(s.ours * calls / 1e3), number(s.theirs * calls / 1e3))
        });
        let all = [("fresh", &self.fresh, &self.parts[0]), ("replayed", &self.replayed, &self.parts[1])];
        for (told, figures, parts) in all {
            figures.table(&format!("1,000 {told} calls a frame: library / IntervalBitSet"), |_, s| number(s.ratio()));
            let title =
                format!("1,000 {told} calls a frame: ns a call, the soundness check's part in it / IntervalBitSet");
            figures.table(&title, |[at, row], s| {
                format!("{}, {} / {}", number(s.ours), number(parts[at][row]), number(s.theirs))
            });
        }
        let Sides { ours, theirs } = self.single;
        println!("| {CALLS} calls, half sets, half reports, at C = 65,536 | ns a call |\n|---|---|");
        println!("| one frame | {} |\n| single public calls | {} |", number(ours), number(theirs));
        println!("| single public calls that cost as much as the frame | {} |\n", number(CALLS as f64 * ours / theirs));
    }

    /// What one soundness check takes, by capacity.
    pub fn tell_checks(&self) {
        let capacities = SIZES.map(|size| format!(" C = {} |", number(work::capacity(size) as f64))).concat();
        println!("| µs a soundness check |{capacities}\n|{}", "---|".repeat(1 + SIZES.len()));
        let runs = SIZES.map(|size| format!("{} runs", number(size as f64)));
        let told = |label: &str, cell: &dyn Fn(&Vec<f64>) -> Option<f64>| {
            let cells =
                self.checks.iter().map(|column| cell(column).map_or(String::new(), |nanos| number(nanos / 1e3)));
            println!("| {label} | {} |", cells.collect::<Vec<_>>().join(" | "));
        };
        for (row, label) in ["no runs, a new pool".to_string()].into_iter().chain(runs).enumerate() {
            told(&label, &|column| column[..column.len() - 1].get(row).copied());
        }
        told("the most of these runs, in sixteen worlds", &|column| column.last().copied());
        println!();
    }

    /// The same without the soundness check: no caller gets these.
    pub fn tell_alone(&self) {
        for (told, figures, parts) in
            [("fresh", &self.fresh, &self.parts[0]), ("replayed", &self.replayed, &self.parts[1])]
        {
            let title = format!("{told} calls without the soundness check: library / IntervalBitSet");
            alone(figures, parts).table(&title, |_, s| number(s.ratio()));
        }
    }
}
