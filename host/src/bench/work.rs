//! The sets that are measured, and the calls on them.
//!
//! A set has one run in each cell of 1,024 positions: 128 to 383 positions, at least 512 free ones on either side. Changes are
//! of up to fifty positions and come in blocks; each block puts the set back as it was, so that it keeps its size.

use crate::differential::random::Random;
use crate::differential::reference::{self, Run};
use crate::oracle::IntervalBitSet;
use crate::{Edition, SetBuf, Tally, frame};

const CELL: u64 = 1024;
// Below and above the cells lie more positions than any shift moves.
const BASE: u64 = 1 << 40;

/// How many runs the measured sets have.
pub const SIZES: [usize; 4] = [100, 1_000, 10_000, 60_000];

/// The capacity of a pool for that many runs.
pub fn capacity(runs: usize) -> usize {
    match runs {
        100 => 128,
        60_000 => 65_536,
        _ => runs + runs / 10,
    }
}

/// The cells' runs.
pub fn cells(runs: usize, random: &mut Random) -> Vec<Run> {
    let mut all = Vec::new();
    for i in 0..runs as u64 {
        let start = BASE + i * CELL + 256 + random.below(128);
        all.push([start, start + 127 + random.below(256)]);
    }
    all
}

/// One set on both sides.
#[derive(Clone)]
pub struct Pair {
    pub ours: SetBuf,
    pub theirs: IntervalBitSet,
}

impl Pair {
    /// The set of the runs, which both sides got in the same random order: so neighbours lie anywhere in memory.
    pub fn new(capacity: usize, runs: &[Run], random: &mut Random) -> Pair {
        let mut order = runs.to_vec();
        random.shuffle(&mut order);
        let mut ours = SetBuf::with_capacity(capacity).expect("a capacity");
        for some in order.chunks(1_000) {
            let sets: Vec<frame::Call> = some.iter().map(|&[start, end]| frame::Call::set(start..=end, true)).collect();
            ours.frame(&sets).expect("a sound pool");
        }
        let mut theirs = IntervalBitSet::new();
        for [start, end] in order {
            theirs.set(start as usize..=end as usize, true);
        }
        let pair = Pair { ours, theirs };
        pair.compare();
        pair
    }

    /// Stops where the two sides do not hold the same positions.
    pub fn compare(&self) {
        let runs: Vec<Run> = self.theirs.ranges(.., true).map(|r| [*r.start() as u64, *r.end() as u64]).collect();
        let due = reference::encode(Edition::Rows, &runs);
        let mut out = vec![0; due.len()];
        let written = self.ours.write(Edition::Rows, &mut out).expect("a sound pool");
        assert!(*written == due[..], "the two sides do not hold the same positions");
    }
}

/// A call. Ranges are from first to last, both in it.
#[derive(Clone, Copy, Debug)]
pub enum Call {
    Set(u64, u64, bool),
    Flip(u64, u64),
    Shift(u64, bool),
    Get(u64),
    RunAt(u64),
    Find(u64, u64, bool),
    /// Of IntervalBitSet it is `count` and `count_ranges`, one after the other.
    Tally(u64, u64, bool),
    /// A tally whose runs no one asked for: of IntervalBitSet it is `count` alone.
    Positions(u64, u64, bool),
    Select(u64, u64, bool, u64),
    /// So many draws from the front of one listing, of all runs of the value from a position on.
    Draws(u64, bool, u64),
}

impl Call {
    /// How many calls it is.
    pub fn weight(&self) -> u64 {
        if let Call::Draws(_, _, n) = *self { n } else { 1 }
    }
}

/// What a call told: a number with its carry, or a run, or a position that was found; of a tally, the positions with their carry, and the runs;
/// of draws, how many gave a run, and sums.
#[derive(Clone, Copy, Debug, Default, PartialEq)]
pub struct Told {
    pub found: u64,
    pub number: u64,
    pub end: u64,
}

impl Told {
    pub fn number(number: u64) -> Told {
        Told { number, ..Told::default() }
    }

    fn count(count: u128) -> Told {
        Told { found: (count >> 64) as u64, number: count as u64, end: 0 }
    }

    fn tally(positions: u128, runs: u64) -> Told {
        Told { end: runs, ..Told::count(positions) }
    }

    fn position(x: Option<u64>) -> Told {
        Told { found: x.is_some().into(), number: x.unwrap_or(0), end: 0 }
    }

    fn draw(&mut self, start: u64, end: u64) {
        self.found += 1;
        self.number = self.number.wrapping_add(start);
        self.end = self.end.wrapping_add(end);
    }
}

/// Makes the calls on the library, one by one. None is refused.
#[inline(never)]
pub fn ours(set: &mut SetBuf, calls: &[Call], told: &mut Vec<Told>) {
    const DONE: &str = "no call is refused";
    for call in calls {
        told.push(match *call {
            Call::Set(first, last, value) => Told::count(set.set(first..=last, value).expect(DONE)),
            Call::Flip(first, last) => {
                set.flip(first..=last).expect(DONE);
                Told::default()
            }
            Call::Shift(distance, left) => {
                set.shift(distance, left).expect(DONE);
                Told::default()
            }
            Call::Get(x) => Told::number(set.get(x).expect(DONE).into()),
            Call::RunAt(x) => {
                let run = set.run_at(x).expect(DONE);
                Told { found: 0, number: *run.start(), end: *run.end() }
            }
            Call::Find(first, last, value) => Told::position(set.find(first..=last, value).expect(DONE)),
            Call::Tally(first, last, value) => {
                let Tally { positions, runs } = set.tally(first..=last, value).expect(DONE);
                Told::tally(positions, runs)
            }
            Call::Positions(first, last, value) => Told::count(set.tally(first..=last, value).expect(DONE).positions),
            Call::Select(first, last, value, k) => Told::position(set.select(first..=last, value, k).expect(DONE)),
            Call::Draws(first, value, n) => {
                let mut sums = Told::default();
                let mut listing = set.listing(first.., value).expect(DONE);
                for _ in 0..n {
                    if let Some(run) = set.draw_front(&mut listing).expect(DONE) {
                        sums.draw(*run.start(), *run.end());
                    }
                }
                sums
            }
        });
    }
}

/// Makes the calls on IntervalBitSet. A draw is a step of its iterator.
#[inline(never)]
pub fn theirs(set: &mut IntervalBitSet, calls: &[Call], told: &mut Vec<Told>) {
    let range = |first: u64, last: u64| first as usize..=last as usize;
    let position = |x: Option<usize>| Told::position(x.map(|x| x as u64));
    for call in calls {
        told.push(match *call {
            Call::Set(first, last, value) => Told::count(set.set(range(first, last), value)),
            Call::Flip(first, last) => {
                set.flip(range(first, last));
                Told::default()
            }
            Call::Shift(distance, left) => {
                if left {
                    *set <<= distance as usize;
                } else {
                    *set >>= distance as usize;
                }
                Told::default()
            }
            Call::Get(x) => Told::number(set.get(x as usize).into()),
            Call::RunAt(x) => {
                let run = set.run_at(x as usize);
                Told { found: 0, number: *run.start() as u64, end: *run.end() as u64 }
            }
            Call::Find(first, last, value) => position(set.find(range(first, last), value)),
            Call::Tally(first, last, value) => {
                let positions = set.count(range(first, last), value);
                Told::tally(positions, set.count_ranges(range(first, last), value) as u64)
            }
            Call::Positions(first, last, value) => Told::count(set.count(range(first, last), value)),
            Call::Select(first, last, value, k) => position(set.select(range(first, last), value, k.into())),
            Call::Draws(first, value, n) => {
                let mut sums = Told::default();
                for run in set.ranges(first as usize.., value).take(n as usize) {
                    sums.draw(*run.start() as u64, *run.end() as u64);
                }
                sums
            }
        });
    }
}

/// Some cells' runs, no two the same.
fn pick(count: usize, runs: &[Run], random: &mut Random) -> Vec<Run> {
    let mut picked: Vec<Run> = Vec::new();
    while picked.len() < count {
        let run = random.one_of(runs);
        if !picked.contains(&run) {
            picked.push(run);
        }
    }
    picked
}

/// A block of forty sets of up to fifty positions (or of a run): eight to false, twenty to true, twelve to false. Of those to true
/// eight create a run, eight extend one and four join two; of those to false eight delete, eight cut and four split one.
pub fn sets(runs: &[Run], random: &mut Random) -> [Vec<Call>; 3] {
    let few = |random: &mut Random| random.below(50);
    let mut away: Vec<Run> = Vec::new();
    let mut there: Vec<Run> = Vec::new();
    for (i, [start, end]) in pick(20, runs, random).into_iter().enumerate() {
        match i {
            0..4 => away.push([start, end]),
            4..8 => away.push([start + 40, start + 40 + few(random)]),
            8..12 => there.push([start - 200, start - 200 + few(random)]),
            _ => there.push([end + 1, end + 1 + few(random)]),
        }
    }
    let mut each = [(&away[..], false), (&[&away[..], &there[..]].concat(), true), (&there[..], false)]
        .map(|(ranges, v)| ranges.iter().map(|&[first, last]| Call::Set(first, last, v)).collect::<Vec<_>>());
    for calls in &mut each {
        random.shuffle(calls);
    }
    each
}

/// A block of twenty flips of up to forty positions around a run's end: ten that cut a run and create one, then ten that undo it.
pub fn flips(runs: &[Run], random: &mut Random) -> Vec<Call> {
    let some = |random: &mut Random| 1 + random.below(20);
    let mut there: Vec<Call> =
        pick(10, runs, random).into_iter().map(|[_, end]| Call::Flip(end - some(random), end + some(random))).collect();
    let mut back = there.clone();
    random.shuffle(&mut back);
    there.append(&mut back);
    there
}

/// A shift by up to a million positions, and one back.
pub fn shifts(random: &mut Random) -> [Call; 2] {
    let (distance, left) = (1 + random.below(1_000_000), random.truth());
    [Call::Shift(distance, left), Call::Shift(distance, !left)]
}

// A position in any cell.
fn position(runs: &[Run], random: &mut Random) -> u64 {
    BASE + random.below(runs.len() as u64 * CELL)
}

// Two positions in any cells, in order.
fn span(runs: &[Run], random: &mut Random) -> (u64, u64) {
    let (x, y) = (position(runs, random), position(runs, random));
    (x.min(y), x.max(y))
}

/// What is asked of a set.
#[derive(Clone, Copy, Debug, PartialEq)]
pub enum Report {
    Get,
    RunAt,
    Find,
    Tally,
    Positions,
    Select,
    Draws,
}

impl Report {
    pub const ALL: [Report; 7] =
        [Report::Get, Report::RunAt, Report::Find, Report::Tally, Report::Positions, Report::Select, Report::Draws];
}

/// A report: of a position in any cell, or of a range between two such; `find` looks through five cells.
pub fn report(kind: Report, runs: &[Run], random: &mut Random) -> Call {
    let x = position(runs, random);
    let (first, last) = span(runs, random);
    let value = random.truth();
    match kind {
        Report::Get => Call::Get(x),
        Report::RunAt => Call::RunAt(x),
        Report::Find => Call::Find(x, x + 5 * CELL, value),
        Report::Tally => Call::Tally(first, last, value),
        Report::Positions => Call::Positions(first, last, value),
        // About a quarter of the positions are held: most are found.
        Report::Select => Call::Select(first, last, value, random.below((last - first) / 5 + 1)),
        Report::Draws => Call::Draws(BASE + random.below(runs.len() as u64 - 60) * CELL, value, 50),
    }
}
