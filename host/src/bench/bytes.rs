//! Written sets and maps against the same made and read by plain Rust loops over IntervalBitSet's ranges; maps also by words against by
//! single bytes.

use super::measure::{Figures, Progress, Sides, Times, both, in_turn, nanos, number};
use super::work::{self, Pair};
use crate::differential::random::Random;
use crate::differential::reference::Run;
use crate::oracle::IntervalBitSet;
use crate::{Edition, SetBuf};

const LABELS: &[&str] = &["write", "load", "write_map", "write_map_by_bytes", "read_map", "read_map_by_bytes"];
const MAPS: &[&str] = LABELS.split_at(2).1;
const REPETITIONS: usize = 41;
const DONE: &str = "no call is refused";
const BASE: u64 = 1 << 40;
const WINDOW: u64 = 524_288;

// The written set.
fn write(set: &IntervalBitSet, out: &mut Vec<u8>) {
    out.clear();
    out.push(1);
    out.extend_from_slice(&(set.count_ranges(.., true) as u32).to_be_bytes());
    for run in set.ranges(.., true) {
        out.extend_from_slice(&run.start().to_be_bytes());
        out.extend_from_slice(&run.end().to_be_bytes());
    }
}

// The set of a written set.
fn load(bytes: &[u8]) -> IntervalBitSet {
    let number = |bytes: &[u8]| usize::from_be_bytes(bytes.try_into().expect("eight bytes"));
    bytes[5..].chunks_exact(16).map(|run| number(&run[..8])..=number(&run[8..])).collect()
}

// The map of the window, run by run: the bits of the first and the last byte, and whole bytes between.
fn write_map(set: &IntervalBitSet, out: &mut [u8]) {
    out.fill(0);
    let base = BASE as usize;
    for run in set.ranges(base..base + WINDOW as usize, true) {
        let (first, last) = (run.start() - base, run.end() - base);
        let (from, to) = (first / 8, last / 8);
        let (above, below) = (0xFF << (first % 8), 0xFF >> (7 - last % 8));
        if from == to {
            out[from] |= above & below;
        } else {
            out[from] |= above;
            out[from + 1..to].fill(0xFF);
            out[to] |= below;
        }
    }
}

// Sets the window as a map says, stretch by stretch, and tells how many positions changed.
fn read_map(set: &mut IntervalBitSet, map: &[u8]) -> u128 {
    let (base, n) = (BASE as usize, WINDOW as usize);
    let held = |i: usize| map[i / 8] >> (i % 8) & 1 == 1;
    let mut changed = 0;
    let mut from = 0;
    while from < n {
        let value = held(from);
        let whole = if value { 0xFF } else { 0 };
        let mut to = from + 1;
        while to < n {
            if to.is_multiple_of(8) && map[to / 8] == whole {
                to += 8;
            } else if held(to) == value {
                to += 1;
            } else {
                break;
            }
        }
        changed += set.set(base + from..base + to, value);
        from = to;
    }
    changed
}

// Writing a set, and loading it into another.
fn written(size: usize, random: &mut Random) -> [Times; 2] {
    let capacity = work::capacity(size);
    let pair = Pair::new(capacity, &work::cells(size, random), random);
    let mut out = vec![0; 5 + 16 * capacity];
    let mut plain = Vec::with_capacity(out.len());
    let mut other = SetBuf::with_capacity(capacity).expect("a capacity");
    let mut times: [Times; 2] = Default::default();
    for repetition in 0..REPETITIONS {
        let mut length = 0;
        times[0].push(both(
            repetition,
            || nanos(|| length = pair.ours.write(Edition::Rows, &mut out).expect(DONE).len()),
            || nanos(|| write(&pair.theirs, &mut plain)),
        ));
        assert!(out[..length] == plain[..], "the written sets differ");

        let mut loaded = IntervalBitSet::new();
        times[1].push(both(
            repetition,
            || nanos(|| other.load(&plain).expect(DONE)),
            || nanos(|| loaded = load(&plain)),
        ));
        assert!(other.eq(&pair.ours).expect(DONE) && loaded == pair.theirs, "another set was loaded");
    }
    times
}

// Writing the map of a window, and reading one that moves each run by one position, to and fro: each by words and by single bytes, both
// beside the same times of the plain loop.
fn maps(size: usize, random: &mut Random) -> [Times; 4] {
    let distance = WINDOW / size as u64;
    let [runs, moved] = [0, 1].map(|by| -> Vec<Run> {
        let start = |i: u64| BASE + by + i * distance;
        (0..size as u64).map(|i| [start(i), start(i) + distance / 2 - 1]).collect()
    });
    let mut maps = [&moved, &runs].map(|runs| {
        let mut map = vec![0; WINDOW as usize / 8];
        write_map(&Pair::new(size, runs, random).theirs, &mut map);
        map
    });
    let mut pair = Pair::new(work::capacity(size), &runs, random);
    let mut narrow = pair.ours.clone();
    let mut out = [&maps[0]; 3].map(Vec::clone);
    let mut times: [Times; 4] = Default::default();
    for repetition in 0..REPETITIONS {
        let [by_words, by_bytes, plain] = &mut out;
        let [words, bytes, theirs] = in_turn(
            repetition,
            [
                &mut || nanos(|| assert!(pair.ours.write_map(BASE, WINDOW, by_words).is_ok())),
                &mut || nanos(|| assert!(pair.ours.write_map_by_bytes(BASE, WINDOW, by_bytes).is_ok())),
                &mut || nanos(|| write_map(&pair.theirs, plain)),
            ],
        );
        times[0].push((words, theirs));
        times[1].push((bytes, theirs));
        assert!(by_words == plain && by_bytes == plain, "the maps differ");

        let mut changed = [0; 3];
        let [a, b, c] = &mut changed;
        let map = &maps[0];
        let [words, bytes, theirs] = in_turn(
            repetition,
            [
                &mut || nanos(|| *a = pair.ours.read_map(BASE, WINDOW, map).expect(DONE)),
                &mut || nanos(|| *b = narrow.read_map_by_bytes(BASE, WINDOW, map).expect(DONE)),
                &mut || nanos(|| *c = read_map(&mut pair.theirs, map)),
            ],
        );
        times[2].push((words, theirs));
        times[3].push((bytes, theirs));
        assert!(changed == [2 * size as u128; 3], "the map changes other positions");
        assert!(narrow.eq(&pair.ours).expect(DONE), "the two forms leave other positions");
        pair.compare();
        maps.reverse();
    }
    times
}

/// Medians of nanoseconds for each call.
pub fn measure(progress: &Progress) -> Figures {
    Figures::measure(LABELS, "written sets and maps", progress, |size| {
        let mut random = Random::new(size as u64);
        let written = written(size, &mut random);
        written.into_iter().chain(maps(size, &mut random)).map(Times::medians).collect()
    })
}

/// Those of maps alone.
pub fn measure_maps(progress: &Progress) -> Figures {
    Figures::measure(MAPS, "maps", progress, |size| {
        maps(size, &mut Random::new(size as u64)).into_iter().map(Times::medians).collect()
    })
}

/// Prints what was measured, and how much longer each call on maps takes by single bytes than by words.
pub fn tell(figures: &Figures) {
    figures.tell("µs a call", 1e3);
    let [words, bytes] =
        [["write_map", "read_map"], ["write_map_by_bytes", "read_map_by_bytes"]].map(|labels| figures.rows(&labels));
    let against = |(bytes, words): (Vec<Sides>, Vec<Sides>)| -> Vec<Sides> {
        bytes.iter().zip(words).map(|(b, w)| Sides { ours: b.ours, theirs: w.ours }).collect()
    };
    let columns = bytes.into_iter().zip(words).map(against).collect();
    Figures { labels: &["write_map", "read_map"], columns }.table("by bytes / by words", |_, s| number(s.ratio()));
}

/// Without the forms by single bytes, for the plot.
pub fn by_words(figures: &Figures) -> Figures {
    let labels: &[&str] = &["write", "load", "write_map", "read_map"];
    Figures { labels, columns: figures.rows(labels) }
}
