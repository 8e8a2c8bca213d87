//! Stores that have lived, against new ones: the soundness check, the frame that puts a worn chain in order, other frames, and a store laid out anew.
//!
//! The free nodes of a store form a chain, along which the check goes. In a store that was grown in one random order and emptied in another the
//! chain leads to and fro through memory: it is worn. A call that may write, and every frame, puts a worn chain in order at its end, but goes by
//! what the check at its beginning found. So here one long frame wears a chain: it finds it in order and leaves it worn. Then the store is only
//! read, or copied, until the frame that is measured.

use super::lists::{self, RECORD};
use super::measure::{Figures, Progress, Sides, commas, headed, median, nanos, number};
use super::work::{self, Call, Report, Told};
use crate::differential::random::Random;
use crate::differential::reference::{self, Run};
use crate::{Edition, Set, SetBuf};

pub const CAPACITIES: [usize; 3] = [1_100, 8_192, 65_536];

// The stores. The two that are worn have another beside them, on which one frame was played.
const NEW: usize = 0;
const GROWN: usize = 1;
const BUILT: usize = 2;
const TENTH: usize = 3;
const EMPTIED: usize = 5;
const BY_100: usize = 7;
const STORES: [&str; 8] = [
    "new",
    "grown",
    "built from a list",
    "aged to a tenth",
    "the same after a frame",
    "aged and emptied",
    "the same after a frame",
    "emptied in frames of 100",
];
// In the plot, which has little room for names.
const NAMES: [&str; STORES.len() - 1] =
    ["grown", "from a list", "a tenth, worn", "a tenth, tidied", "emptied, worn", "emptied, tidied", "emptied by 100"];

// Which of them single calls and frames are played on, which have a frame of one call by itself, and which are laid out anew.
const PLAYED: [usize; 6] = [NEW, GROWN, BUILT, TENTH, EMPTIED, BY_100];
const ORDERED: [usize; 3] = [NEW, TENTH, EMPTIED];
const ANEW: [usize; 3] = [GROWN, TENTH, EMPTIED];

// How many calls are made at once: one is a single public call, and more are a frame.
const LENGTHS: [usize; 4] = [1, 10, 100, 1_000];
const REPETITIONS: usize = 41;
const DONE: &str = "no call is refused";
// A position of no cell: free in every store.
const X: u64 = 5;

// Plays calls in frames of so many.
fn play(set: &mut SetBuf, calls: &[Call], length: usize) {
    let records: Vec<u64> = calls.iter().flat_map(lists::record).collect();
    let mut answers = vec![0; records.len()];
    for (some, room) in records.chunks(length * RECORD).zip(answers.chunks_mut(length * RECORD)) {
        lists::frame(set.words_mut(), some, room);
    }
    assert!(answers.chunks_exact(RECORD).all(|answer| answer[0] == 0), "{DONE}");
}

fn sets(runs: &[Run], value: bool) -> Vec<Call> {
    runs.iter().map(|&[first, last]| Call::Set(first, last, value)).collect()
}

// A store's set, in the room for any that its words can hold.
fn written(set: &SetBuf) -> Vec<u8> {
    let mut out = vec![0; 5 + 2 * set.words().len()];
    let length = set.write(Edition::Rows, &mut out).expect(DONE).len();
    out.truncate(length);
    out
}

// Makes single calls: nanoseconds of the first and of all others, and what they tell.
fn singly(set: &mut SetBuf, calls: &[Call]) -> ([f64; 2], Vec<Told>) {
    let mut told = Vec::with_capacity(calls.len());
    let (first, others) = calls.split_at(1);
    let times = [first, others].map(|some| nanos(|| work::ours(set, some, &mut told)));
    (times, told)
}

// The same in frames of so many calls.
fn framed(set: &mut SetBuf, calls: &[Call], length: usize) -> ([f64; 2], Vec<Told>) {
    let records: Vec<u64> = calls.iter().flat_map(lists::record).collect();
    let mut answers = vec![0; records.len()];
    let (first, others) = records.split_at(length * RECORD);
    let (room, rooms) = answers.split_at_mut(length * RECORD);
    let times = [(first, room), (others, rooms)].map(|(records, rooms)| {
        let frames = records.chunks_exact(length * RECORD).zip(rooms.chunks_exact_mut(length * RECORD));
        nanos(|| frames.for_each(|(calls, room)| lists::frame(set.words_mut(), calls, room)))
    });
    (times, lists::told(calls.iter(), &answers))
}

// Copies a store to a place, and reads it twice there, so that the caches have what they hold of it.
fn lay(place: &mut SetBuf, set: &SetBuf) {
    place.words_mut().copy_from_slice(set.words());
    check(place, 2);
}

// Nanoseconds of a soundness check, of so many in a row: those of a `get` are nearly all the check's.
fn check(set: &SetBuf, row: usize) -> f64 {
    let time = nanos(|| {
        for _ in 0..row {
            assert_eq!(std::hint::black_box(set).get(X), Ok(false));
        }
    });
    time / row as f64
}

// Whether the store's chain is worn: a frame of a `get` then changes words, and else it changes none.
fn is_worn(set: &SetBuf) -> bool {
    let mut copy = set.clone();
    play(&mut copy, &[Call::Get(X)], 1);
    copy.words() != set.words()
}

// All stores of one capacity, and the runs of the grown one.
struct Bench {
    capacity: usize,
    runs: Vec<Run>,
    stores: Vec<SetBuf>,
    // Where a store is copied to be measured, so that all lie in the same memory.
    place: SetBuf,
    random: Random,
}

impl Bench {
    fn new(capacity: usize) -> Bench {
        let mut random = Random::new(capacity as u64);
        let runs = work::cells(capacity * 9 / 10, &mut random);
        let mut order = runs.clone();
        random.shuffle(&mut order);
        let new = SetBuf::with_capacity(capacity).expect("a capacity");
        let mut grown = new.clone();
        play(&mut grown, &sets(&order, true), 1_000);
        let mut built = new.clone();
        built.load(&reference::encode(Edition::Rows, &runs)).expect(DONE);
        random.shuffle(&mut order);
        let aged = |left: usize, length: usize| {
            let mut set = grown.clone();
            play(&mut set, &sets(&order[left..], false), length);
            set
        };
        let after = |set: &SetBuf| {
            let mut set = set.clone();
            play(&mut set, &[Call::Get(X)], 1);
            set
        };
        let [tenth, emptied, by_100] = [aged(capacity / 10, capacity), aged(0, capacity), aged(0, 100)];
        let [tidy_tenth, tidy_emptied] = [after(&tenth), after(&emptied)];
        let place = new.clone();
        let stores = vec![new, grown, built, tenth, tidy_tenth, emptied, tidy_emptied, by_100];
        Bench { capacity, runs, stores, place, random }
    }

    // Nanoseconds of a soundness check of each store, each in turn, from another one on in each repetition: of a row of checks, in which a small
    // store has more.
    fn checks(&mut self) -> Vec<f64> {
        let row = 131_072 / self.capacity;
        let mut times = vec![Vec::new(); self.stores.len()];
        for repetition in 0..REPETITIONS {
            for at in 0..self.stores.len() {
                let i = (repetition + at) % self.stores.len();
                lay(&mut self.place, &self.stores[i]);
                times[i].push(check(&self.place, row));
            }
        }
        times.into_iter().map(median).collect()
    }

    // Nanoseconds of a check, then of a frame of one call, then of a check again, each by itself.
    fn ordering(&mut self, store: usize) -> [f64; 3] {
        let set = &self.stores[store];
        let call = lists::record(&Call::Get(X));
        let mut times = [const { Vec::new() }; 3];
        for _ in 0..REPETITIONS {
            lay(&mut self.place, set);
            let mut answer = [0; RECORD];
            times[0].push(check(&self.place, 1));
            times[1].push(nanos(|| lists::frame(self.place.words_mut(), &call, &mut answer)));
            times[2].push(check(&self.place, 1));
            assert!(self.place.eq(set).expect(DONE), "a frame of a get changes positions");
        }
        times.map(median)
    }

    // Calls in blocks of ten, each of which leaves the set as it was: four sets and two flips that make three runs and take them away, and four
    // reports.
    fn calls(&mut self, count: usize) -> Vec<Call> {
        let mut calls = Vec::new();
        while calls.len() < count {
            let random = &mut self.random;
            let kinds = [Report::Get, Report::Find, Report::Tally, Report::Select];
            let [p, q, r, s] = kinds.map(|kind| work::report(kind, &self.runs, random));
            // Before a run lie more than two hundred free positions, whatever else is held.
            let at = random.below(self.runs.len() as u64 - 2) as usize;
            let [a, b, c] = [0, 1, 2].map(|i| {
                let first = self.runs[at + i][0] - 200;
                (first, first + random.below(50))
            });
            let set = |(first, last), value| Call::Set(first, last, value);
            let flip = Call::Flip(c.0, c.1);
            calls.extend([set(a, true), p, set(b, true), q, flip, r, set(a, false), s, set(b, false), flip]);
        }
        calls
    }

    // Nanoseconds of single calls, or of frames of so many, on copies of the stores: of the first, and of one of those that follow at once. Stores of
    // one set answer the same.
    fn played(&mut self, length: usize) -> Vec<[f64; 2]> {
        let following = match length {
            1 => 19,
            1_000 => 2,
            _ => 10,
        };
        let mut times = vec![[const { Vec::new() }; 2]; PLAYED.len()];
        for repetition in 0..REPETITIONS {
            let calls = self.calls((1 + following) * length);
            let mut answered: Vec<(Vec<u8>, Vec<Told>)> = Vec::new();
            for at in 0..PLAYED.len() {
                let i = (repetition + at) % PLAYED.len();
                let set = &self.stores[PLAYED[i]];
                let place = &mut self.place;
                lay(place, set);
                let (each, told) = if length == 1 { singly(place, &calls) } else { framed(place, &calls, length) };
                times[i][0].push(each[0]);
                times[i][1].push(each[1] / following as f64);
                assert!(place.eq(set).expect(DONE), "the calls do not leave the set as it was");
                let bytes = written(place);
                match answered.iter().find(|(held, _)| *held == bytes) {
                    Some((_, others)) => assert!(*others == told, "two stores of one set do not answer the same"),
                    None => answered.push((bytes, told)),
                }
            }
        }
        times.into_iter().map(|each| each.map(median)).collect()
    }

    // Nanoseconds of a check of a store, of its `write`, of making its words a new store and loading the set, and of a check after that; and of a check
    // where the set was loaded into the store as it was.
    fn anew(&mut self, store: usize) -> [f64; 5] {
        let mut times = [const { Vec::new() }; 5];
        let mut out = vec![0; 5 + 16 * self.capacity];
        let set = &self.stores[store];
        let place = &mut self.place;
        for _ in 0..REPETITIONS {
            lay(place, set);
            let mut length = 0;
            times[0].push(check(place, 1));
            times[1].push(nanos(|| length = place.write(Edition::Rows, &mut out).expect(DONE).len()));
            times[2].push(nanos(|| {
                Set::new(place.words_mut()).expect("a capacity");
                place.load(&out[..length]).expect(DONE);
            }));
            check(place, 2);
            times[3].push(check(place, 1));
            assert!(place.eq(set).expect(DONE), "another set was loaded");
            lay(place, set);
            place.load(&out[..length]).expect(DONE);
            check(place, 2);
            times[4].push(check(place, 1));
        }
        times.map(median)
    }
}

/// What was measured at one capacity.
struct Column {
    worn: Vec<bool>,
    checks: Vec<f64>,
    ordering: [[f64; 3]; 3],
    played: [Vec<[f64; 2]>; LENGTHS.len()],
    anew: [[f64; 5]; 3],
}

/// What was measured, by capacity.
pub struct Aged {
    columns: Vec<Column>,
}

/// Medians of nanoseconds.
pub fn measure(progress: &Progress) -> Aged {
    let column = |capacity: usize| {
        progress.tell(&format!("aged stores, capacity {capacity}: growing and ageing them"));
        let mut bench = Bench::new(capacity);
        let worn = bench.stores.iter().map(is_worn).collect();
        progress.tell("their checks");
        let checks = bench.checks();
        progress.tell("the frame that puts the chain in order");
        let ordering = ORDERED.map(|store| bench.ordering(store));
        let played = LENGTHS.map(|length| {
            progress.tell(&times_of(length));
            bench.played(length)
        });
        progress.tell("laying out anew");
        let anew = ANEW.map(|store| bench.anew(store));
        Column { worn, checks, ordering, played, anew }
    };
    Aged { columns: CAPACITIES.iter().map(|&capacity| column(capacity)).collect() }
}

/// The checks of all stores but the new one, over those of the new one, for the plot.
pub fn checks(aged: &Aged) -> Figures {
    let column = |c: &Column| c.checks[1..].iter().map(|&ours| Sides { ours, theirs: c.checks[NEW] }).collect();
    Figures { labels: &NAMES, columns: aged.columns.iter().map(column).collect() }
}

impl Aged {
    // A table with a row for each label and a column for each capacity; a cell is told its column and its row.
    fn table(&self, title: &str, labels: &[String], cell: impl Fn(&Column, usize) -> String) {
        let heads = CAPACITIES.map(|c| format!("C = {}", number(c as f64)));
        let row = |(row, label): (usize, &String)| {
            (label.clone(), self.columns.iter().map(|column| cell(column, row)).collect::<Vec<_>>())
        };
        let rows: Vec<(String, Vec<String>)> = labels.iter().enumerate().map(row).collect();
        headed(title, &heads, rows.iter().map(|(label, cells)| (label.as_str(), cells.clone())));
    }

    /// Prints what was measured.
    pub fn tell(&self) {
        let micros = |nanos: f64| number(nanos / 1e3);
        let stores = STORES.map(String::from);
        self.table("what a frame does to the chain", &stores, |c, row| {
            if c.worn[row] { "puts it in order".into() } else { "leaves it".into() }
        });
        self.table("a check / one of the new store", &stores, |c, row| number(c.checks[row] / c.checks[NEW]));
        self.table("µs a check", &stores, |c, row| micros(c.checks[row]));

        let some = ORDERED.map(|store| STORES[store].to_string());
        self.table("a frame of one call / the check before it", &some, |c, row| {
            number(c.ordering[row][1] / c.ordering[row][0])
        });
        self.table("µs a check, the frame of one call, a check", &some, |c, row| {
            c.ordering[row].map(micros).join(", ")
        });

        let each = LENGTHS.iter().flat_map(|&length| PLAYED.iter().map(move |&store| (STORES[store], length)));
        let played: Vec<String> = each.map(|(store, length)| format!("{store}, {}", times_of(length))).collect();
        let of = |c: &Column, row: usize| c.played[row / PLAYED.len()][row % PLAYED.len()];
        self.table("the first / one after it", &played, |c, row| {
            let [first, next] = of(c, row);
            number(first / next)
        });
        self.table("µs the first, one after it", &played, |c, row| of(c, row).map(micros).join(", "));

        let some = ANEW.map(|store| STORES[store].to_string());
        self.table("laid out anew: µs a check before, after", &some, |c, row| {
            format!("{}, {}", micros(c.anew[row][0]), micros(c.anew[row][3]))
        });
        self.table("laid out anew: µs the write, the new store and the load", &some, |c, row| {
            format!("{}, {}", micros(c.anew[row][1]), micros(c.anew[row][2]))
        });
        self.table("laid out anew: checks after which it has paid", &some, |c, row| {
            let [before, write, load, after, _] = c.anew[row];
            if before > after {
                commas(format!("{:.0}", ((write + load) / (before - after)).ceil()))
            } else {
                "never".into()
            }
        });
        self.table("loaded into the store as it was: µs a check after", &some, |c, row| micros(c.anew[row][4]));
    }
}

// What is made at once.
fn times_of(length: usize) -> String {
    if length == 1 { "single calls".into() } else { format!("frames of {}", commas(length.to_string())) }
}
