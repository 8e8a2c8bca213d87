//! The conformance pack: lists of calls as text, with the answers of the oracle, or, where it has no such call and no refusal, of
//! [`reference`](crate::differential::reference). The library answers nothing here. `conformance/README.md` describes the lists.

pub mod lists;
pub mod text;

use crate::differential::calls::{Call, Place, Told};
use crate::differential::chance::{self, Kind};
use crate::differential::expected::{Expected, Store};
use crate::differential::random::Random;
use crate::differential::records::{self, Record};
use crate::differential::reference::{Limit, Run};

/// How many stores a list has.
pub const STORES: usize = 4;

/// The most bytes of a line, its line feed included.
const LINE: usize = 4096;
/// The greatest capacity.
const CAPACITY: usize = 64;
/// The most worlds that a line may ask for: more than a pool may have.
const WORLDS: usize = 32;
/// The most bytes of a lent slice and of a written set: those of a full store.
const SLICE: usize = 5 + 16 * CAPACITY;
/// The most bytes of the slice for the report on a mended set: twice the runs of a written set.
const REPORT: usize = 2 * CAPACITY;
/// The most words of a lent slice: those of the runs of a full store, or of 25 pieces of a survey and three more.
const ROOM: usize = 2 * CAPACITY;
/// The most bounds of a list of ranges: those of 32.
const BOUNDS: usize = 64;
/// The most bytes of a map.
const MAP: usize = 1024;
/// The most calls of a frame, and answers that there is room for.
const CALLS: usize = 64;

// What a list's lines keep, beside the limits of every list.
struct Limits {
    capacity: usize,
    runs: usize,
    slice: usize,
    report: usize,
    room: usize,
    bounds: usize,
    map: usize,
}

const SMALL: Limits =
    Limits { capacity: CAPACITY, runs: CAPACITY, slice: SLICE, report: REPORT, room: ROOM, bounds: BOUNDS, map: MAP };

/// The most runs that a line of a large list tells: twice those of the largest pool.
const MOST_RUNS: usize = 2 * 65_536;

const LARGE: Limits = Limits {
    // One more than a pool may have.
    capacity: 65_537,
    runs: MOST_RUNS,
    slice: 5 + 16 * MOST_RUNS,
    report: 2 * MOST_RUNS,
    // Those of the largest survey, and ten more.
    room: 5 * (1 << 16) + 10,
    bounds: 2 * MOST_RUNS,
    map: 65_544,
};

/// Where a list stands.
#[derive(Clone, Copy, PartialEq)]
pub enum Shelf {
    /// In the pack's folder.
    Small,
    /// In its folder `large`, where long arguments are told by patterns, and long answers by digests.
    Large,
    /// In its folder `reserved`: what this version answers to numbers that a later one may give a meaning. No part of conformance.
    Reserved,
}

impl Shelf {
    /// The folder, in that of the pack.
    pub fn folder(self) -> &'static str {
        match self {
            Shelf::Small => "",
            Shelf::Large => "large",
            Shelf::Reserved => "reserved",
        }
    }

    fn limits(self) -> &'static Limits {
        if self == Shelf::Large { &LARGE } else { &SMALL }
    }
}

/// A list of calls, and their answers.
pub struct List {
    pub name: &'static str,
    pub shelf: Shelf,
    pub calls: String,
    pub answers: String,
    expected: Expected,
}

// Whether a call keeps the format's limits.
fn fits(call: &Call, limits: &Limits) -> bool {
    match call {
        Call::Lend { words, .. } => words.len() <= 8 * (limits.capacity + 49),
        Call::New { limits, .. } => limits.len() % 2 == 0 && limits.len() <= 2 * WORLDS,
        Call::Load { bytes, .. } => bytes.len() <= limits.slice,
        Call::Build { runs, .. } => runs.len() <= limits.runs,
        Call::ReadMap { map, .. } | Call::ClearMap { map, .. } => map.len() <= limits.map,
        Call::Convert { bytes, room } => bytes.len() <= limits.slice && *room <= limits.slice,
        Call::Mend { bytes, rooms: [room, report], .. } => {
            bytes.len() <= limits.slice && *room <= limits.slice && *report <= limits.report
        }
        Call::Write { room, .. } | Call::WriteMap { room, .. } => *room <= limits.slice,
        Call::Deepest { room, .. } | Call::Survey { room, .. } => *room <= limits.room,
        Call::WhyFull { ranges, room, .. } => {
            ranges.len() % 2 == 0 && ranges.len() <= 2 * limits.bounds && *room <= limits.room
        }
        Call::Frame { calls, room, .. } => {
            [calls.len(), *room].iter().all(|n| n % records::WORDS == 0 && n / records::WORDS <= CALLS)
        }
        _ => true,
    }
}

// A record without reserved numbers, of the same meaning: of what its call reads, a range with a bound of a reserved kind is an empty one, a truth is 0
// or 1, and a number above the last one is that of a get.
fn plain_record(mut record: Record) -> Record {
    let bounds = [2, 3, 6, 8, 10, 14, 15, 16, 17, 18];
    let truths = [2, 4, 6, 8, 10, 11, 12, 15, 16, 18, 19];
    if record[0] > records::LAST {
        record[0] = 0;
    }
    if bounds.contains(&record[0]) {
        let [_, range @ .., _, _, _] = &mut record;
        *range = records::named(*range);
    }
    if truths.contains(&record[0]) {
        record[5] = record[5].min(1);
    }
    record
}

// A call without reserved numbers, of the same meaning.
fn plain(call: &Call) -> Call {
    let mut call = call.clone();
    match &mut call {
        Call::Write { edition, .. } if *edition != 2 => *edition = 1,
        Call::WhyFull { ranges, .. } => {
            ranges.as_chunks_mut().0.iter_mut().for_each(|range| *range = records::named(*range))
        }
        Call::Frame { calls, .. } => {
            calls.as_chunks_mut().0.iter_mut().for_each(|record| *record = plain_record(*record));
        }
        _ => {}
    }
    call
}

// Whether a call by chance may go into a list: not if its answer is left open.
fn may_be(call: &Call) -> bool {
    fits(call, &SMALL) && !matches!(call, Call::Deepest { .. })
}

fn push(lines: &mut String, more: &str) {
    for line in more.lines() {
        assert!(line.len() < LINE, "a line of {} bytes", line.len());
        lines.push_str(line);
        lines.push('\n');
    }
}

impl List {
    fn new(name: &'static str) -> List {
        List::on(Shelf::Small, name)
    }

    fn on(shelf: Shelf, name: &'static str) -> List {
        let expected = Expected { stores: vec![Store::of(&[]); STORES] };
        List { name, shelf, calls: String::new(), answers: String::new(), expected }
    }

    // Adds a call, without reserved numbers but on their shelf.
    fn call(&mut self, call: &Call) -> Told {
        let call = if self.shelf == Shelf::Reserved { call.clone() } else { plain(call) };
        self.ask(&text::write(&call), &call)
    }

    // Adds a call as it is written there.
    fn ask(&mut self, written: &str, call: &Call) -> Told {
        assert!(self.shelf == Shelf::Reserved || plain(call) == *call, "reserved numbers: {written}");
        assert!(fits(call, self.shelf.limits()), "beyond the limits: {written}");
        let told = self.expected.answer(call);
        push(&mut self.calls, written);
        push(&mut self.answers, &text::keep(call, &told));
        told
    }

    // Adds calls, one in each line; a line that begins with # is left out.
    fn say(&mut self, lines: &str) {
        let lines = lines.lines().map(str::trim).filter(|line| !line.is_empty() && !line.starts_with('#'));
        let mut lines = lines.peekable();
        while let Some(&line) = lines.peek() {
            let call = text::read(&mut lines).unwrap_or_else(|| panic!("no call: {line}"));
            match call {
                Call::Frame { .. } => self.call(&call),
                // A pattern stays one.
                _ => self.ask(line, &call),
            };
        }
    }

    // Adds a call by chance, if it keeps the limits.
    fn chance(&mut self, random: &mut Random, kind: Kind, at: Place) {
        let call = chance::call(random, &self.expected.stores, kind, at);
        if may_be(&call) {
            self.call(&call);
        }
    }

    // Makes a pool of that capacity with a world for each of the limits.
    fn pool(&mut self, at: usize, capacity: usize, limits: &[Limit]) {
        self.call(&Call::Lend { at, words: crate::room(capacity) });
        self.call(&Call::New { to: at, limits: limits.as_flattened().to_vec() });
    }

    // Makes a pool of one world, which has the capacity to itself, with these runs.
    fn store(&mut self, at: usize, capacity: usize, runs: &[Run]) {
        self.pool(at, capacity, &[[0, capacity as u64]]);
        self.build(Place::first(at), runs);
    }

    fn build(&mut self, to: Place, runs: &[Run]) {
        self.call(&Call::Build { to, runs: runs.to_vec() });
    }

    // Adds what the readers of a written set make of bytes: load, and convert into a slice of as many.
    fn read(&mut self, to: Place, bytes: Vec<u8>) {
        self.call(&Call::Load { to, bytes: bytes.clone() });
        self.call(&Call::Convert { room: bytes.len(), bytes });
    }

    // Adds the writing of a world's set in edition 1, just as long as is due.
    fn show(&mut self, at: Place) {
        let room = 5 + 16 * self.expected.stores[at.store].runs(at.world).len();
        self.call(&Call::Write { at, edition: 1, room });
    }

    // The same of every world of a store.
    fn show_all(&mut self, store: usize) {
        for world in 0..self.expected.stores[store].opened() {
            self.show(Place { store, world });
        }
    }
}
