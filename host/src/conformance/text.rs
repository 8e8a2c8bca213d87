//! Calls and answers as the lines of a list: `conformance/README.md` has the format.

use std::ops::Bound;
use std::str::{FromStr, Split};

use crate::differential::calls::{Call, Place, Range, SPARE, Told};
use crate::differential::records::{self, Record};
use crate::differential::reference::{self, Run};
use crate::{Edition, Listing, Operation, Rect, Tally};

struct Words<'a>(Split<'a, char>);

impl<'a> Words<'a> {
    fn word(&mut self) -> Option<&'a str> {
        self.0.next()
    }

    fn number<T: FromStr>(&mut self) -> Option<T> {
        self.word()?.parse().ok()
    }

    fn place(&mut self) -> Option<Place> {
        let (store, world) = self.word()?.split_once('/')?;
        Some(Place { store: store.parse().ok()?, world: world.parse().ok()? })
    }

    // Pairs of numbers after how many there are.
    fn pairs(&mut self) -> Option<Vec<[u64; 2]>> {
        let word = self.word()?;
        self.pairs_after(word)
    }

    fn pairs_after(&mut self, count: &str) -> Option<Vec<[u64; 2]>> {
        let count: usize = count.parse().ok()?;
        (0..count).map(|_| Some([self.number()?, self.number()?])).collect()
    }

    // The same of runs, or a pattern of them.
    fn runs(&mut self) -> Option<Vec<Run>> {
        let word = self.word()?;
        match word.strip_prefix('*') {
            Some(pattern) => runs_by(pattern),
            None => self.pairs_after(word),
        }
    }

    // The same of bounds, each its kind and its value, or a pattern of ranges, whose bounds include their values.
    fn bounds(&mut self) -> Option<Vec<[u64; 2]>> {
        let word = self.word()?;
        match word.strip_prefix('*') {
            Some(pattern) => Some(runs_by(pattern)?.into_iter().flatten().map(|end| [1, end]).collect()),
            None => self.pairs_after(word),
        }
    }

    fn truth(&mut self) -> Option<bool> {
        Some(self.number::<u64>()? == 1)
    }

    fn bound(&mut self) -> Option<Bound<u64>> {
        match self.word()?.split_at_checked(1)? {
            ("i", x) => Some(Bound::Included(x.parse().ok()?)),
            ("e", x) => Some(Bound::Excluded(x.parse().ok()?)),
            ("u", "") => Some(Bound::Unbounded),
            _ => None,
        }
    }

    fn range(&mut self) -> Option<Range> {
        Some((self.bound()?, self.bound()?))
    }

    fn rect(&mut self) -> Option<Rect> {
        let mut corner = || Some((self.number()?, self.number()?));
        Some(Rect::new(corner()?, corner()?))
    }

    fn bytes(&mut self) -> Option<Vec<u8>> {
        let parts: Vec<Vec<u8>> = self.word()?.split('+').map(bytes_by).collect::<Option<_>>()?;
        Some(parts.concat())
    }

    fn record(&mut self) -> Option<Record> {
        self.word().filter(|&name| name == "record")?;
        let mut record = [0; records::WORDS];
        for word in &mut record {
            *word = self.number()?;
        }
        self.word().is_none().then_some(record)
    }

    fn operation(&mut self) -> Option<Operation> {
        let word = self.word()?;
        OPERATIONS.iter().find(|(name, _)| *name == word).map(|&(_, op)| op)
    }
}

// Numbers with colons between.
fn numbers<const N: usize>(word: &str) -> Option<[u64; N]> {
    let all: Vec<u64> = word.split(':').map(|x| x.parse().ok()).collect::<Option<_>>()?;
    all.try_into().ok()
}

// Runs by their pattern, part by part.
pub(super) fn runs_by(pattern: &str) -> Option<Vec<Run>> {
    let mut runs = Vec::new();
    for part in pattern.split(',') {
        let [start, step, length, count, turn] = numbers(part)?;
        for i in 0..count {
            let place = u128::from(i) * u128::from(turn) % u128::from(count);
            let first = start.wrapping_add(step.wrapping_mul(place as u64));
            runs.push([first, first.wrapping_add(length).wrapping_sub(1)]);
        }
    }
    Some(runs)
}

// A part of some bytes: digits, or a pattern.
fn bytes_by(part: &str) -> Option<Vec<u8>> {
    let Some((kind, rest)) = part.split_once('=') else {
        let digits = if part == "-" { "" } else { part };
        let bytes = 0..digits.len().div_ceil(2);
        return bytes.map(|i| u8::from_str_radix(digits.get(2 * i..2 * i + 2)?, 16).ok()).collect();
    };
    match kind {
        "rows" => Some(reference::encode(Edition::Rows, &runs_by(rest)?)),
        "columns" => Some(reference::encode(Edition::Columns, &runs_by(rest)?)),
        "same" => {
            let [byte, count] = numbers(rest)?;
            Some(vec![byte.try_into().ok()?; count as usize])
        }
        "random" => {
            let [mut state, count] = numbers(rest)?;
            let mut next = || {
                state ^= state << 13;
                state ^= state >> 7;
                state ^= state << 17;
                state as u8
            };
            Some((0..count).map(|_| next()).collect())
        }
        _ => None,
    }
}

const OPERATIONS: [(&str, Operation); 3] = [("and", Operation::And), ("or", Operation::Or), ("xor", Operation::Xor)];

/// The call of the next line, and, of a frame, of the lines of its records after it; none where they are not one.
pub fn read<'a>(lines: &mut impl Iterator<Item = &'a str>) -> Option<Call> {
    let mut w = Words(lines.next()?.split(' '));
    let call = match w.word()? {
        "clear_map" => Call::ClearMap { base: w.number()?, n: w.number()?, map: w.bytes()? },
        "convert" => Call::Convert { bytes: w.bytes()?, room: w.number()? },
        "words" => Call::Lend { at: w.number()?, words: crate::room(w.number()?) },
        "spoil" => Call::Poke { at: w.number()?, word: SPARE, value: 1 },
        "new" => Call::New { to: w.number()?, limits: w.pairs()?.into_flattened() },
        "deepest" => Call::Deepest { at: w.number()?, height: w.number()?, room: w.number()? },
        "why_full" => {
            let (at, room) = (w.number()?, w.number()?);
            Call::WhyFull { at, ranges: w.bounds()?.into_flattened(), room }
        }
        "frame" => {
            let (at, count, room): (usize, usize, usize) = (w.number()?, w.number()?, w.number()?);
            let asked: Vec<Record> =
                lines.take(count).map(|line| Words(line.split(' ')).record()).collect::<Option<_>>()?;
            (asked.len() == count).then_some(())?;
            Call::Frame { at, calls: asked.into_flattened(), room: records::WORDS * room }
        }
        name => at_world(name, w.place()?, &mut w)?,
    };
    w.word().is_none().then_some(call)
}

// The call that a name means at a world, by the words that follow.
fn at_world(name: &str, at: Place, w: &mut Words) -> Option<Call> {
    Some(match name {
        "set" => Call::Set { at, range: w.range()?, value: w.truth()? },
        "flip" => Call::Flip { at, range: w.range()? },
        "get" => Call::Get { at, x: w.number()? },
        "run_at" => Call::RunAt { at, x: w.number()? },
        "find" => Call::Find { at, range: w.range()?, value: w.truth()? },
        "tally" => Call::Tally { at, range: w.range()?, value: w.truth()? },
        "set_strict" => Call::SetStrict { at, range: w.range()?, value: w.truth()? },
        "flip_strict" => Call::FlipStrict { at, range: w.range()? },
        "tally_strict" => Call::TallyStrict { at, range: w.range()?, value: w.truth()? },
        "select" => Call::Select { at, range: w.range()?, value: w.truth()?, k: w.number()? },
        "gap" => Call::Gap { at, range: w.range()?, n: w.number()? },
        "ranges" => Call::Ranges { at, range: w.range()?, value: w.truth()?, backs: 0 },
        "draw_front" | "draw_back" => {
            let listing = Listing { first: w.number()?, last: w.number()?, value: w.truth()? };
            Call::Draw { at, listing, back: name == "draw_back" }
        }
        "shift" => Call::Shift { at, distance: w.number()?, left: w.truth()? },
        "shifted" => Call::Shifted { to: at, a: w.place()?, distance: w.number()?, left: w.truth()? },
        "combine" => Call::Combine { to: at, op: w.operation()?, a: w.place()?, b: w.place()? },
        "not" => Call::Not { to: at, a: w.place()? },
        "eq" => Call::Equal { a: at, b: w.place()? },
        "load" => Call::Load { to: at, bytes: w.bytes()? },
        "mend" => Call::Mend { to: at, bytes: w.bytes()?, rooms: [w.number()?, w.number()?] },
        "build" => Call::Build { to: at, runs: w.runs()? },
        "write_set" => Call::Write { at, edition: w.number()?, room: w.number()? },
        "read_map" => Call::ReadMap { at, base: w.number()?, n: w.number()?, map: w.bytes()? },
        "write_map" => Call::WriteMap { at, base: w.number()?, n: w.number()?, room: w.number()? },
        "fill" => Call::Fill { at, base: w.number()?, n: w.number()? },
        "set_rect" => Call::SetRect { at, rect: w.rect()?, value: w.truth()? },
        "count_rect" => Call::CountRect { at, rect: w.rect()? },
        "survey" => Call::Survey { at, row: w.number()?, column: w.number()?, k: w.number()?, room: w.number()? },
        _ => return None,
    })
}

fn bound(b: Bound<u64>) -> String {
    match b {
        Bound::Included(x) => format!("i{x}"),
        Bound::Excluded(x) => format!("e{x}"),
        Bound::Unbounded => "u".to_string(),
    }
}

fn range((lower, upper): Range) -> String {
    format!("{} {}", bound(lower), bound(upper))
}

/// The most bytes, and the most words, that an answer tells in full: those of the lists whose lines a small reader takes.
const IN_FULL: [usize; 2] = [super::SLICE, super::ROOM];

// How many of them there are, and their digest: FNV-1a of 64 bits over bytes.
fn digest(count: usize, bytes: impl Iterator<Item = u8>) -> String {
    let turned = |state: u64, byte| (state ^ u64::from(byte)).wrapping_mul(0x0100_0000_01B3);
    format!("#{count}:{:016x}", bytes.fold(0xCBF2_9CE4_8422_2325, turned))
}

// Bytes as they are told.
fn told_bytes(bytes: &[u8]) -> String {
    if bytes.len() <= IN_FULL[0] { digits(bytes) } else { digest(bytes.len(), bytes.iter().copied()) }
}

// Words as they are told, each after a space, or their digest.
fn told_words(all: &[u64], in_full: bool) -> String {
    if in_full || all.len() <= IN_FULL[1] {
        return words(all);
    }
    format!(" {}", digest(all.len(), all.iter().flat_map(|word| word.to_be_bytes())))
}

/// Bytes as digits.
pub fn digits(bytes: &[u8]) -> String {
    if bytes.is_empty() { "-".to_string() } else { bytes.iter().map(|b| format!("{b:02x}")).collect() }
}

fn listing(l: Listing) -> String {
    format!("{} {} {}", l.first, l.last, u8::from(l.value))
}

fn of_range(name: &str, at: Place, r: Range, value: bool) -> String {
    format!("{name} {at} {} {}", range(r), u8::from(value))
}

// Both corners, each its row and its column.
fn corners(Rect { top, left, bottom, right }: Rect) -> String {
    format!("{top} {left} {bottom} {right}")
}

// Pairs of numbers after how many there are.
fn pairs(all: &[[u64; 2]]) -> String {
    format!("{}{}", all.len(), words(all.as_flattened()))
}

// Words, each after a space.
fn words(all: &[u64]) -> String {
    all.iter().map(|w| format!(" {w}")).collect()
}

// The line of a record, after the line before it.
fn record(record: &Record) -> String {
    format!("\nrecord{}", words(record))
}

/// The line of a call; a frame has one more for each record.
pub fn write(call: &Call) -> String {
    match *call {
        Call::Lend { at, ref words } => format!("words {at} {}", words.len() / 8 - 49),
        Call::Poke { at, .. } => format!("spoil {at}"),
        Call::New { to, ref limits } => format!("new {to} {}", pairs(limits.as_chunks().0)),
        Call::Set { at, range, value } => of_range("set", at, range, value),
        Call::Flip { at, range: r } => format!("flip {at} {}", range(r)),
        Call::Get { at, x } => format!("get {at} {x}"),
        Call::RunAt { at, x } => format!("run_at {at} {x}"),
        Call::Find { at, range, value } => of_range("find", at, range, value),
        Call::Tally { at, range, value } => of_range("tally", at, range, value),
        Call::SetStrict { at, range, value } => of_range("set_strict", at, range, value),
        Call::FlipStrict { at, range: r } => format!("flip_strict {at} {}", range(r)),
        Call::TallyStrict { at, range, value } => of_range("tally_strict", at, range, value),
        Call::Select { at, range, value, k } => format!("{} {k}", of_range("select", at, range, value)),
        Call::Gap { at, range: r, n } => format!("gap {at} {} {n}", range(r)),
        Call::Ranges { at, range, value, .. } => of_range("ranges", at, range, value),
        Call::Draw { at, listing: l, back } => {
            format!("draw_{} {at} {}", if back { "back" } else { "front" }, listing(l))
        }
        Call::Shift { at, distance, left } => format!("shift {at} {distance} {}", u8::from(left)),
        Call::Shifted { to, a, distance, left } => format!("shifted {to} {a} {distance} {}", u8::from(left)),
        Call::Combine { to, op, a, b } => format!("combine {to} {} {a} {b}", OPERATIONS[op as usize].0),
        Call::Not { to, a } => format!("not {to} {a}"),
        Call::Equal { a, b } => format!("eq {a} {b}"),
        Call::Load { to, ref bytes } => format!("load {to} {}", digits(bytes)),
        Call::Mend { to, ref bytes, rooms: [room, report] } => {
            format!("mend {to} {} {room} {report}", digits(bytes))
        }
        Call::Build { to, ref runs } => format!("build {to} {}", pairs(runs)),
        Call::Convert { ref bytes, room } => format!("convert {} {room}", digits(bytes)),
        Call::Deepest { at, height, room } => format!("deepest {at} {height} {room}"),
        Call::WhyFull { at, ref ranges, room } => format!("why_full {at} {room} {}", pairs(ranges.as_chunks().0)),
        Call::Write { at, edition, room } => format!("write_set {at} {edition} {room}"),
        Call::ReadMap { at, base, n, ref map } => format!("read_map {at} {base} {n} {}", digits(map)),
        Call::ClearMap { base, n, ref map } => format!("clear_map {base} {n} {}", digits(map)),
        Call::WriteMap { at, base, n, room } => format!("write_map {at} {base} {n} {room}"),
        Call::Fill { at, base, n } => format!("fill {at} {base} {n}"),
        Call::SetRect { at, rect, value } => format!("set_rect {at} {} {}", corners(rect), u8::from(value)),
        Call::CountRect { at, rect } => format!("count_rect {at} {}", corners(rect)),
        Call::Survey { at, row, column, k, room } => format!("survey {at} {row} {column} {k} {room}"),
        Call::Frame { at, ref calls, room } => {
            let asked: String = calls.as_chunks().0.iter().map(record).collect();
            format!("frame {at} {} {}{asked}", calls.len() / records::WORDS, room / records::WORDS)
        }
    }
}

/// The line of the answer to a call as the pack keeps it: of a list for a height, too, only the digest where it is long.
pub fn keep(call: &Call, told: &Told) -> String {
    match told {
        Told::Words(filled, all) => format!("worded {filled}{}", told_words(all, false)),
        told => tell(call, told),
    }
}

/// The line of the answer to a call; a frame has one more for each record. Bytes and words are told in full where they are few, and so is a list for
/// a height, as any shortest one will do.
pub fn tell(call: &Call, told: &Told) -> String {
    let due = if let Call::Frame { calls, .. } = call { calls.len() / records::WORDS } else { 0 };
    match told {
        Told::Answers(all, _) => format!("done{}", all.iter().map(record).collect::<String>()),
        Told::Refused(r) => format!("refused {}{}", r.number(), "\n-".repeat(due)),
        Told::Done => "done".to_string(),
        Told::Count(n) => format!("number {n}"),
        Told::Tally(Tally { positions, runs }) => format!("number {positions} {runs}"),
        Told::Number(n) => format!("number {n}"),
        Told::Value(v) => format!("value {}", u8::from(*v)),
        Told::Run(run) => format!("run {} {}", run.start(), run.end()),
        Told::Position(Some(x)) => format!("at {x}"),
        Told::Position(None) => "none".to_string(),
        Told::Drawn(Some(run), left) => format!("drawn {} {} {}", run.start(), run.end(), listing(*left)),
        Told::Drawn(None, left) => format!("end {}", listing(*left)),
        Told::Draws(made, _) => format!("listing {}", listing(*made)),
        Told::Slice(filled, bytes) => format!("written {filled} {}", told_bytes(bytes)),
        Told::Slices([(filled, bytes), (told, report)]) => {
            format!("written {filled} {} {told} {}", told_bytes(bytes), told_bytes(report))
        }
        Told::Words(filled, all) => {
            format!("worded {filled}{}", told_words(all, matches!(call, Call::Deepest { .. })))
        }
        Told::Cleared(count, bytes) => format!("cleared {count} {}", told_bytes(bytes)),
        Told::RefusedAndChanged(r) => format!("changed something, and refused {}", r.number()),
        Told::FormsDiffer(told) => format!("by words and by single bytes: {told:?}"),
    }
}
