//! Calls by chance: of every kind, on positions where something is likely to go wrong.

use std::ops::Bound;

use super::calls::{Call, Place, Range, ends_of};
use super::expected::{Expected, Store};
use super::random::Random;
use super::records::{self, Record};
use super::reference::{self, Limit, Run, WORLDS};
use super::{EDITIONS, HALF, Plan};
use crate::{HEIGHT, Listing, Operation, Piece, Rect, SIDE};

/// The kinds of calls.
#[derive(Clone, Copy, Debug, PartialEq)]
pub enum Kind {
    New,
    /// A build of no runs, which empties a world.
    Empty,
    Set,
    Flip,
    Shift,
    Get,
    RunAt,
    Find,
    Tally,
    SetStrict,
    FlipStrict,
    TallyStrict,
    Select,
    Gap,
    Ranges,
    Draw,
    Fill,
    SetRect,
    CountRect,
    Survey,
    Combine,
    Not,
    Shifted,
    Equal,
    Load,
    Mend,
    Build,
    ReadMap,
    ClearMap,
    Convert,
    Deepest,
    WhyFull,
    Write,
    WriteMap,
}

/// Every kind but [`Kind::Empty`], which is a build.
pub const KINDS: [Kind; 33] = [
    Kind::Get,
    Kind::RunAt,
    Kind::Find,
    Kind::Tally,
    Kind::TallyStrict,
    Kind::Select,
    Kind::Gap,
    Kind::Ranges,
    Kind::Draw,
    Kind::Fill,
    Kind::CountRect,
    Kind::Survey,
    Kind::Equal,
    Kind::Write,
    Kind::WriteMap,
    Kind::ClearMap,
    Kind::Convert,
    Kind::Deepest,
    Kind::WhyFull,
    Kind::Combine,
    Kind::Not,
    Kind::Shifted,
    Kind::Load,
    Kind::Mend,
    Kind::Build,
    Kind::Set,
    Kind::Flip,
    Kind::SetStrict,
    Kind::FlipStrict,
    Kind::SetRect,
    Kind::Shift,
    Kind::ReadMap,
    Kind::New,
];

/// A position: near 0, near 2^63, near M, near the end of a run, or anywhere.
pub fn position(random: &mut Random, runs: &[Run]) -> u64 {
    let near = random.below(5).wrapping_sub(2);
    match random.below(8) {
        0 => random.below(12),
        1 => HALF.wrapping_add(near),
        2 => u64::MAX - random.below(12),
        3 => random.below(1000),
        4 => random.number(),
        _ if runs.is_empty() => random.below(100),
        _ => random.one_of(runs)[random.below(2) as usize].wrapping_add(near),
    }
}

fn bound(random: &mut Random, x: u64) -> Bound<u64> {
    match random.below(8) {
        0 => Bound::Unbounded,
        1..=3 => Bound::Excluded(x),
        _ => Bound::Included(x),
    }
}

/// A range with bounds of every kind, often a short one, now and then a reversed one.
pub fn range(random: &mut Random, runs: &[Run]) -> Range {
    let x = position(random, runs);
    if random.once_in(3) {
        // Short, so that runs can be many.
        let y = x.saturating_add(random.below(6));
        return (Bound::Included(x), Bound::Included(y));
    }
    let y = position(random, runs);
    let (x, y) = if random.once_in(8) { (x, y) } else { (x.min(y), x.max(y)) };
    (bound(random, x), bound(random, y))
}

// A range for a strict call: often one whose bounds meet or just miss each other, at any position, so that it is empty, reversed, or has one or
// two positions.
fn strict_range(random: &mut Random, runs: &[Run]) -> Range {
    if random.truth() {
        return range(random, runs);
    }
    let x = position(random, runs);
    let y = x.wrapping_add(random.below(5)).wrapping_sub(2);
    (bound(random, x), bound(random, y))
}

// A distance: often one that moves a run's end to an end of the positions, or just past it.
fn distance(random: &mut Random, runs: &[Run]) -> u64 {
    let x = position(random, runs);
    if random.truth() { x } else { u64::MAX - x }
}

// How long a window is; now and then none.
fn window(random: &mut Random) -> u64 {
    match random.below(400) {
        0 => random.one_of(&[524_287, 524_288]),
        1..=6 => random.one_of(&[0, 524_289, u64::MAX]),
        7..=20 => 1 + random.below(2000),
        _ => 1 + random.below(80),
    }
}

// A map of which most bytes are all held or all free, so that its runs are few: a long one has no others.
fn map(random: &mut Random, n: u64) -> Vec<u8> {
    let due = n.min(600_000).div_ceil(8);
    let length = if random.once_in(24) { due + random.below(3) } else { due };
    let mut map = Vec::new();
    let mut byte = 0;
    for _ in 0..length {
        if random.once_in(6.max(due / 16)) {
            let any = random.number() as u8;
            byte = if due > 300 { random.one_of(&[0, 0xFF]) } else { random.one_of(&[0, 0xFF, 0x0F, any]) };
        }
        map.push(byte);
    }
    // Spare bits are mostly 0, as they have to be, or else all or some are one.
    if due == length && !n.is_multiple_of(8) && due > 0 {
        let spare = 0xFF << (n % 8);
        let any = random.number() as u8;
        map[due as usize - 1] &= !spare;
        map[due as usize - 1] |= spare & random.one_of(&[0, 0, 0, 0, 0xFF, 0x80, any]);
    }
    map
}

// A run list: one of a store's, or one by chance, in order or not.
fn run_list(random: &mut Random, runs: &[Run]) -> Vec<Run> {
    let mut list = runs.to_vec();
    match random.below(8) {
        0..=2 => return list,
        3 => list.push([position(random, runs), position(random, runs)]),
        4 => {
            list.pop();
        }
        _ => {
            list.clear();
            let mut x = position(random, runs);
            for _ in 0..random.below(8) {
                let y = x.saturating_add(random.below(5));
                list.push([x, y]);
                x = y.saturating_add(1 + random.below(40));
            }
        }
    }
    if random.once_in(8) && !list.is_empty() {
        let i = random.below(list.len() as u64) as usize;
        list[i][random.below(2) as usize] = position(random, runs);
    }
    list
}

/// Runs in any order, those given among them: some more than once, some beside others or over them, some whose start is above their end.
pub fn jumble(random: &mut Random, runs: &[Run], more: u64) -> Vec<Run> {
    let mut list = runs.to_vec();
    for _ in 0..random.below(more + 1) {
        let any = [position(random, runs), position(random, runs)];
        let [start, end] = if list.is_empty() { any } else { random.one_of(&list) };
        let some = random.below(4);
        list.push(match random.below(8) {
            0 => [start, end],
            1 => [end.saturating_add(1), end.saturating_add(1 + some)],
            2 => [start.saturating_sub(1 + some), start.saturating_sub(1)],
            3 => [end.saturating_add(2), end.saturating_add(2 + some)],
            4 => [start.saturating_add(some), end.saturating_add(some)],
            5 => [end, start],
            6 => [any[0], any[0].saturating_add(some)],
            _ => any,
        });
    }
    match random.below(4) {
        0 => {}
        1 => list.sort_unstable_by(|a, b| b.cmp(a)),
        _ => random.shuffle(&mut list),
    }
    list
}

/// Mends a list of runs, or bytes that are no written set, with slices of all that is due and mostly more.
pub fn mend(random: &mut Random, to: Place, runs: &[Run]) -> Call {
    let bytes = written(random, runs);
    let outcome = 5 + 16 * reference::united(runs).len();
    let rooms = [outcome, runs.len()].map(|due| slice_room(random, due));
    Call::Mend { to, bytes, rooms }
}

/// Changes bytes here and there, or how many there are.
pub fn spoil(random: &mut Random, bytes: &mut Vec<u8>) {
    match random.below(4) {
        0 => bytes.truncate(random.below(bytes.len() as u64 + 1) as usize),
        1 => bytes.extend(vec![random.number() as u8; 1 + random.below(17) as usize]),
        _ if bytes.is_empty() => {}
        _ => {
            let i = random.below(bytes.len() as u64) as usize;
            let any = random.number() as u8;
            bytes[i] = random.one_of(&[0, 1, 2, 0xFF, bytes[i] ^ 1, any]);
        }
    }
}

/// Runs as a written set of either edition; now and then spoiled.
pub fn written(random: &mut Random, runs: &[Run]) -> Vec<u8> {
    let mut bytes = reference::encode(random.one_of(&EDITIONS), runs);
    if random.once_in(4) {
        spoil(random, &mut bytes);
    }
    bytes
}

// The number of an edition: now and then one that names none.
fn edition(random: &mut Random) -> u64 {
    if random.once_in(8) { random.one_of(&[0, 3, 258, 1 << 32, HALF + 2, u64::MAX]) } else { 1 + random.below(2) }
}

// How long an output slice is: mostly long enough.
fn slice_room(random: &mut Random, due: usize) -> usize {
    if random.once_in(8) { random.below(due as u64 + 2) as usize } else { due + random.below(4) as usize }
}

// How high a tree is to be: often one higher than the capacity allows, and now and then as no tree is.
fn height(random: &mut Random, capacity: usize) -> u64 {
    let most = (1..=HEIGHT as u32).take_while(|&height| reference::least(height)[0] <= capacity as u64).count() as u64;
    match random.below(6) {
        0 => random.one_of(&[0, HEIGHT + 1, HEIGHT + 2, 1 << 32 | 3, HALF + 1, u64::MAX]),
        1 => most + 1,
        2 => 1 + random.below(HEIGHT),
        _ => 1 + random.below(most),
    }
}

/// Asks for the list for a height, with room for all of it, for a word less, or for more.
pub fn deepest(random: &mut Random, store: &Store, at: usize) -> Call {
    let capacity = store.capacity().unwrap_or(1);
    let height = height(random, capacity);
    // No more than a list that is not refused can have.
    let due = 2 * capacity.min(reference::least(height.min(HEIGHT) as u32)[0] as usize);
    let room = if random.once_in(4) { due.saturating_sub(1) } else { slice_room(random, due) };
    Call::Deepest { at, height, room }
}

/// The four words of a range with these ends. A bound may exclude the position beside it, or, at the ends of all positions, be none, with any
/// value. Where the end is one below the start the range is empty, and further below reversed; either of its bounds may be of any kind but 1, 2
/// and 3 then.
pub fn spelled(random: &mut Random, [start, end]: Run) -> [u64; 4] {
    let reserved = [random.one_of(&[0, 0, 4, 1 << 32 | 1, HALF + 2, u64::MAX]), random.number()];
    let none = [3, reserved[1]];
    let lower = match random.below(3) {
        0 if start > 0 => [2, start - 1],
        0 => none,
        1 if start > end => reserved,
        _ => [1, start],
    };
    let upper = match random.below(3) {
        0 if end < u64::MAX => [2, end + 1],
        0 => none,
        1 if start > end => reserved,
        _ => [1, end],
    };
    [lower[0], lower[1], upper[0], upper[1]]
}

/// Ranges of a list, up to so many: most of them short, in as narrow a place that they come to have about as many runs as the capacity; some
/// that join many, some that were there before, and some that hold nothing.
pub fn spawns(random: &mut Random, capacity: u64, most: u64) -> Vec<Run> {
    let width = 4 + 3 * capacity + random.below(9 * capacity);
    let from = random.one_of(&[0, HALF - width / 2, u64::MAX - width - 2]);
    let count =
        if random.once_in(4) { random.below(capacity + 2) } else { capacity + 1 + random.below(2 * capacity + 3) };
    let mut list: Vec<Run> = Vec::new();
    for _ in 0..count.min(most) {
        let x = from + random.below(width);
        list.push(match random.below(16) {
            0 if random.once_in(1 + capacity / 4) => [x, x + random.below(from + width - x)],
            1 => [x + 1 + random.below(2), x],
            2 if !list.is_empty() => random.one_of(&list),
            _ => [x, x + random.below(2)],
        });
    }
    list
}

/// Asks why a list of up to 30 ranges is refused, with room for all places, for one less, or for more; now and then with words after the last
/// range.
pub fn why_full(random: &mut Random, store: &Store, at: usize) -> Call {
    let capacity = store.capacity().unwrap_or(1);
    let list = spawns(random, capacity.min(30) as u64, 30);
    let mut ranges: Vec<u64> = list.into_iter().flat_map(|run| spelled(random, run)).collect();
    if random.once_in(4) {
        let more = random.below(4);
        ranges.extend((0..more).map(|_| 1 + random.below(3)));
    }
    // No more than a list that is refused can have.
    let due = capacity.min(30) + 1;
    let room = if random.once_in(4) { due - 1 } else { slice_room(random, due) };
    Call::WhyFull { at, ranges, room }
}

// A cell: at a corner or an edge of the plane, at a run's end or beside it, or anywhere.
fn cell(random: &mut Random, runs: &[Run]) -> [u64; 2] {
    let last = SIDE - 1;
    let held: Vec<Run> = runs.iter().copied().filter(|run| run[1] < SIDE * SIDE).collect();
    match random.below(6) {
        0 => [0; 2].map(|_| random.one_of(&[0, 1, last - 1, last])),
        1 => [random.below(8), random.one_of(&[0, 1, 2, last - 1, last])],
        2 => [random.below(SIDE), random.below(SIDE)],
        _ if held.is_empty() => [random.below(8), random.below(8)],
        _ => {
            let x = random.one_of(&held)[random.below(2) as usize];
            [x / SIDE, x % SIDE].map(|n| (n + random.below(3)).saturating_sub(1).min(last))
        }
    }
}

// What a number of a corner may be instead, so that it is above 65,535.
fn off_plane(random: &mut Random, n: u64) -> u64 {
    random.one_of(&[SIDE, SIDE + n, 1 << 32 | n, HALF, u64::MAX - n, u64::MAX])
}

/// A rectangle: mostly a few rows and columns, now and then of full width or one column less, seldom of all rows; and now and then none of the
/// plane.
pub fn rect(random: &mut Random, runs: &[Run]) -> Rect {
    let last = SIDE - 1;
    let [top, left] = cell(random, runs);
    let rows = match random.below(2000) {
        0 => SIDE,
        1..=20 => random.below(400),
        21..=500 => 0,
        _ => random.below(6),
    };
    let (left, right) = match random.below(12) {
        0 => (0, last),
        1 => random.one_of(&[(0, last - 1), (1, last), (left, last), (0, left)]),
        2 => (left, left),
        _ => (left, (left + random.below(7)).min(last)),
    };
    let mut rect = Rect::new((top, left), ((top + rows).min(last), right));
    if random.once_in(10) {
        match random.below(6) {
            0 => rect.top = off_plane(random, rect.top),
            1 => rect.left = off_plane(random, rect.left),
            2 => rect.bottom = off_plane(random, rect.bottom),
            3 => rect.right = off_plane(random, rect.right),
            // Beyond the other corner by one row or column, where there is one.
            4 => (rect.top, rect.bottom) = (rect.bottom.max(rect.top + 1), rect.top),
            _ => (rect.left, rect.right) = (rect.right.max(rect.left + 1), rect.left),
        }
    }
    rect
}

// A survey of cells, with room for all of its pieces, for a word less, or for more. A large square comes up seldom, and so does one that is not
// wholly on the plane.
fn survey(random: &mut Random, runs: &[Run], at: Place) -> Call {
    let k = match random.below(60) {
        0 => 5 + random.below(4),
        1..=3 => random.one_of(&[9, 10, 16, 63, 64, 1 << 32, HALF | 3, u64::MAX]),
        _ => random.below(5),
    };
    let side = 1 << k.min(8);
    let [row, column] = cell(random, runs).map(|n| n.saturating_sub(random.below(side)));
    let [mut row, mut column] = [row, column].map(|n| if random.truth() { n / side * side } else { n });
    if random.once_in(10) {
        let over = SIDE - side + 1;
        let (some, off) = (random.below(side), off_plane(random, row));
        let beyond = random.one_of(&[over, over + some, SIDE, off]);
        *if random.truth() { &mut row } else { &mut column } = beyond;
    } else {
        [row, column] = [row, column].map(|n| n.min(SIDE - side));
    }
    let held = |x: u64| runs[..runs.partition_point(|run| run[0] <= x)].last().is_some_and(|run| x <= run[1]);
    let due = match reference::is_square(row, column, k) {
        true => reference::survey(row, column, k, held).len(),
        false => Piece::WORDS,
    };
    let room = if random.once_in(4) { due.saturating_sub(1) } else { slice_room(random, due) };
    Call::Survey { at, row, column, k, room }
}

/// A world of a store: mostly one that is opened.
pub fn place(random: &mut Random, stores: &[Store], store: usize) -> Place {
    let opened = stores[store].opened();
    let none = [opened, opened + 1, WORLDS as u64 - 1, WORLDS as u64, 1 << 32, HALF, u64::MAX];
    let world = if opened == 0 || random.once_in(24) { random.one_of(&none) } else { random.below(opened) };
    Place { store, world }
}

// Parts of a whole, some of them 0, at random places: most of it, or all.
fn parts(random: &mut Random, whole: u64, count: usize) -> Vec<u64> {
    let mut parts = vec![0; count];
    let mut left = if random.truth() { whole } else { random.below(whole + 1) };
    while left > 0 {
        let part = 1 + random.below(left.min(1 + whole / count as u64));
        parts[random.below(count as u64) as usize] += part;
        left -= part;
    }
    parts
}

/// Limits of worlds that a pool of the capacity may be made with: floors that take all of it or leave some, and ceilings at the floor,
/// near it, at the capacity and above.
pub fn limits(random: &mut Random, capacity: usize) -> Vec<Limit> {
    let count = random.one_of(&[1, 2, 2, 3, 4, 8, 15, 16]);
    limits_of(random, capacity, count)
}

fn limits_of(random: &mut Random, capacity: usize, count: usize) -> Vec<Limit> {
    let capacity = capacity as u64;
    let floors = if random.once_in(4) { vec![0; count] } else { parts(random, capacity, count) };
    let limit = |floor: u64| {
        let near = floor + random.below(3);
        [floor, random.one_of(&[floor, near, near, capacity, capacity + 1, u64::MAX])]
    };
    floors.into_iter().map(limit).collect()
}

/// A pool with such limits, of any number of worlds.
pub fn plan(random: &mut Random, capacity: usize) -> Plan {
    let any = 1 + random.below(WORLDS as u64) as usize;
    let count = random.one_of(&[1, 2, WORLDS, any, any, any]);
    Plan { capacity, limits: limits_of(random, capacity, count) }
}

// Limits for a pool that is made anew: now and then ones that it may not have.
fn remade(random: &mut Random, store: &Store) -> Vec<u64> {
    let capacity = store.capacity().unwrap_or(1);
    let mut all = limits(random, capacity);
    let i = random.below(all.len() as u64) as usize;
    let [floor, ceiling] = all[i];
    match random.below(24) {
        0 => all.clear(),
        1 => all.resize(WORLDS + 1, [0, 1]),
        2 => all[i] = [ceiling, floor],
        3 => all[i] = [floor.saturating_add(1), ceiling.max(floor.saturating_add(1))],
        4 => all[i][0] = random.one_of(&[capacity as u64 + 1, 1 << 32, HALF, u64::MAX]),
        _ => {}
    }
    all.into_flattened()
}

/// A call of the kind, about the world `at` or, where the kind makes a set of others, with that world among them.
pub fn call(random: &mut Random, stores: &[Store], kind: Kind, at: Place) -> Call {
    let count = stores.len() as u64;
    let runs = stores[at.store].runs(at.world);
    let value = random.truth();
    let left = random.truth();
    // Worlds of any store, this one too.
    let mut any = || {
        let store = random.below(count) as usize;
        place(random, stores, store)
    };
    let (other, third) = (any(), any());
    let beside = stores[third.store].runs(third.world);
    match kind {
        Kind::New => Call::New { to: at.store, limits: remade(random, &stores[at.store]) },
        Kind::Empty => Call::Build { to: at, runs: Vec::new() },
        Kind::Combine => {
            let (a, b) = if value { (at, other) } else { (other, at) };
            Call::Combine { to: third, op: random.one_of(&[Operation::And, Operation::Or, Operation::Xor]), a, b }
        }
        Kind::Not => Call::Not { to: third, a: at },
        Kind::Shifted => Call::Shifted { to: third, a: at, distance: distance(random, runs), left },
        Kind::Equal if value => Call::Equal { a: at, b: other },
        Kind::Equal => Call::Equal { a: other, b: at },
        Kind::Set => Call::Set { at, range: range(random, runs), value },
        Kind::Flip => Call::Flip { at, range: range(random, runs) },
        Kind::Shift => Call::Shift { at, distance: distance(random, runs), left },
        Kind::Get => Call::Get { at, x: position(random, runs) },
        Kind::RunAt => Call::RunAt { at, x: position(random, runs) },
        Kind::Find => Call::Find { at, range: range(random, runs), value },
        Kind::Tally => Call::Tally { at, range: range(random, runs), value },
        Kind::SetStrict => Call::SetStrict { at, range: strict_range(random, runs), value },
        Kind::FlipStrict => Call::FlipStrict { at, range: strict_range(random, runs) },
        Kind::TallyStrict => Call::TallyStrict { at, range: strict_range(random, runs), value },
        Kind::Select => {
            let range = range(random, runs);
            let k = order(random, runs, range, value);
            Call::Select { at, range, value, k }
        }
        Kind::Gap => {
            let (range, n) = gap(random, runs);
            Call::Gap { at, range, n }
        }
        Kind::Ranges => {
            let mixed = random.number();
            let backs = random.one_of(&[0, u64::MAX, mixed]);
            Call::Ranges { at, range: range(random, runs), value, backs }
        }
        Kind::Draw => {
            let listing = Listing { first: position(random, runs), last: position(random, runs), value };
            Call::Draw { at, listing, back: left }
        }
        Kind::Fill => Call::Fill { at, base: position(random, runs), n: window(random) },
        Kind::SetRect => Call::SetRect { at, rect: rect(random, runs), value },
        Kind::CountRect => Call::CountRect { at, rect: rect(random, runs) },
        Kind::Survey => survey(random, runs, at),
        Kind::Load => {
            let runs = run_list(random, beside);
            Call::Load { to: at, bytes: written(random, &runs) }
        }
        Kind::Mend => {
            let runs = run_list(random, beside);
            let runs = jumble(random, &runs, 6);
            mend(random, at, &runs)
        }
        Kind::Convert => {
            let runs = run_list(random, beside);
            let bytes = written(random, &runs);
            Call::Convert { room: slice_room(random, bytes.len()), bytes }
        }
        Kind::Deepest => deepest(random, &stores[at.store], at.store),
        Kind::WhyFull => why_full(random, &stores[at.store], at.store),
        Kind::Build => Call::Build { to: at, runs: run_list(random, beside) },
        Kind::ReadMap => {
            let n = window(random);
            Call::ReadMap { at, base: position(random, runs), n, map: map(random, n) }
        }
        Kind::ClearMap => {
            let n = window(random);
            Call::ClearMap { base: position(random, runs), n, map: map(random, n) }
        }
        Kind::Write => Call::Write { at, edition: edition(random), room: slice_room(random, 5 + 16 * runs.len()) },
        Kind::WriteMap => {
            let n = window(random);
            let room = slice_room(random, n.min(600_000).div_ceil(8) as usize);
            Call::WriteMap { at, base: position(random, runs), n, room }
        }
    }
}

// An order for select: below, at and beyond how many there are.
fn order(random: &mut Random, runs: &[Run], range: Range, value: bool) -> u64 {
    let Some([first, last]) = ends_of(range) else {
        return random.below(2);
    };
    let mut held = 0;
    for &[s, e] in runs {
        if s <= last && first <= e {
            held += u128::from(e.min(last) - s.max(first)) + 1;
        }
    }
    let all = if value { held } else { u128::from(last - first) + 1 - held };
    let k = match random.below(4) {
        0 => all.saturating_sub(1),
        1 => all,
        2 => u128::from(random.below(4)),
        _ => u128::from(random.below(all.clamp(1, u128::from(u64::MAX)) as u64)),
    };
    k.min(u128::from(u64::MAX)) as u64
}

// How many positions a run has, but that all 2^64 are one too many.
fn length([first, last]: Run) -> u64 {
    (last - first).saturating_add(1)
}

// A range, and how long a gap of it is to be. Often the range ends within a free run, and leaves of it just as many positions as are asked
// for, one less or one more; if it can be, all free runs before are shorter.
fn gap(random: &mut Random, runs: &[Run]) -> (Range, u64) {
    let range = range(random, runs);
    let free = reference::free_runs(runs, range);
    if free.is_empty() || random.truth() {
        return (range, gap_length(random, &free));
    }
    let i = random.below(free.len() as u64) as usize;
    let before = free[..i].iter().copied().map(length).max().unwrap_or(0);
    let n = before.saturating_add(1 + random.below(3)).min(length(free[i]));
    let left = (n - 1).saturating_add(random.below(3));
    let upper = match free[i][0].checked_add(left) {
        None => Bound::Unbounded,
        Some(end) if end > 0 && random.truth() => Bound::Included(end - 1),
        Some(end) => Bound::Excluded(end),
    };
    ((range.0, upper), n)
}

// How long a gap is to be: none at all, just as long as a free run, a little less or more, and any length.
fn gap_length(random: &mut Random, free: &[Run]) -> u64 {
    let any = random.number();
    match random.below(8) {
        0 => 0,
        1 => random.one_of(&[1, HALF, u64::MAX - 1, u64::MAX, any]),
        2 => 1 + random.below(12),
        _ if free.is_empty() => 1 + random.below(3),
        kind => {
            let longest = free.iter().copied().map(length).max().expect("there is a run");
            let some = length(random.one_of(free));
            match kind {
                3 => longest,
                4 => longest.saturating_add(1),
                5 => longest - longest.min(random.below(3)),
                _ => some.saturating_add(random.below(2)),
            }
        }
    }
}

// What a frame's calls are, those that a world grows by more than once.
const LISTED: [Kind; 23] = [
    Kind::Empty,
    Kind::Set,
    Kind::Set,
    Kind::Set,
    Kind::Set,
    Kind::Flip,
    Kind::Flip,
    Kind::Shift,
    Kind::Get,
    Kind::RunAt,
    Kind::Find,
    Kind::Tally,
    Kind::Select,
    Kind::Gap,
    Kind::Ranges,
    Kind::Draw,
    Kind::Draw,
    Kind::Fill,
    Kind::SetStrict,
    Kind::FlipStrict,
    Kind::TallyStrict,
    Kind::SetRect,
    Kind::CountRect,
];

// Any word: often one that means something elsewhere in a record.
fn word(random: &mut Random, runs: &[Run]) -> u64 {
    match random.below(4) {
        0 => random.below(16),
        1 => random.one_of(&[0, 1, 2, 3, HALF, u64::MAX - 1, u64::MAX]),
        2 => position(random, runs),
        _ => random.number(),
    }
}

// A record that is written down as a call's, or has some words that no call writes, or has nothing else.
fn record(random: &mut Random, store: &Store) -> Record {
    let stores = std::slice::from_ref(store);
    let at = place(random, stores, 0);
    let runs = store.runs(at.world);
    if random.once_in(8) {
        let mut any = [0; records::WORDS].map(|_| word(random, runs));
        if random.truth() {
            any[0] = random.below(records::LAST + 2);
        }
        if !random.once_in(4) {
            any[7] = at.world;
        }
        return any;
    }
    // A world is seldom emptied, or nothing would grow.
    let kind = match random.one_of(&LISTED) {
        Kind::Empty if !random.once_in(6) => Kind::Set,
        kind => kind,
    };
    let made = call(random, stores, kind, at);
    let mut record = records::record_of(&made).expect("a kind that lists have");
    for _ in 0..random.below(3) {
        match random.below(3) {
            // Another truth, and any kind in the place of no bound.
            0 if record[5] != 0 => record[5] = word(random, runs).max(1),
            1 if [0, 3].contains(&record[1]) => record[1] = word(random, runs),
            2 if [0, 3].contains(&record[3]) => record[3] = word(random, runs),
            _ => {}
        }
    }
    record
}

/// Records of that many calls on a pool, each where something is likely to go wrong after those before it.
pub fn listed(random: &mut Random, store: &Store, count: usize) -> Vec<Record> {
    let mut ahead = Expected { stores: vec![store.clone()] };
    let mut all = Vec::new();
    for _ in 0..count {
        let record = record(random, &ahead.stores[0]);
        ahead.answer(&records::call_of(0, record));
        all.push(record);
    }
    all
}

/// A frame of that many calls on store `at`. Now and then there are too few words for the answers, or more than are filled, and words
/// after the last whole record.
pub fn frame(random: &mut Random, stores: &[Store], at: usize, count: usize) -> Call {
    let mut calls = listed(random, &stores[at], count).into_flattened();
    let due = calls.len();
    if random.once_in(4) {
        let more = random.below(records::WORDS as u64);
        calls.extend((0..more).map(|_| random.number()));
    }
    let room = match random.below(12) {
        0 => random.below(due as u64 + 1) as usize,
        1 => due.saturating_sub(1),
        2..=4 => due + random.below(20) as usize,
        _ => due,
    };
    Call::Frame { at, calls, room }
}

// What a stretch of a random history does most.
const MOODS: [&[Kind]; 9] = [
    &[Kind::Set],
    &[Kind::Set, Kind::Flip],
    &[Kind::Shift, Kind::Shift, Kind::Set],
    &[Kind::Combine, Kind::Not, Kind::Shifted, Kind::Set],
    &[Kind::Load, Kind::Mend, Kind::Build, Kind::Write, Kind::Convert, Kind::Set],
    &[Kind::ReadMap, Kind::WriteMap, Kind::ClearMap, Kind::Fill, Kind::Shift],
    &[Kind::Ranges, Kind::Draw, Kind::Select, Kind::Set],
    &[Kind::Gap, Kind::Gap, Kind::Set, Kind::Shift],
    &[Kind::SetRect, Kind::SetRect, Kind::CountRect, Kind::Survey, Kind::Shift],
];

/// A random history of all calls, in stretches that do one thing most and are about one world.
pub struct Wander {
    mood: &'static [Kind],
    at: Place,
}

impl Default for Wander {
    fn default() -> Wander {
        Wander { mood: MOODS[0], at: Place::first(0) }
    }
}

impl Wander {
    /// The next call.
    pub fn next(&mut self, random: &mut Random, stores: &[Store]) -> Call {
        if random.once_in(40) {
            self.mood = random.one_of(&MOODS);
            let store = random.below(stores.len() as u64) as usize;
            self.at = place(random, stores, store);
        }
        // Most calls are about the world of the stretch, and some about its neighbours.
        let at = if random.once_in(4) { place(random, stores, self.at.store) } else { self.at };
        let kind = if random.truth() { random.one_of(self.mood) } else { random.one_of(&KINDS) };
        // Making a pool anew, filling and emptying come up, but seldom, or nothing would grow.
        match kind {
            Kind::New if !random.once_in(20) => call(random, stores, Kind::Set, at),
            Kind::Set | Kind::Flip if !random.once_in(6) => {
                let x = position(random, stores[at.store].runs(at.world));
                let range = (Bound::Included(x), Bound::Included(x.saturating_add(random.below(12))));
                match kind {
                    Kind::Set => Call::Set { at, range, value: !random.once_in(3) },
                    _ => Call::Flip { at, range },
                }
            }
            kind => call(random, stores, kind, at),
        }
    }
}

#[cfg(test)]
mod tests {
    use super::*;
    use crate::Refusal;
    use crate::differential::calls::Told;

    #[test]
    fn pools_have_any_number_of_worlds() {
        let mut random = Random::new(1);
        let mut seen = [0; WORLDS + 2];
        for _ in 0..1000 {
            seen[plan(&mut random, 8).limits.len()] += 1;
        }
        assert_eq!(seen.iter().position(|&n| n > 0), Some(1));
        assert!(seen[1..=WORLDS].iter().all(|&n| n > 0), "{seen:?}");
        assert_eq!(seen[WORLDS + 1], 0);
    }

    #[test]
    fn lists_are_refused_and_not() {
        let mut random = Random::new(1);
        let mut seen = [0; 3];
        for turn in 0..3000 {
            let store = Store::of(&crate::room(1 + turn % 12));
            let call = why_full(&mut random, &store, 0);
            seen[match (Expected { stores: vec![store] }).answer(&call) {
                Told::Words(..) => 0,
                Told::Refused(Refusal::NotRefused) => 1,
                Told::Refused(Refusal::OutputShort) => 2,
                told => panic!("{call:?} tells {told:?}"),
            }] += 1;
        }
        assert!(seen.iter().all(|&n| n > 300), "{seen:?}");
    }

    // Each way of writing a range down has the same positions, or none.
    #[test]
    fn spelled_ranges_have_their_ends() {
        let mut random = Random::new(1);
        for turn in 0..2000_u64 {
            let x = random.one_of(&[0, 1, 7, HALF, u64::MAX - 2]);
            let run = [[x, x], [x, x + 2], [0, x], [x, u64::MAX], [x + 1, x], [x + 2, x]][turn as usize % 6];
            let ranges = records::ranges_of(&spelled(&mut random, run));
            let due = (run[0] <= run[1]).then_some(run);
            assert_eq!(ranges.into_iter().map(ends_of).collect::<Vec<_>>(), [due], "{run:?}");
        }
    }

    #[test]
    fn rectangles_and_squares_are_on_the_plane_and_off_it() {
        let mut random = Random::new(1);
        let runs = [[2, 7], [3 * SIDE + 5, 3 * SIDE + 9], [9 * SIDE - 1, 9 * SIDE]];
        let mut seen = [[0; 2]; 2];
        for _ in 0..2000 {
            seen[0][usize::from(reference::is_rect(rect(&mut random, &runs)))] += 1;
            let Call::Survey { row, column, k, .. } = survey(&mut random, &runs, Place::first(0)) else { panic!() };
            seen[1][usize::from(reference::is_square(row, column, k))] += 1;
        }
        assert!(seen.as_flattened().iter().all(|&n| n > 100), "{seen:?}");
    }
}
