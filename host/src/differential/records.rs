//! Records of calls, of answers and of ranges, by the rules of `docs/CALLS.md` and apart from the library: what eight words mean, whatever they
//! are, and which eight words tell an answer; what four words of a list of ranges mean.

use std::ops::Bound;

use super::calls::{Call, Place, Range, Told};
use crate::{Listing, Rect, Tally};

/// How many words a record has.
pub const WORDS: usize = 8;

pub type Record = [u64; WORDS];

/// The greatest number that names a call other than get.
pub const LAST: u64 = 20;

/// Numbers below it that name none: such a record asks at a world that no pool has, so that it is refused and not answered as another call.
pub const WITHDRAWN: [u64; 2] = [7, 9];

/// The kinds of bounds that have names: one that includes its value, one that excludes it, and none.
pub const KINDS: [u64; 3] = [1, 2, 3];

/// The four words of a range that is empty and not reversed.
pub const NOWHERE: [u64; 4] = [1, 0, 2, 0];

fn bound(kind: u64, value: u64) -> Bound<u64> {
    match kind {
        1 => Bound::Included(value),
        2 => Bound::Excluded(value),
        3 => Bound::Unbounded,
        _ => panic!("kind {kind} has no name"),
    }
}

/// Four words as a range of the same positions whose kinds have names: it is empty where one of theirs has none.
pub fn named(words: [u64; 4]) -> [u64; 4] {
    let [lower, _, upper, _] = words;
    if KINDS.contains(&lower) && KINDS.contains(&upper) { words } else { NOWHERE }
}

fn range_of(words: [u64; 4]) -> Range {
    let [lower, from, upper, upto] = named(words);
    (bound(lower, from), bound(upper, upto))
}

/// The call that a record means, on the world of a store that its last word names.
pub fn call_of(store: usize, record: Record) -> Call {
    let [call, lower, from, upper, upto, value, k, world] = record;
    let at = Place { store, world: if WITHDRAWN.contains(&call) { u64::MAX } else { world } };
    let value = value != 0;
    let range = range_of([lower, from, upper, upto]);
    let listing = Listing { first: from, last: upto, value };
    // A rectangle has no bounds: the words of these are its corners.
    let rect = Rect::new((lower, from), (upper, upto));
    match call {
        1 => Call::Build { to: at, runs: Vec::new() },
        2 => Call::Set { at, range, value },
        3 => Call::Flip { at, range },
        4 => Call::Shift { at, distance: from, left: value },
        5 => Call::RunAt { at, x: from },
        6 => Call::Find { at, range, value },
        8 => Call::Select { at, range, value, k },
        10 => Call::Ranges { at, range, value, backs: 0 },
        11 => Call::Draw { at, listing, back: false },
        12 => Call::Draw { at, listing, back: true },
        13 => Call::Fill { at, base: from, n: upto },
        14 => Call::Gap { at, range, n: k },
        15 => Call::Tally { at, range, value },
        16 => Call::SetStrict { at, range, value },
        17 => Call::FlipStrict { at, range },
        18 => Call::TallyStrict { at, range, value },
        19 => Call::SetRect { at, rect, value },
        20 => Call::CountRect { at, rect },
        _ => Call::Get { at, x: from },
    }
}

fn words(b: Bound<u64>) -> [u64; 2] {
    match b {
        Bound::Included(x) => [1, x],
        Bound::Excluded(x) => [2, x],
        Bound::Unbounded => [3, 0],
    }
}

/// The ranges of a list, four words each. What comes after the last whole one is none.
pub fn ranges_of(list: &[u64]) -> Vec<Range> {
    list.as_chunks().0.iter().map(|&words| range_of(words)).collect()
}

/// The four words of a range.
pub fn words_of(range: Range) -> [u64; 4] {
    let ([lower, from], [upper, upto]) = (words(range.0), words(range.1));
    [lower, from, upper, upto]
}

/// A record that means the call, or none where no record does: a world is emptied, as by a build of no runs, and no pool made.
pub fn record_of(call: &Call) -> Option<Record> {
    let over = |number, at: Place, range: (Bound<u64>, Bound<u64>), value: bool, k| {
        let [lower, from, upper, upto] = words_of(range);
        [number, lower, from, upper, upto, value.into(), k, at.world]
    };
    let plain = |number, at: Place, from, upto, value: bool| [number, 0, from, 0, upto, value.into(), 0, at.world];
    let cornered = |number, at: Place, Rect { top, left, bottom, right }: Rect, value: bool| {
        [number, top, left, bottom, right, value.into(), 0, at.world]
    };
    Some(match *call {
        Call::Get { at, x } => plain(0, at, x, 0, false),
        Call::Build { to, ref runs } if runs.is_empty() => plain(1, to, 0, 0, false),
        Call::Set { at, range, value } => over(2, at, range, value, 0),
        Call::Flip { at, range } => over(3, at, range, false, 0),
        Call::Shift { at, distance, left } => plain(4, at, distance, 0, left),
        Call::RunAt { at, x } => plain(5, at, x, 0, false),
        Call::Find { at, range, value } => over(6, at, range, value, 0),
        Call::Select { at, range, value, k } => over(8, at, range, value, k),
        Call::Ranges { at, range, value, .. } => over(10, at, range, value, 0),
        Call::Draw { at, listing: Listing { first, last, value }, back } => {
            plain(if back { 12 } else { 11 }, at, first, last, value)
        }
        Call::Fill { at, base, n } => plain(13, at, base, n, false),
        Call::Gap { at, range, n } => over(14, at, range, false, n),
        Call::Tally { at, range, value } => over(15, at, range, value, 0),
        Call::SetStrict { at, range, value } => over(16, at, range, value, 0),
        Call::FlipStrict { at, range } => over(17, at, range, false, 0),
        Call::TallyStrict { at, range, value } => over(18, at, range, value, 0),
        Call::SetRect { at, rect, value } => cornered(19, at, rect, value),
        Call::CountRect { at, rect } => cornered(20, at, rect, false),
        _ => return None,
    })
}

/// The record of what a call of a list tells.
pub fn answer_of(told: &Told) -> Record {
    let numbers = |found, number, end| [0, found, number, end, 0, 0, 0, 0];
    let listed = |found, number, end, l: &Listing| [0, found, number, end, l.first, l.last, l.value.into(), 0];
    match told {
        Told::Refused(r) => [r.number(), 0, 0, 0, 0, 0, 0, 0],
        Told::Done => numbers(0, 0, 0),
        Told::Count(n) => numbers((n >> 64) as u64, *n as u64, 0),
        Told::Tally(Tally { positions, runs }) => numbers((positions >> 64) as u64, *positions as u64, *runs),
        Told::Number(n) => numbers(0, *n, 0),
        Told::Value(v) => numbers(0, u64::from(*v), 0),
        Told::Run(run) => numbers(0, *run.start(), *run.end()),
        Told::Position(Some(x)) => numbers(1, *x, 0),
        Told::Position(None) => numbers(0, 0, 0),
        Told::Draws(made, _) => listed(0, 0, 0, made),
        Told::Drawn(Some(run), left) => listed(1, *run.start(), *run.end(), left),
        Told::Drawn(None, left) => listed(0, 0, 0, left),
        told => unreachable!("no call of a list tells {told:?}"),
    }
}

#[cfg(test)]
mod tests {
    use super::*;
    use crate::differential::chance::{self, KINDS};
    use crate::differential::expected::Store;
    use crate::differential::random::Random;

    #[test]
    fn a_record_is_read_back() {
        let mut random = Random::new(1);
        let stores = vec![Store::of(&crate::room(3)); 3];
        let mut numbers = [0; 1 + LAST as usize];
        for turn in 0..100 * KINDS.len() {
            let at = chance::place(&mut random, &stores, 2);
            let mut call = chance::call(&mut random, &stores, KINDS[turn % KINDS.len()], at);
            if let Some(record) = record_of(&call) {
                numbers[record[0] as usize] += 1;
                if let Call::Ranges { backs, .. } = &mut call {
                    *backs = 0;
                }
                assert_eq!(call_of(2, record), call);
            }
        }
        for (number, &count) in (0..).zip(&numbers) {
            assert_eq!(count == 0, WITHDRAWN.contains(&number), "number {number} came up {count} times");
        }
    }
}
