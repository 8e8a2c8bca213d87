//! Why a list of ranges is refused: lists that stop at the last range and before it, lists that do not, and every list of three of some ranges.

use super::{HALF, M};
use crate::conformance::{BOUNDS, List, ROOM};
use crate::differential::calls::{Call, Place};
use crate::differential::chance;
use crate::differential::random::Random;
use crate::differential::reference::Run;

// Lists, each with a capacity at which it stops.
const LISTS: [(usize, &[Run]); 17] = [
    (1, &[[0, 0], [2, 2]]),
    (1, &[[M, M], [0, 0]]),
    // Ranges that touch are one run, and so are equal ones and one within another.
    (1, &[[2, 3], [4, 5], [4, 5], [6, 6], [8, 9]]),
    (1, &[[2, 9], [3, 4], [2, 9], [0, 0]]),
    (1, &[[0, HALF], [HALF + 1, M - 1], [0, M - 2], [M, M]]),
    // The last of these joins all, but the list has stopped before.
    (1, &[[2, 2], [7, 7], [0, M]]),
    (2, &[[2, 2], [7, 7], [9, 9], [0, M], [4, 4]]),
    // Two runs are joined by a third range, and the first listed of the three counts.
    (2, &[[5, 5], [3, 3], [4, 4], [9, 9], [20, 20]]),
    (2, &[[9, 9], [3, 3], [4, 8], [20, 20], [0, 0], [30, 30]]),
    (2, &[[4, 4], [0, 0], [2, 2], [3, 3]]),
    // Ranges that hold nothing, before, among and after.
    (1, &[[3, 2], [4, 4], [9, 4], [3, 2], [M, 0], [6, 6], [5, 4]]),
    (2, &[[1, 0], [M, M - 1], [M - 1, M - 1], [M, 0], [0, 0], [5, 3], [3, 3]]),
    (3, &[[0, 0], [2, 2], [M - 2, M - 2], [M, M]]),
    (3, &[[M, M], [M - 2, M - 2], [2, 2], [1, 1], [0, 0], [M - 1, M - 1], [6, 6], [8, 8]]),
    (4, &[[8, 8], [6, 6], [4, 4], [2, 2], [0, 0]]),
    (4, &[[0, 0], [2, 2], [1, 1], [4, 4], [3, 3], [6, 6], [8, 8], [10, 10], [12, 12], [9, 9]]),
    (5, &[[0, 9], [20, 29], [40, 49], [60, 69], [80, 89], [10, 19], [30, 39], [100, 109], [120, 129], [140, 149]]),
];

/// The list.
pub fn list() -> List {
    let mut list = List::new("why_full");
    let mut random = Random::new(0x13);
    // 1 before all others: no words at all, and those of capacity 0.
    for lent in ["", "words 0 0"] {
        list.say(lent);
        for ranges in [&[][..], &[[0, 0]], &[[0, 0], [2, 2], [4, 4]]] {
            list.call(&Call::WhyFull { at: 0, ranges: words_of(ranges), room: 0 });
        }
    }
    // In words that are no sound pool, in a pool of several worlds, whatever they hold and may hold, and in that again with a header word set. The list
    // stops at the capacity told by the length; 16 comes before 2.
    for lent in ["words 0 2", "new 0 3 0 0 1 1 1 9\nset 0/2 i2 i7 1", "spoil 0"] {
        list.say(lent);
        for ranges in
            [&[][..], &[[5, 4]], &[[0, 0], [4, 4]], &[[0, 0], [4, 4], [2, 2]], &[[0, 0], [9, 9], [4, 4], [2, 2]]]
        {
            closely(&mut list, 0, 2, &words_of(ranges));
        }
        list.show(Place { store: 0, world: 2 });
    }
    // Each list at the capacity at which it stops, at one more, and at the least, with its bounds written down in several ways.
    for (capacity, runs) in LISTS {
        for capacity in [capacity, capacity + 1, 1] {
            list.call(&Call::Lend { at: 1, words: crate::room(capacity) });
            closely(&mut list, 1, capacity, &words_of(runs));
            let spelled: Vec<u64> = runs.iter().flat_map(|&run| chance::spelled(&mut random, run)).collect();
            list.call(&Call::WhyFull { at: 1, ranges: spelled, room: capacity + 1 });
        }
    }
    bounds(&mut list);
    every_three(&mut list);
    many(&mut list, &mut random);
    list
}

fn words_of(runs: &[Run]) -> Vec<u64> {
    runs.iter().flat_map(|&[start, end]| [1, start, 1, end]).collect()
}

// Asks with room for one place less than are due, for none, for all and for two more; and once with a bound after the last range, which is none.
fn closely(list: &mut List, at: usize, capacity: usize, ranges: &[u64]) {
    for room in [capacity, 0, capacity + 1, capacity + 3] {
        list.call(&Call::WhyFull { at, ranges: ranges.to_vec(), room });
    }
    list.call(&Call::WhyFull { at, ranges: [ranges, &[1, 100]].concat(), room: capacity + 1 });
}

// Two ranges with bounds of every kind, at both ends and in the middle: whether the second is a run more.
fn bounds(list: &mut List) {
    list.say("words 2 1");
    for x in [0, 1, HALF, M - 1, M] {
        for kind in [3, 1, 2] {
            for other in [3, 1, 2] {
                for y in [x, x.wrapping_add(1), 4] {
                    let ranges = vec![1, 4, 1, 4, kind, x, other, y, 1, M - 3, 1, M - 3];
                    list.call(&Call::WhyFull { at: 2, ranges, room: 2 });
                }
            }
        }
    }
}

// Every list of three of some ranges, at capacities 1 and 2.
fn every_three(list: &mut List) {
    let some: [Run; 7] = [[0, 0], [1, 1], [2, 3], [M, M], [3, M - 2], [2, 1], [9, 0]];
    for capacity in [1, 2] {
        list.call(&Call::Lend { at: 3, words: crate::room(capacity) });
        for code in 0..some.len().pow(3) {
            let runs = [1, 7, 49].map(|i| some[code / i % 7]);
            list.call(&Call::WhyFull { at: 3, ranges: words_of(&runs), room: capacity + 1 });
        }
    }
}

// Lists of as many ranges as a line has, rising, falling, in any order, and with ranges that join others; and lists by chance.
fn many(list: &mut List, random: &mut Random) {
    let most = BOUNDS as u64 / 2;
    let rising: Vec<Run> = (0..most).map(|i| [i << 59, (i << 59) + random.below(1 << 58)]).collect();
    let falling: Vec<Run> = (0..most).map(|i| [M - 3 * i, M - 3 * i]).collect();
    let mut mixed = rising.clone();
    random.shuffle(&mut mixed);
    // A run more and a range that joins it, in turn.
    let hovering: Vec<Run> = (0..most).map(|i| [4 * (i / 2) + 4 * (1 - i % 2), 4 * (i / 2) + 4]).collect();
    for runs in [rising, falling, mixed, hovering] {
        for capacity in [1, 2, 15, 30, 31, 32, 64] {
            list.call(&Call::Lend { at: 0, words: crate::room(capacity) });
            for room in [capacity, capacity + 1, ROOM] {
                list.call(&Call::WhyFull { at: 0, ranges: words_of(&runs), room });
            }
        }
    }
    for turn in 0..120 {
        let capacity = 1 + turn % 9;
        list.call(&Call::Lend { at: 0, words: crate::room(capacity) });
        let runs = chance::spawns(random, capacity as u64, most);
        let ranges: Vec<u64> = runs.into_iter().flat_map(|run| chance::spelled(random, run)).collect();
        list.call(&Call::WhyFull { at: 0, ranges, room: capacity + 1 + turn % 3 });
    }
}
