//! Mended sets of both editions: runs in any order, equal, nested, touching and one position apart, and such as are dropped; sets that are right
//! already; damaged bytes, slices that are too short, and worlds with little room.

use super::{HALF, M};
use crate::Edition;
use crate::conformance::{List, REPORT, SLICE};
use crate::differential::calls::{Call, Place};
use crate::differential::chance;
use crate::differential::random::Random;
use crate::differential::reference::{self, Run};
use crate::differential::{EDITIONS, WRITTEN};

// Lists that are not in order.
const LISTS: [&[Run]; 18] = [
    &[[4, 3]],
    &[[M, 0], [1, 0]],
    &[[2, 3], [2, 3]],
    &[[2, 3], [4, 5]],
    &[[4, 5], [2, 3]],
    &[[8, 9], [2, 3]],
    &[[5, 6], [2, 3]],
    &[[2, 9], [4, 5], [3, 3]],
    &[[3, 3], [4, 2], [4, 5]],
    &[[0, HALF], [HALF + 1, M]],
    &[[M, M], [0, 0]],
    &[[M, M], [0, 0], [0, M]],
    &[[M - 1, M - 1], [M, M - 1], [M, M]],
    // Others join the first and the last, and one is left alone.
    &[[2, 3], [20, 21], [8, 12], [4, 6], [7, 7], [12, 13]],
    // Equal runs that are dropped stay so beside one that is kept.
    &[[9, 8], [9, 8], [8, 9], [9, 8]],
    &[[8, 9], [2, 3], [4, 5], [7, 6], [20, 20]],
    &[[30, 31], [1, 2], [30, 31]],
    &[[1, 1], [3, 3], [5, 5], [4, 4], [2, 2], [0, 0], [9, 9], [7, 7]],
];

/// The list.
pub fn list() -> List {
    let mut list = List::new("mended");
    let mut random = Random::new(0x4E);
    // The neighbour is sure of as many runs as the world of the bytes.
    list.pool(0, 8, &[[4, 4], [1, 4]]);
    list.build(Place::first(0), &[[5, 6], [8, M]]);
    let at = Place { store: 0, world: 1 };
    for runs in LISTS.into_iter().chain(WRITTEN) {
        for edition in EDITIONS {
            closely(&mut list, at, edition, runs);
        }
        list.show(at);
    }
    // Every two runs of some ends.
    let ends = [0, 1, 2, M];
    for code in 0..4_usize.pow(4) {
        let [a, b, c, d] = [64, 16, 4, 1].map(|i| ends[code / i % 4]);
        let bytes = reference::encode(EDITIONS[code % 2], &[[a, b], [c, d]]);
        list.call(&Call::Mend { to: at, bytes, rooms: [38, 3] });
    }
    // Each byte of two runs another, and bytes that are too few or too many.
    for edition in EDITIONS {
        let whole = reference::encode(edition, &[[8, 9], [2, 3]]);
        for i in 0..whole.len() {
            let mut bytes = whole.clone();
            bytes[i] = random.one_of(&[whole[i] ^ 1, 0xFF - whole[i]]);
            list.call(&Call::Mend { to: at, bytes, rooms: [37, 2] });
        }
        for length in [0, 1, 4, 5, 21, 36] {
            list.call(&Call::Mend { to: at, bytes: whole[..length].to_vec(), rooms: [37, 2] });
        }
        list.call(&Call::Mend { to: at, bytes: [&whole[..], &[0]].concat(), rooms: [37, 2] });
    }
    for turn in 0..120 {
        let some = LISTS[turn % LISTS.len()];
        let runs = chance::jumble(&mut random, &some[..some.len().min(3)], 6);
        let call = chance::mend(&mut random, at, &runs);
        list.call(&call);
    }
    list.show_all(0);
    full(&mut list, &mut random);
    list
}

// Mends runs where there is just the room that is due, one byte less of either slice, and more of both.
fn closely(list: &mut List, to: Place, edition: Edition, runs: &[Run]) {
    let bytes = reference::encode(edition, runs);
    let [set, report] = [5 + 16 * reference::united(runs).len(), runs.len()];
    for rooms in [[set - 1, report], [set, report.saturating_sub(1)], [set + 3, report + 2], [set, report]] {
        list.call(&Call::Mend { to, bytes: bytes.clone(), rooms });
    }
}

// As many runs as a written set of a list has: all kept, all joined to one, and one run more than there is room for.
fn full(list: &mut List, random: &mut Random) {
    let mut many: Vec<Run> = (0..64).map(|i| [i << 58, (i << 58) + random.below(1 << 57)]).collect();
    random.shuffle(&mut many);
    let mut chain: Vec<Run> = (0..64).map(|i| [10 * i, 10 * i + 9]).collect();
    random.shuffle(&mut chain);
    let falling: Vec<Run> = (0..64).map(|i| [M - 2 * i, M - 2 * i]).collect();
    list.pool(1, 64, &[[0, 64]]);
    list.pool(2, 63, &[[0, 63]]);
    for edition in EDITIONS {
        for runs in [&many[..], &chain, &falling, &[[7, 9]; 64]] {
            for store in [1, 2] {
                let bytes = reference::encode(edition, runs);
                list.call(&Call::Mend { to: Place::first(store), bytes, rooms: [SLICE, REPORT] });
                list.show(Place::first(store));
            }
        }
    }
}
