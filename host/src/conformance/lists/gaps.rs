//! The search for the lowest gap.

use super::{HALF, M};
use crate::conformance::List;
use crate::differential::calls::Place;
use crate::differential::chance::Kind;
use crate::differential::random::Random;
use crate::differential::reference::Run;

/// The list.
pub fn list() -> List {
    let mut list = List::new("gaps");
    // 1, 7 and 12 before 9, and 9 before any gap.
    for made in ["", "words 0 5", "new 0 2 1 5 1 5", "spoil 0"] {
        list.say(&format!("{made}\ngap 0/1 u u 0\ngap 0/1 i6 e6 0\ngap 0/1 u u 1\ngap 0/2 u u 0\ngap 0/2 u u 1"));
    }
    let sets: [&[Run]; 9] = [
        &[],
        &[[0, M]],
        &[[0, 0]],
        &[[M, M]],
        &[[0, 0], [M, M]],
        &[[1, M - 1]],
        &[[2, 3], [8, 9]],
        &[[0, HALF - 1], [HALF + 1, M]],
        &[[3, 5], [7, 7], [HALF - 2, HALF + 1], [M - 4, M - 4]],
    ];
    let ranges = [
        "u u",
        "i0 i0",
        &format!("i{M} i{M}"),
        "i1 u",
        &format!("u e{M}"),
        "i2 i9",
        "e2 e9",
        "i4 i7",
        &format!("i{} u", M - 6),
        &format!("e{} i{}", HALF - 4, HALF + 4),
        // Empty and reversed ones.
        "i6 e6",
        "u e0",
        &format!("e{M} u"),
        "i9 i2",
    ];
    for runs in sets {
        list.store(0, 5, runs);
        for range in ranges {
            for n in [1, 3, HALF, M] {
                list.say(&format!("gap 0/0 {range} {n}"));
            }
        }
    }
    cut(&mut list);
    shifted(&mut list);
    chances(&mut list);
    list
}

// Free runs of one to four positions, and a last one of which the range leaves as many as are asked for, one less, one more.
fn cut(list: &mut List) {
    list.store(0, 5, &[[0, 1], [3, 5], [8, 11], [15, 20], [25, 29]]);
    for lower in ["u", "i2", "i7", "e9", "i13", "i20"] {
        for n in 1..=5 {
            for left in [n - 1, n, n + 1] {
                list.say(&format!("gap 0/0 {lower} e{} {n}", 30 + left));
            }
        }
        list.say(&format!("gap 0/0 {lower} e25 4\ngap 0/0 {lower} i23 4"));
    }
}

// Gaps over the place where the positions wrap in memory, which a shift moves, and sets to true where it lies; in the second of two
// worlds, beside one that is full.
fn shifted(list: &mut List) {
    for (distance, left) in [(1, 1), (5, 1), (HALF, 1), (1, 0), (3, 0), (HALF, 0)] {
        list.pool(0, 6, &[[0, 1], [5, 5]]);
        list.say("set 0/0 u u 1");
        list.build(Place { store: 0, world: 1 }, &[[0, 1], [6, 7], [HALF, HALF + 3], [M - 5, M - 4]]);
        list.say(&format!("shift 0/1 {distance} {left}\nset 0/1 i{0} i{0} 1", M - 1));
        for range in ["u u", "i0 i14", "i2 i9", &format!("i{} u", M - 9), &format!("i{} i{}", HALF - 9, HALF + 9)] {
            for n in [1, 2, 3, 4, 5, 9, HALF - 4] {
                list.say(&format!("gap 0/1 {range} {n}"));
            }
        }
    }
}

// Ranges and lengths by chance, in worlds that change between.
fn chances(list: &mut List) {
    let mut random = Random::new(0x6A);
    for capacity in [2, 5, 12, 64] {
        let runs: Vec<Run> = (0..capacity as u64 / 2).map(|i| [20 * i + 3, 20 * i + 4 + random.below(12)]).collect();
        // Two worlds, each with a part of them.
        let most = capacity as u64;
        list.pool(0, capacity, &[[most / 2, most], [0, most]]);
        let (some, others) = runs.split_at(runs.len() / 2);
        list.build(Place::first(0), some);
        list.build(Place { store: 0, world: 1 }, others);
        for _ in 0..24 {
            let at = Place { store: 0, world: random.below(2) };
            let kind = random.one_of(&[Kind::Set, Kind::Set, Kind::Flip, Kind::Shift]);
            list.chance(&mut random, kind, at);
            list.chance(&mut random, Kind::Gap, at);
            list.chance(&mut random, Kind::Gap, at);
        }
        list.show_all(0);
    }
}
