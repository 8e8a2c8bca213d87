//! Sets made of others, and compared.

use super::{HALF, M};
use crate::conformance::List;
use crate::differential::calls::Place;
use crate::differential::chance::{self, Kind};
use crate::differential::random::Random;
use crate::differential::reference::{Limit, Run};

/// The list.
pub fn list() -> List {
    let mut list = List::new("joined");
    let sets: [&[Run]; 7] = [
        &[],
        &[[0, M]],
        &[[2, 7]],
        &[[5, 9], [20, 29]],
        &[[0, 4], [8, 8], [10, M]],
        &[[0, 0], [M, M]],
        &[[8, HALF], [HALF + 2, M - 1]],
    ];
    // Of two worlds of one pool, or of two pools, into a world of a third, and into one of the first itself that has room for two runs.
    let result = Place::first(0);
    list.pool(0, 6, &[[0, 6]]);
    for (i, a) in sets.iter().enumerate() {
        list.pool(1, 8, &[[3, 3], [0, 2], [3, 6]]);
        list.build(Place::first(1), a);
        list.say("not 0/0 1/0");
        list.show(result);
        list.say("not 1/1 1/0\ntally 1/1 u u 1\neq 1/0 1/0\neq 1/1 1/0\nbuild 1/1 0");
        for (j, b) in sets.iter().enumerate() {
            let other = if j % 2 == 0 { Place { store: 1, world: 2 } } else { Place::first(2) };
            list.pool(2, 3, &[[0, 3]]);
            list.build(other, b);
            list.say(&format!("eq 1/0 {other}"));
            for op in ["and", "or", "xor"] {
                list.say(&format!("combine 0/0 {op} 1/0 {other}"));
                list.show(result);
            }
            list.say(&format!("combine 1/1 {} {other} 1/0\ntally 1/1 u u 1", ["and", "or", "xor"][(i + j) % 3]));
        }
        list.say("combine 0/0 and 1/0 1/0\neq 0/0 1/0\ncombine 0/0 xor 1/0 1/0\ntally 0/0 u u 1");
        // Into a world that is read too.
        list.say("combine 1/0 or 1/0 1/2\nnot 1/2 1/2\nshifted 1/0 1/0 1 1");
        list.show_all(1);
    }
    // The same positions by other histories.
    list.say(&format!(
        "build 1/0 0
        set 1/0 i10 i19 1
        shift 1/0 5 1
        set 1/0 u i14 1
        build 1/2 1 0 24
        eq 1/0 1/2
        eq 1/2 1/0
        shift 1/0 {HALF} 1
        shift 1/0 {HALF} 0
        eq 1/0 1/2
        flip 1/2 i24 i24
        eq 1/0 1/2
        shift 1/0 1 0
        eq 1/0 1/2
        shift 1/2 1 1
        eq 1/0 1/2
        shift 1/0 1 1
        eq 1/2 1/0"
    ));
    let mut random = Random::new(0x70);
    let pools: [(usize, &[Limit]); 4] =
        [(3, &[[0, 3]]), (6, &[[1, 5], [2, 9]]), (9, &[[2, 4], [0, M], [0, 3]]), (8, &[[0, 8]; 16])];
    for (at, (capacity, limits)) in pools.into_iter().enumerate() {
        list.pool(at, capacity, limits);
        list.build(Place::first(at), &[[4, 9]]);
    }
    for _ in 0..120 {
        let joining = [Kind::Combine, Kind::Combine, Kind::Not, Kind::Shifted, Kind::Equal];
        let changing = [Kind::Set, Kind::Set, Kind::Flip, Kind::Shift];
        let kind = if random.truth() { random.one_of(&joining) } else { random.one_of(&changing) };
        let store = random.below(4) as usize;
        let at = chance::place(&mut random, &list.expected.stores, store);
        list.chance(&mut random, kind, at);
    }
    list
}
