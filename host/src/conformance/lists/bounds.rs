//! Every pair of bounds at 0, around 2^63 and at M, empty and reversed ranges among them.

use super::{HALF, M};
use crate::conformance::List;
use crate::differential::calls::Place;

// No bound, and each position included and excluded.
fn every_bound(positions: &[u64]) -> Vec<String> {
    let mut all = vec!["u".to_string()];
    all.extend(positions.iter().copied().flat_map(each));
    all
}

fn each(x: u64) -> [String; 2] {
    [format!("i{x}"), format!("e{x}")]
}

// Ranges whose bounds meet or just miss each other, at 0, in the middle and at M: empty, reversed, or of one position.
fn strict(list: &mut List) {
    list.say("new 1 1 0 4\nset 1/0 i2 i9 1");
    for x in [0, 5, HALF, M] {
        let bounds: Vec<String> = [x.saturating_sub(1), x, x.saturating_add(1)].into_iter().flat_map(each).collect();
        for (lower, upper) in bounds.iter().flat_map(|l| bounds.iter().map(move |u| (l, u))) {
            list.say(&format!("tally_strict 1/0 {lower} {upper} 0"));
        }
    }
    list.say(&format!(
        "set_strict 1/0 e5 e5 0
        set_strict 1/0 e5 e6 0
        set_strict 1/0 i5 e5 0
        set_strict 1/0 e{M} u 1
        set_strict 1/0 e{M} i{} 1
        set_strict 1/0 u e0 1
        set_strict 1/0 i1 e0 1
        flip_strict 1/0 i9 i2
        flip_strict 1/0 i9 i8
        flip_strict 1/0 i5 i6
        tally 1/0 u u 1",
        M - 1
    ));
}

/// The list.
pub fn list() -> List {
    let mut list = List::new("bounds");
    list.pool(0, 8, &[[0, 4], [2, 8], [3, 4]]);
    list.build(Place::first(0), &[[0, 1], [HALF - 1, HALF + 1], [M, M]]);
    // The same set in another world, in part moved there, and a world between that holds everything else.
    list.build(Place { store: 0, world: 2 }, &[[0, 0], [HALF - 2, HALF], [M - 1, M - 1]]);
    list.say("shift 0/2 1 1\nset 0/2 i0 i0 1\neq 0/0 0/2\nnot 0/1 0/0\nwords 1 4\nnew 1 1 0 4");
    let bounds = every_bound(&[0, HALF - 1, HALF, M]);
    for (i, (lower, upper)) in bounds.iter().flat_map(|l| bounds.iter().map(move |u| (l, u))).enumerate() {
        let range = format!("{lower} {upper}");
        let (v, w) = (i % 2, 1 - i % 2);
        let (k, s) = ([0, 1, 3, HALF - 3, HALF, M][i % 6], ["0/0", "0/2"][i / 2 % 2]);
        list.say(&format!(
            "find {s} {range} {v}
            find {s} {range} {w}
            tally {s} {range} {v}
            tally {s} {range} {w}
            ranges {s} {range} {w}
            select {s} {range} {v} {k}
            set 1/0 {range} {}
            flip 1/0 {range}
            tally 1/0 u u 1
            tally_strict {s} {range} {v}
            set_strict 1/0 {range} {}
            flip_strict 1/0 {range}
            tally 1/0 u u 1",
            i / 3 % 2,
            i / 5 % 2
        ));
    }
    strict(&mut list);
    for x in [0, 1, 2, HALF - 2, HALF - 1, HALF, HALF + 1, HALF + 2, M - 1, M] {
        list.say(&format!("get 0/0 {x}\nrun_at 0/0 {x}\nrun_at 0/1 {x}\nrun_at 0/2 {x}"));
    }
    // The whole of a full set and of an empty one.
    list.say("words 2 1");
    for (made, value) in [("new 2 1 0 1\nset 2/0 u u 1", 1), ("new 2 1 0 1", 0)] {
        list.say(made);
        for k in [0, 1, HALF, M - 1, M] {
            list.say(&format!("select 2/0 u u {value} {k}"));
        }
        list.say(&format!(
            "tally 2/0 u u {value}\ntally 2/0 e0 u {value}\ntally 2/0 u e{M} {value}\nrun_at 2/0 {HALF}"
        ));
    }
    list
}
