//! Worlds in one pool: which may be made, how floors, ceilings and their sum bound each, and that a world leaves the others as they are.

use super::{HALF, M};
use crate::conformance::{List, may_be};
use crate::differential::calls::Place;
use crate::differential::chance::{self, Wander};
use crate::differential::random::Random;
use crate::differential::reference::Run;

fn at(world: u64) -> Place {
    Place { store: 0, world }
}

// So many runs, apart from each other.
fn runs(count: u64) -> Vec<Run> {
    (0..count).map(|i| [10 * i, 10 * i + 4]).collect()
}

/// The list.
pub fn list() -> List {
    let mut list = List::new("worlds");
    makings(&mut list);
    ceilings(&mut list);
    floors(&mut list);
    sums(&mut list);
    neighbours(&mut list);
    sixteen(&mut list);
    histories(&mut list);
    list
}

// 11, after 1, and limits that are just good enough. A refused one leaves the worlds that are there.
fn makings(list: &mut List) {
    for lent in ["", "words 0 0", "words 0 4"] {
        list.say(&format!("{lent}\nnew 0 0\nnew 0 1 2 1\n{}\nget 0/0 0", pairs(17, [0, 4])));
    }
    list.say("new 0 2 1 4 0 2\nset 0/0 i3 i9 1\nset 0/1 i5 u 1");
    for limits in [
        pairs(0, [0, 4]),
        pairs(17, [0, 4]),
        pairs(32, [0, 0]),
        String::from("new 0 1 5 5"),
        String::from("new 0 1 2 1"),
        String::from("new 0 2 0 0 1 0"),
        String::from("new 0 2 2 4 3 4"),
        String::from("new 0 5 1 4 1 4 1 4 1 4 1 4"),
        format!("new 0 1 {M} {M}"),
        // Together 2^64, and 2^64 + 4.
        format!("new 0 2 {M} {M} 1 1"),
        format!("new 0 2 {HALF} {M} {HALF} {M}"),
        format!("new 0 3 {M} {M} 4 4 1 1"),
        format!("new 0 2 {M} {} 0 4", M - 1),
    ] {
        list.say(&limits);
        list.say("get 0/0 5\nget 0/1 5\nget 0/2 5");
    }
    for limits in [
        pairs(16, [0, 4]),
        pairs(4, [1, 1]),
        String::from("new 0 1 4 4"),
        String::from("new 0 1 0 0"),
        format!("new 0 1 4 {M}"),
        String::from("new 0 2 0 5 4 4"),
        format!("new 0 3 1 {M} 3 3 0 0"),
    ] {
        list.say(&limits);
        list.show_all(0);
        list.say("set 0/0 i3 i9 1\nget 0/3 5\nget 0/15 5\nget 0/16 5");
    }
}

// The line that makes so many worlds alike.
fn pairs(count: usize, [floor, ceiling]: Run) -> String {
    format!("new 0 {count}{}", format!(" {floor} {ceiling}").repeat(count))
}

// A ceiling bounds a world in an empty pool, too; one of 0 leaves no room at all, and one above the capacity bounds nothing.
fn ceilings(list: &mut List) {
    list.pool(0, 4, &[[0, 0], [0, 1], [0, 3], [0, 5], [0, M]]);
    for world in 0..5 {
        for count in 0..=5 {
            list.build(at(world), &runs(count));
        }
        list.say(&format!("flip {0} i2 i2\nset {0} u i4 0\nset {0} u u 1\nset {0} i9 i9 0", at(world)));
        list.show(at(world));
        list.say(&format!("build {} 0", at(world)));
    }
}

// Whatever the others do, a world reaches its floor, and no run more.
fn floors(list: &mut List) {
    list.pool(0, 6, &[[2, 6], [3, 6], [0, 6], [1, 6]]);
    list.build(at(2), &runs(1));
    list.build(at(2), &runs(0));
    for (world, floor) in [(3, 1), (1, 3), (0, 2)] {
        for count in (0..=floor + 1).rev() {
            list.build(at(world), &runs(count));
        }
        list.build(at(world), &runs(floor));
    }
    list.say("set 0/2 i3 i3 1\nset 0/0 i100 i100 1\nset 0/1 i100 i100 1\nset 0/3 i100 i100 1");
    list.show_all(0);
    // Below its floor a world still takes as much.
    list.say("build 0/1 0\nset 0/2 i3 i3 1\nset 0/0 i100 i100 1\nbuild 0/1 3 0 0 2 2 4 4");
    list.show_all(0);
}

// Each world takes the larger of its runs and its floor: every number of runs of two worlds, and a third that takes what is left.
fn sums(list: &mut List) {
    list.pool(0, 5, &[[1, 4], [2, 4], [0, 5]]);
    for first in 0..=4 {
        for second in 0..=4 {
            list.say("build 0/0 0\nbuild 0/1 0\nbuild 0/2 0");
            list.build(at(0), &runs(first));
            list.build(at(1), &runs(second));
            for third in [2, 1, 3] {
                list.build(at(2), &runs(third));
            }
            list.say("tally 0/0 u u 1\ntally 0/1 u u 1\ntally 0/2 u u 1");
        }
    }
}

// Every change of a world leaves the others, whose positions are the same or lie between.
fn neighbours(list: &mut List) {
    list.pool(0, 9, &[[2, 4], [0, 9], [1, 3]]);
    list.pool(1, 4, &[[0, 4]]);
    list.build(Place::first(1), &[[0, 4], [20, M]]);
    for world in 0..3 {
        list.build(at(world), &[[10, 19], [HALF, HALF + 9]]);
    }
    for (i, change) in [
        "set AT i15 i30 1",
        "set AT i12 i13 0",
        "flip AT i5 i18",
        "shift AT 7 1",
        "shift AT 3 0",
        "read_map AT 8 16 aa0f",
        "read_map AT 8 16 ff00",
        "load AT 010000000100000000000000040000000000000007",
        "load AT 02000000020000000000000000000000000000020800000000000000000000000000000309",
        "combine AT or 1/0 0/2",
        "combine AT xor 0/0 0/1",
        "not AT 0/0",
        "shifted AT 0/1 9 1",
        "shift AT 18446744073709551615 1",
        "build AT 2 10 19 30 39",
    ]
    .into_iter()
    .enumerate()
    {
        for step in 0..2 {
            list.say(&change.replace("AT", &at((i as u64 + step) % 3).to_string()));
            list.show_all(0);
        }
        list.say("eq 0/0 0/1\neq 0/1 0/2");
    }
    // A pool made anew, with other limits, has nothing of the old one.
    list.say("new 0 2 4 4 5 5");
    list.show_all(0);
    list.say("get 0/2 15");
}

// Sixteen worlds that are full, one that gives up a run, and one that takes it.
fn sixteen(list: &mut List) {
    let limits: Vec<Run> = (0..16).map(|i| [i % 3, 4 + i % 2]).collect();
    list.pool(0, 40, &limits);
    for world in 0..16 {
        for count in (1..=3).rev() {
            list.build(at(world), &runs(count));
        }
    }
    for world in 0..16 {
        list.say(&format!("set {0} i500 i{1} 1\nset {0} i504 i504 0", at(world), 500 + world));
    }
    list.say("build 0/9 0\nset 0/4 i600 i600 1\nset 0/5 i600 i600 1\nset 0/6 i600 i600 1\nset 0/7 i600 i600 1");
    list.say("eq 0/0 0/15\neq 0/3 0/3\nget 0/16 0");
    list.show_all(0);
}

// Random histories, in small pools whose worlds are near their limits.
fn histories(list: &mut List) {
    let mut random = Random::new(0x33);
    for capacities in [[2, 3], [4, 6], [8, 12]] {
        for (store, &capacity) in capacities.iter().enumerate() {
            let limits = chance::limits(&mut random, capacity);
            list.pool(store, capacity, &limits);
        }
        let mut history = Wander::default();
        for _ in 0..100 {
            let call = history.next(&mut random, &list.expected.stores[..2]);
            if may_be(&call) {
                list.call(&call);
            }
        }
        list.show_all(0);
        list.show_all(1);
    }
}
