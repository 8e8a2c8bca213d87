//! What this version answers to numbers that are reserved: editions, numbers of a frame's calls, kinds of bounds, and truths above 1. A later version
//! may answer otherwise, so these lists are no part of conformance.

use super::{HALF, M};
use crate::conformance::{List, Shelf};
use crate::differential::calls::{Call, Place};
use crate::differential::chance;
use crate::differential::random::Random;
use crate::differential::records::{self, Record};

/// Every list with reserved numbers.
pub fn all() -> Vec<List> {
    vec![editions(), frames(), why_full()]
}

fn named(name: &'static str) -> List {
    List::on(Shelf::Reserved, name)
}

// Numbers that name no edition: this version writes rows.
fn editions() -> List {
    let mut list = named("editions");
    let at = Place::first(0);
    list.store(0, 8, &[[2, 3], [8, 9]]);
    for edition in [0, 3, 4, 255, 256, 257, 258, 1 << 32, (1 << 32) + 2, HALF + 2, M - 1, M] {
        for room in [36, 37, 38] {
            list.call(&Call::Write { at, edition, room });
        }
    }
    list
}

// Numbers that name no call are gets, ranges with a bound of a kind that has no name are empty, and truths are true.
fn frames() -> List {
    let mut list = named("frames");
    let mut random = Random::new(0xF5);
    list.store(0, 3, &[[2, 7]]);
    let play = |list: &mut List, asked: &[Record]| {
        for some in asked.chunks(32) {
            list.call(&Call::Frame { at: 0, calls: some.as_flattened().to_vec(), room: records::WORDS * some.len() });
            list.show_all(0);
        }
    };
    let mut all = Vec::new();
    // Each with the words of a set that would change something, and at a world that is not opened.
    for number in [21, 22, 23, 255, 256, 258, (1 << 32) + 2, HALF + 2, M] {
        all.push([number, 1, 7, 1, 9, 0, 0, 0]);
        all.push([number, 1, 7, 1, 9, 0, 0, 3]);
    }
    for kind in [0, 4, 257, 258, 259, (1 << 32) + 1, HALF + 1, M] {
        for number in [6, 8, 10, 14, 15, 18] {
            all.push([number, kind, 5, 1, 6, 1, 0, 0]);
            all.push([number, 1, 4, kind, 6, 1, 1, 0]);
            all.push([number, kind, 0, 3, 0, 0, 0, 0]);
            all.push([number, 3, 0, kind, M, 1, 0, 0]);
            all.push([number, kind, 5, kind, 6, 1, 0, 0]);
        }
        for number in [2, 3, 16, 17] {
            all.push([number, kind, 5, 1, 6, 0, 0, 0]);
            all.push([number, 2, 9, kind, 6, 1, 0, 0]);
            all.push([number, kind, 0, 3, 0, 0, 0, 0]);
            all.push([number, 3, 0, kind, M, 0, 0, 0]);
            all.push([number, kind, 9, kind, 2, 1, 0, 0]);
        }
    }
    // A number alone, and zeros.
    all.extend((2..=records::LAST).map(|number| [number, 0, 0, 0, 0, 0, 0, 0]));
    for truth in [2, 3, 255, 256, 1 << 32, HALF, M] {
        all.push([2, 1, 20, 2, 22, truth, M, 0]);
        all.push([10, 1, 20, 2, 22, truth, 3, 0]);
        all.push([11, 2, 0, 3, M, truth, 1, 0]);
        all.push([12, 2, 0, 3, M, truth, 1, 0]);
        all.push([4, 1, 1, 1, 1, truth, 1, 0]);
        all.push([15, 3, 0, 3, 0, truth, 2, 0]);
        all.push([19, 0, 20, 0, 22, truth, M, 0]);
    }
    play(&mut list, &all);
    for turn in 0..6 {
        list.pool(0, 4 + turn, &[[2, 3], [0, 8], [1, M]]);
        let asked = chance::listed(&mut random, &list.expected.stores[0], 20);
        play(&mut list, &asked);
    }
    list
}

// Ranges with a bound of a kind that has no name, in lists of ranges: they are empty, whatever the other bound is.
fn why_full() -> List {
    let mut list = named("why_full");
    list.say("words 2 1");
    for x in [0, 1, HALF, M - 1, M] {
        for kind in [0, 4, 257, (1 << 32) + 1, HALF + 2, M] {
            for [lower, upper] in [[kind, 1], [1, kind], [kind, 2], [2, kind], [kind, 3], [3, kind], [kind, kind]] {
                let ranges = vec![1, 4, 1, 4, lower, x, upper, x, 1, M - 3, 1, M - 3];
                list.call(&Call::WhyFull { at: 2, ranges, room: 2 });
                let ranges = vec![lower, x, upper, x, lower, x, upper, x, 1, 4, 1, 4];
                list.call(&Call::WhyFull { at: 2, ranges, room: 0 });
            }
        }
    }
    list
}
