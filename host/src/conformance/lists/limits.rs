//! Limits that few pools have: floors and ceilings of many bits, floors past the eighth world, a pool that is to be made anew in words that are not
//! sound, numbers of worlds above 15 in words that are no pool, and ceilings of what is made of another world.

use super::refusals;
use super::{HALF, M};
use crate::conformance::List;
use crate::differential::calls::Place;
use crate::differential::reference::Run;

/// The list.
pub fn list() -> List {
    let mut list = List::new("limits");
    unopened(&mut list);
    ceilings(&mut list);
    floors(&mut list);
    refused(&mut list);
    moved(&mut list);
    list
}

// Numbers about the widths that a number may be cut to.
fn wide() -> Vec<u64> {
    [8, 16, 31, 32, 63]
        .into_iter()
        .flat_map(|bits| [(1 << bits) - 1, 1 << bits, (1 << bits) + 1])
        .chain([M - 1, M])
        .collect()
}

// 1 and 7 before 12, of numbers that no world has and that some do when they are cut.
fn unopened(list: &mut List) {
    list.say("words 1 4\nnew 1 1 0 4\nbuild 1/0 1 3 9\nwords 2 3\nnew 2 2 1 1 0 3\nbuild 2/1 1 6 12");
    for lent in [
        "",
        "words 0 0",
        "words 0 4",
        "new 0 16 0 4 0 4 0 4 0 4 0 4 0 4 0 4 0 4 0 4 0 4 0 4 0 4 0 4 0 4 0 4 0 4\nspoil 0",
    ] {
        list.say(lent);
        for world in [15, 16].into_iter().chain(wide()) {
            list.say(&format!("get 0/{world} 0\nset 0/{world} u u 1\ngap 0/{world} u u 0\nfill 0/{world} 0 0"));
        }
        for world in [16, M] {
            list.say(&refusals::calls(&format!("0/{world}"), "1/0", "2/1"));
        }
    }
    // Of two stores and more, with a sound one first and last.
    for world in [16, 1 << 32, M] {
        list.say("words 0 4\nwords 3 4\nnew 3 1 0 4");
        for (to, a, b) in [("0", "3", "3"), ("3", "0", "3"), ("3", "3", "0")] {
            for (x, y, z) in [(world, 0, 0), (0, world, 0), (0, 0, world)] {
                list.say(&format!("combine {to}/{x} or {a}/{y} {b}/{z}\nshifted {to}/{x} {a}/{y} 0 1\nnot {to}/{x} {a}/{y}\neq {to}/{x} {a}/{y}"));
            }
        }
    }
    list.say("new 0 2 0 4 0 4");
    for world in wide() {
        list.say(&format!("get 0/{world} 0\nbuild 0/{world} 1 3 4\neq 0/0 0/{world}\nnot 0/0 0/{world}"));
    }
}

// A ceiling of many bits bounds no world of a small pool.
fn ceilings(list: &mut List) {
    list.say("words 0 4");
    for ceiling in wide() {
        list.say(&format!(
            "new 0 1 0 {ceiling}
            set 0/0 i1 i1 1
            set 0/0 i3 i3 1
            set 0/0 i5 i5 1
            set 0/0 i7 i7 1
            set 0/0 i9 i9 1
            build 0/0 2 1 1 3 3
            read_map 0/0 8 8 55
            new 0 1 2 {ceiling}
            set 0/0 i1 i1 1
            new 0 2 0 {ceiling} 1 1
            build 0/0 3 1 1 3 3 5 5
            flip 0/0 i7 i7
            combine 0/1 or 0/0 0/0
            shifted 0/1 0/0 9 1"
        ));
    }
}

// Floors of many bits are more than the pool has, and floors count in whichever world they stand.
fn floors(list: &mut List) {
    for floor in wide() {
        list.say(&format!(
            "words 0 4\nnew 0 1 0 4\nset 0/0 i3 i9 1\nnew 0 1 {floor} {M}\nnew 0 2 {floor} {M} 1 4\nnew 0 2 1 4 {floor} {floor}\nget 0/0 5"
        ));
    }
    // The neighbours of the second world take up to the capacity, which the others' floors keep from it.
    for worlds in [8, 9, 10, 12, 15, 16] {
        for (capacity, first) in [(8, true), (8, false), (worlds, true)] {
            list.say(&format!("words 0 {capacity}"));
            for more in [0, 1] {
                let floor = |i: usize| {
                    let place = if first { i } else { worlds - 1 - i };
                    u64::from(place < capacity) + if i + 1 == worlds { more } else { 0 }
                };
                let limits: String = (0..worlds).map(|i| format!(" {} 9", floor(i))).collect();
                list.say(&format!("new 0 {worlds}{limits}\nget 0/{} 0", worlds - 1));
            }
        }
        // One floor alone, in each world, and another world that would take what it keeps.
        for at in [0, 7, 8, worlds - 1] {
            let limits: String = (0..worlds).map(|i| if i == at { " 2 9" } else { " 0 9" }).collect();
            let other = (at + 1) % worlds;
            list.say(&format!("words 0 3\nnew 0 {worlds}{limits}"));
            for count in [2, 1] {
                list.build(Place { store: 0, world: other as u64 }, &[[0, 1], [4, 5]][..count]);
            }
            for count in [3, 2] {
                list.build(Place { store: 0, world: at as u64 }, &[[0, 1], [4, 5], [8, 9]][..count]);
            }
            list.say(&format!("set 0/{other} i9 i9 1\nset 0/{} i9 i9 1", worlds - 1));
        }
    }
}

// A pool that is refused leaves the words as they were: sound or not.
fn refused(list: &mut List) {
    for made in [
        "words 0 8",
        "words 0 8\nnew 0 2 1 4 0 8\nset 0/1 i3 i9 1\nspoil 0",
        "words 0 8\nnew 0 2 1 4 0 8\nset 0/1 i3 i9 1",
    ] {
        list.say(made);
        for limits in [
            "0",
            "1 9 9",
            "1 3 2",
            "2 4 8 5 8",
            "17 0 1 0 1 0 1 0 1 0 1 0 1 0 1 0 1 0 1 0 1 0 1 0 1 0 1 0 1 0 1 0 1 0 1",
        ] {
            list.say(&format!("new 0 {limits}\nget 0/1 5\nget 0/0 0\nget 0/2 0\nframe 0 0 0"));
        }
        list.say("new 0 1 8 8\nget 0/0 5\nget 0/1 5");
    }
}

// What is moved into another world is bounded there by what is left of it, and not by what it was before: by the capacity, a ceiling and a floor.
fn moved(list: &mut List) {
    let runs: [Run; 4] = [[0, 1], [3, 4], [6, 7], [M - 1, M]];
    list.store(1, 8, &runs);
    for room in 1..=4 {
        for made in [
            format!("words 0 {room}\nnew 0 1 0 {room}"),
            format!("words 0 8\nnew 0 2 0 {room} 0 8"),
            format!("words 0 {}\nnew 0 2 0 8 2 8", room + 2),
        ] {
            list.say(&made);
            for distance in [0, 1, 2, 3, 5, 6, 8, HALF, M - 8, M - 6, M - 4, M - 1, M] {
                for left in 0..2 {
                    list.say(&format!("shifted 0/0 1/0 {distance} {left}\ntally 0/0 u u 1"));
                }
            }
        }
    }
}
