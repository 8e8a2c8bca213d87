//! Written sets of both editions: written, loaded and converted, and converted back; damaged ones, and slices that are too short.

use super::M;
use crate::conformance::{List, SLICE};
use crate::differential::calls::{Call, Place};
use crate::differential::chance;
use crate::differential::random::Random;
use crate::differential::reference::{self, Run};
use crate::differential::{EDITIONS, WRITTEN};

/// The list.
pub fn list() -> List {
    let mut list = List::new("editions");
    let mut random = Random::new(0xED);
    // The neighbour is sure of as many runs as the world of the bytes.
    list.pool(0, 8, &[[4, 4], [1, 4]]);
    list.build(Place::first(0), &[[5, 6], [8, M]]);
    let at = Place { store: 0, world: 1 };
    for runs in WRITTEN {
        let [rows, columns] = EDITIONS.map(|edition| reference::encode(edition, runs));
        let due = columns.len();
        list.call(&Call::Load { to: at, bytes: columns.clone() });
        for edition in [1, 2] {
            for room in [0, due - 1, due, due + 3] {
                list.call(&Call::Write { at, edition, room });
            }
        }
        // Each the other, and so back again.
        for bytes in [&rows, &columns] {
            for room in [0, due - 1, due, due + 3] {
                list.call(&Call::Convert { bytes: bytes.clone(), room });
            }
        }
        for i in 0..due {
            let mut bytes = columns.clone();
            bytes[i] = random.one_of(&[columns[i] ^ 1, 0xFF - columns[i]]);
            list.read(at, bytes);
        }
        for bytes in [&rows, &columns] {
            for _ in 0..4 {
                let mut bytes = bytes.clone();
                chance::spoil(&mut random, &mut bytes);
                list.read(at, bytes);
            }
        }
        list.show(at);
    }
    list.show(Place::first(0));
    full(&mut list, &mut random);
    list
}

// A full world of the largest capacity of a list, whose bytes all differ from their neighbours'.
fn full(list: &mut List, random: &mut Random) {
    let many: Vec<Run> = (0..64).map(|i| [i << 58, (i << 58) + random.below(1 << 57)]).collect();
    list.pool(1, 64, &[[0, 64]]);
    for edition in EDITIONS {
        list.read(Place::first(1), reference::encode(edition, &many));
    }
    list.say(&format!("write_set 1/0 2 {}\nwrite_set 1/0 2 {SLICE}\nset 1/0 i{M} i{M} 1", SLICE - 1));
}
