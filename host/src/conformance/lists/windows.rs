//! Maps read where there is little room: windows that would need a run more while they are emptied or half read and do not need it in the end, by the
//! capacity, by the ceiling, and by what another world leaves.

use super::{HALF, M};
use crate::conformance::List;
use crate::differential::calls::{Call, Place};
use crate::differential::reference::Run;

const HERE: Place = Place::first(0);

// One byte of a map each.
const MAPS: [u8; 14] = [0xFF, 0x7F, 0xFE, 0x00, 0x01, 0x80, 0x3C, 0xC3, 0x81, 0x55, 0xAA, 0x5A, 0xDB, 0x18];

/// The list.
pub fn list() -> List {
    let mut list = List::new("windows");
    // A window of the positions 8 to 15, with runs within it, around it, over it and beside it.
    let sets: [&[Run]; 9] = [
        &[],
        &[[0, 100]],
        &[[0, 9]],
        &[[12, 30]],
        &[[9, 9]],
        &[[8, 15]],
        &[[0, 7], [16, 30]],
        &[[6, 6], [17, 17]],
        &[[8, 9], [12, 13], [15, 15]],
    ];
    for room in 1..=3 {
        // The capacity, the ceiling, and what a neighbour leaves.
        let made = [
            format!("words 0 {room}\nnew 0 1 0 {room}"),
            format!("words 0 8\nnew 0 2 0 {room} 0 8"),
            format!("words 0 {}\nnew 0 2 1 8 2 8\nbuild 0/1 1 0 {M}", room + 2),
        ];
        for made in made {
            list.say(&made);
            for runs in sets.iter().filter(|runs| runs.len() <= room) {
                for map in MAPS {
                    list.build(HERE, runs);
                    list.call(&Call::ReadMap { at: HERE, base: 8, n: 8, map: vec![map] });
                    list.say("write_set 0/0 1 53");
                }
            }
        }
    }
    // A run over a window of whole words, and one at each end of all positions.
    for (base, run) in [(16, [0, 200]), (64, [0, 200]), (HALF - 9, [0, M]), (0, [0, M]), (M - 63, [HALF, M])] {
        list.store(0, 1, &[run]);
        for map in
            [[0xFF; 8], [0; 8], [0x7F; 8], [0xFF, 0xFF, 0xFF, 0xFF, 0xFF, 0xFF, 0xFF, 0x7F], [1, 0, 0, 0, 0, 0, 0, 0]]
        {
            list.build(HERE, &[run]);
            list.call(&Call::ReadMap { at: HERE, base, n: 64, map: map.to_vec() });
            list.say("tally 0/0 u u 1");
            for last in 0..2 {
                list.build(HERE, &[run]);
                list.call(&Call::ReadMap { at: HERE, base, n: 65, map: [&map[..], &[last]].concat() });
                list.say("tally 0/0 u u 1");
            }
        }
    }
    list
}
