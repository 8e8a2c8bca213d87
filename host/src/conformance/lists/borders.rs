//! Maps across the borders of 64-bit words, both ways: runs that end, begin and lie about a border of the window's words, at windows in and out of step
//! with those of the positions.

use super::{HALF, M};
use crate::conformance::List;
use crate::differential::calls::{Call, Place};
use crate::differential::reference::Run;

const HERE: Place = Place::first(0);

// By their distance from the base of a window.
const RUNS: [Run; 20] = [
    [60, 63],
    [60, 64],
    [60, 65],
    [0, 63],
    [0, 64],
    [1, 63],
    [64, 127],
    [63, 64],
    [63, 127],
    [63, 63],
    [40, 70],
    [0, 127],
    [0, 128],
    [1, 128],
    [64, 64],
    [127, 128],
    [126, 192],
    [3, 191],
    [128, 191],
    [191, 192],
];

// Maps of three words, each word by itself.
const WORDS: [[u64; 3]; 14] = [
    [0, M, 0],
    [M, 0, M],
    [0, 0, 0],
    [M, M, M],
    [M, 0, 0],
    [0, 0, M],
    [0x0F, 0, M],
    [0, 1, 0],
    [HALF, 1, 0],
    [HALF, M, 1],
    [0, HALF, HALF],
    [M - 1, M, HALF - 1],
    [1, HALF, 1],
    [!0xFF, 0xFF, 0],
];

/// The list.
pub fn list() -> List {
    let mut list = List::new("borders");
    list.pool(0, 64, &[[0, 64]]);
    for base in [0, 1, 7, 8, 63, 64, HALF - 70, M - 200] {
        for run in RUNS {
            list.build(HERE, &[run.map(|x| base + x)]);
            for n in [128, 192, 193] {
                list.call(&Call::WriteMap { at: HERE, base, n, room: 32 });
            }
        }
        list.build(HERE, &[[5, 20], [62, 66], [120, 135]].map(|run| run.map(|x| base + x)));
        list.say(&format!("write_map 0/0 {base} 64 8\nwrite_map 0/0 {base} 65 9\nwrite_map 0/0 {base} 192 24"));
        for run in [[0, 191], [3, 70], [60, 140], [64, 127], [128, 191], [63, 64]] {
            for words in WORDS {
                read(&mut list, base, run, words);
            }
        }
    }
    list
}

// Reads a map of three words into a window with one run, of all their bits and of three fewer.
fn read(list: &mut List, base: u64, run: Run, words: [u64; 3]) {
    let map: Vec<u8> = words.iter().flat_map(|word| word.to_le_bytes()).collect();
    for n in [192, 189] {
        list.build(HERE, &[run.map(|x| base + x)]);
        list.call(&Call::ReadMap { at: HERE, base, n, map: map.clone() });
        list.say("write_set 0/0 1 69");
    }
}
