//! The count of runs in a written set: every bit of it by itself and with others, where no run follows and where one does. A count that is cut to
//! fewer bits, or whose sixteenfold wraps, agrees with some of these lengths, and the count as it stands does not.

use crate::conformance::List;
use crate::conformance::text::digits;
use crate::differential::EDITIONS;
use crate::differential::calls::Place;
use crate::differential::reference::{self, Run};

/// The list.
pub fn list() -> List {
    let mut list = List::new("counts");
    list.store(0, 64, &[[7, 9]]);
    let mut counts: Vec<u32> = (0..32).flat_map(|bit| [1 << bit, 1 << bit | 1]).collect();
    counts.extend([0, 0xF000_0000, 0xF000_0001, 0xFFFF_FFF0, u32::MAX - 1, u32::MAX, 0x0100_0100, 0x1234_5678]);
    counts.dedup();
    for edition in EDITIONS {
        for &count in &counts {
            for runs in [&[][..], &[[5, 6]]] {
                told(&mut list, edition, count, runs);
            }
        }
        // As many runs as a list has, and a count that agrees with them in its low bits.
        let many: Vec<Run> = (0..60).map(|i| [4 * i, 4 * i + 1]).collect();
        for high in [0, 1 << 8, 1 << 16, 1 << 24, 1 << 28, 1 << 31] {
            told(&mut list, edition, high | 60, &many);
        }
    }
    list.say("tally 0/0 u u 1");
    list
}

// Every reader on runs whose count is said to be that, in slices that are long enough for all of them.
fn told(list: &mut List, edition: crate::Edition, count: u32, runs: &[Run]) {
    let mut bytes = reference::encode(edition, runs);
    bytes[1..5].copy_from_slice(&count.to_be_bytes());
    let (room, all) = (bytes.len().max(64), digits(&bytes));
    let at = Place::first(0);
    list.say(&format!("load {at} {all}\nmend {at} {all} {room} {}\nconvert {all} {room}", runs.len().max(4)));
}
