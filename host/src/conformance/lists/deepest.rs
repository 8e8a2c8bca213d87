//! The list for the deepest tree of a height. Which one is left open, so this call is answered with a list nowhere else in the pack, and
//! `conformance/deepest.py` judges the answers of others; ours are one example.

use super::{HALF, M};
use crate::HEIGHT;
use crate::conformance::{List, ROOM};
use crate::differential::calls::{Call, Place};
use crate::differential::reference;

/// The list.
pub fn list() -> List {
    let mut list = List::new("deepest");
    // 1 before all others: no words at all, and those of capacity 0.
    for lent in ["", "words 0 0"] {
        list.say(lent);
        for height in [0, 1, 3, HEIGHT, HEIGHT + 1, M] {
            list.call(&Call::Deepest { at: 0, height, room: 8 });
        }
    }
    // The largest capacity of a list: words that are no sound pool, a pool of several worlds, and that again with a header word set. Up to
    // height 8 there is room; 13 comes before 8, and 8 before 2.
    for lent in ["words 0 64", "new 0 3 0 64 4 9 0 7\nset 0/1 i2 i7 1\nset 0/1 i20 u 1", "spoil 0"] {
        list.say(lent);
        for height in 0..=HEIGHT + 1 {
            ask(&mut list, 0, height);
        }
        for height in [1 << 32, 1 << 32 | 3, HALF + 3, M] {
            ask(&mut list, 0, height);
        }
        list.show(Place { store: 0, world: 1 });
    }
    // As many runs as the list has, one less and one more.
    for height in 1..=8 {
        let runs = reference::least(height)[0] as usize;
        for capacity in [runs - 1, runs, runs + 1] {
            list.pool(1, capacity, &[[0, M]]);
            ask(&mut list, 1, u64::from(height));
        }
    }
    list
}

// Asks for the list for a height with room for none of it, for a word less than is due, for half a run more, for three, and for just that.
fn ask(list: &mut List, at: usize, height: u64) {
    let due = match height {
        1..=HEIGHT => 2 * reference::least(height as u32)[0] as usize,
        _ => 2,
    };
    let mut rooms = [0, due - 1, due + 1, due + 6, due].map(|room| room.min(ROOM)).to_vec();
    rooms.dedup();
    for room in rooms {
        list.call(&Call::Deepest { at, height, room });
    }
}
