//! The lists for the heights of trees up to the greatest, at capacities between.

use crate::HEIGHT;
use crate::conformance::List;
use crate::differential::reference;

/// The list.
pub fn list() -> List {
    let mut list = super::named("deepest");
    let least = |height: u64| reference::least(height as u32)[0];
    for capacity in [300, 5000, least(HEIGHT) - 1, least(HEIGHT), 65_536] {
        list.say(&format!("words 0 {capacity}"));
        for height in 0..=HEIGHT + 1 {
            let due = 2 * least(height.min(HEIGHT));
            list.say(&format!("deepest 0 {height} {}\ndeepest 0 {height} {due}", due.saturating_sub(1)));
        }
    }
    // In a pool that is in use, with more room than is due.
    list.say(&format!(
        "new 0 2 0 9 4 4\nbuild 0/1 1 3 9\ndeepest 0 17 {}\ndeepest 0 12 2000\ntally 0/1 u u 1",
        2 * least(17) + 6
    ));
    list
}
