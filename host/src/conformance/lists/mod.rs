//! The lists, each with one purpose.

mod borders;
mod bounds;
mod bytes;
mod capacity;
mod cases;
mod counts;
mod deepest;
mod editions;
mod fills;
mod frames;
mod gaps;
mod grid;
mod joined;
mod large;
mod limits;
mod listings;
mod long;
mod mended;
mod refusals;
mod reserved;
mod shifts;
mod why_full;
mod windows;
mod worlds;

use super::List;
use crate::differential::{HALF, M};

/// Every list.
pub fn all() -> Vec<List> {
    let mut all = small();
    all.extend(large::all());
    all.extend(reserved::all());
    all
}

fn small() -> Vec<List> {
    vec![
        cases::list(),
        bounds::list(),
        refusals::list(),
        listings::list(),
        shifts::list(),
        joined::list(),
        bytes::list(),
        editions::list(),
        mended::list(),
        deepest::list(),
        why_full::list(),
        capacity::list(),
        frames::list(),
        gaps::list(),
        grid::list(),
        worlds::list(),
        counts::list(),
        borders::list(),
        windows::list(),
        fills::list(),
        limits::list(),
        long::list(),
    ]
}
