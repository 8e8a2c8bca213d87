//! Lists of large sets, windows and surveys, whose long arguments are patterns: `large/` in the pack.

mod changes;
mod deepest;
mod grid;
mod maps;
mod mended;
mod sets;
mod why_full;
mod worlds;

use super::{HALF, M};
use crate::conformance::{List, Shelf, text};
use crate::differential::reference::Run;

/// Every large list.
pub fn all() -> Vec<List> {
    vec![
        sets::list(),
        maps::list(),
        mended::list(),
        why_full::list(),
        deepest::list(),
        grid::list(),
        worlds::list(),
        changes::list(),
    ]
}

fn named(name: &'static str) -> List {
    List::on(Shelf::Large, name)
}

// The pattern of so many runs of a length, each a step after the one before it, in the order that the turn makes.
fn spaced(start: u64, step: u64, length: u64, count: u64, turn: u64) -> String {
    format!("{start}:{step}:{length}:{count}:{turn}")
}

fn runs_of(pattern: &str) -> Vec<Run> {
    text::runs_by(pattern).expect("a pattern")
}
