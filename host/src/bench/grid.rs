//! Rectangles of cells and surveys, against plain Rust over IntervalBitSet: its `set` and `count` row by row, and the same halving by its `get` and
//! `find`. They are single public calls, so the soundness check is in each of the library's times.

use std::ops::RangeInclusive;

use super::measure::{Progress, Sides, Times, both, commas, headed, nanos, number};
use super::work::{self, Pair};
use crate::differential::random::Random;
use crate::oracle::IntervalBitSet;
use crate::{Piece, Rect, SIDE};

// Rows, and columns, of a rectangle, and how many times it is set and freed, or counted, so that a time is long enough to be told.
const SIZES: [(u64, usize); 4] = [(1, 64), (16, 16), (128, 4), (1_024, 1)];
// Runs that the world has elsewhere, and room for so many more, where there is much.
const BESIDE: usize = 1_000;
const MUCH: usize = 8_192;
const REPETITIONS: usize = 51;
const SURVEYS: usize = 11;
const DONE: &str = "no call is refused";

const LABELS: [&str; 3] = ["set and freed, much room", "set and freed, no room for a run more", "count"];
const SQUARES: [&str; 3] = ["empty", "one blob", "chessboard"];
// The square of 256 by 256 cells that is surveyed.
const SQUARE: [u64; 2] = [256, 512];
const K: u64 = 8;

fn rows(rect: Rect) -> impl Iterator<Item = RangeInclusive<usize>> {
    (rect.top..=rect.bottom).map(move |row| (row * SIDE + rect.left) as usize..=(row * SIDE + rect.right) as usize)
}

#[inline(never)]
fn set_rows(set: &mut IntervalBitSet, rect: Rect, value: bool) -> u128 {
    rows(rect).map(|row| set.set(row, value)).sum()
}

#[inline(never)]
fn count_rows(set: &IntervalBitSet, rect: Rect) -> u128 {
    rows(rect).map(|row| set.count(row, true)).sum()
}

// Setting a free rectangle and freeing it again, in turn, and counting it while it is held; with much room for runs, or for just those that it
// leaves. Each time is of one call.
fn rectangles(side: u64, count: usize, much: bool) -> [Sides; 2] {
    let mut random = Random::new(side);
    let room = if much { MUCH } else { side as usize };
    let mut pair = Pair::new(BESIDE + room, &work::cells(BESIDE, &mut random), &mut random);
    let rect = Rect::new((100, 200), (99 + side, 199 + side));
    let [mut changes, mut counts] = [Times::default(), Times::default()];
    for repetition in 0..REPETITIONS {
        let Pair { ours, theirs } = &mut pair;
        let mut told = [0; 2];
        let [a, b] = &mut told;
        let (library, plain) = both(
            repetition,
            || {
                nanos(|| {
                    for value in [true, false].into_iter().cycle().take(2 * count) {
                        *a += ours.set_rect(rect, value).expect(DONE);
                    }
                })
            },
            || {
                nanos(|| {
                    for value in [true, false].into_iter().cycle().take(2 * count) {
                        *b += set_rows(theirs, rect, value);
                    }
                })
            },
        );
        changes.push((library / (2 * count) as f64, plain / (2 * count) as f64));
        assert_eq!(told, [2 * count as u128 * u128::from(side * side); 2], "another number of cells");
        pair.compare();
        let Pair { ours, theirs } = &mut pair;
        ours.set_rect(rect, true).expect(DONE);
        set_rows(theirs, rect, true);
        let mut told = [0; 2];
        let [a, b] = &mut told;
        let (library, plain) = both(
            repetition,
            || nanos(|| (0..count).for_each(|_| *a += u128::from(ours.count_rect(rect).expect(DONE)))),
            || nanos(|| (0..count).for_each(|_| *b += count_rows(theirs, rect))),
        );
        counts.push((library / count as f64, plain / count as f64));
        assert_eq!(told, [count as u128 * u128::from(side * side); 2], "another number of cells");
        pair.compare();
        pair.ours.set_rect(rect, false).expect(DONE);
        set_rows(&mut pair.theirs, rect, false);
    }
    [changes, counts].map(Times::medians)
}

// The value that all cells of a piece have, if it is one: no row of it has a cell of the other.
fn only_value(set: &IntervalBitSet, rect: Rect) -> Option<bool> {
    let value = set.get((rect.top * SIDE + rect.left) as usize);
    rows(rect).all(|row| set.find(row, !value).is_none()).then_some(value)
}

#[inline(never)]
fn survey(set: &IntervalBitSet, [row, column]: [u64; 2], [high, wide]: [u64; 2], out: &mut Vec<Piece>) {
    let rect = Rect::new((row, column), (row + high - 1, column + wide - 1));
    if let Some(value) = only_value(set, rect) {
        out.push(Piece { row, column, rows: high, columns: wide, value: value.into() });
    } else if high == wide {
        survey(set, [row, column], [high, wide / 2], out);
        survey(set, [row, column + wide / 2], [high, wide / 2], out);
    } else {
        survey(set, [row, column], [high / 2, wide], out);
        survey(set, [row + high / 2, column], [high / 2, wide], out);
    }
}

// Whether a cell of the square is held.
fn held(setting: usize, row: u64, column: u64) -> bool {
    match setting {
        0 => false,
        // A disc.
        1 => row.abs_diff(120).pow(2) + column.abs_diff(130).pow(2) < 100 * 100,
        _ => (row + column).is_multiple_of(2),
    }
}

// A survey of the square, and how many pieces it has.
fn square(setting: usize) -> (Sides, usize) {
    let mut random = Random::new(setting as u64);
    let [top, left] = SQUARE;
    let mut runs: Vec<[u64; 2]> = Vec::new();
    for (row, column) in (0..1 << K).flat_map(|row| (0..1 << K).map(move |column| (row, column))) {
        let x = (top + row) * SIDE + left + column;
        match runs.last_mut() {
            _ if !held(setting, row, column) => {}
            Some(run) if run[1] + 1 == x => run[1] = x,
            _ => runs.push([x, x]),
        }
    }
    runs.extend(work::cells(BESIDE, &mut random));
    let capacity = if runs.len() > MUCH { 65_536 } else { MUCH };
    let pair = Pair::new(capacity, &runs, &mut random);
    let mut ours = vec![Piece::default(); 1 << (2 * K)];
    let mut theirs = Vec::with_capacity(1 << (2 * K));
    let mut times = Times::default();
    for repetition in 0..SURVEYS {
        theirs.clear();
        let mut filled = 0;
        times.push(both(
            repetition,
            || nanos(|| filled = pair.ours.survey(top, left, K, &mut ours).expect(DONE).len()),
            || nanos(|| survey(&pair.theirs, SQUARE, [1 << K; 2], &mut theirs)),
        ));
        assert!(ours[..filled] == theirs, "the surveys differ");
    }
    (times.medians(), theirs.len())
}

/// Measures rectangles and surveys, and prints Markdown.
pub fn tell(progress: &Progress) {
    let columns = SIZES.map(|(side, count)| {
        progress.tell(&format!("rectangles, {side} rows and columns"));
        let [changed, counted] = rectangles(side, count, true);
        let [near, _] = rectangles(side, count, false);
        [changed, near, counted]
    });
    let heads = SIZES.map(|(side, _)| format!("{0} × {0}", commas(side.to_string())));
    let cells = |row: usize, cell: fn(&Sides) -> String| columns.iter().map(|c| cell(&c[row])).collect();
    let show = |title: &str, cell: fn(&Sides) -> String| {
        headed(title, &heads, LABELS.iter().enumerate().map(|(row, &label)| (label, cells(row, cell))));
    };
    let times = |s: &Sides| format!("{} / {}", number(s.ours / 1e3), number(s.theirs / 1e3));
    show("library / IntervalBitSet", |s| number(s.ratio()));
    show("µs a call, library / IntervalBitSet", times);
    let mut sides = Vec::new();
    let mut heads = Vec::new();
    for (setting, label) in SQUARES.iter().enumerate() {
        progress.tell(&format!("surveys, {label}"));
        let (side, pieces) = square(setting);
        sides.push(side);
        heads.push(format!("{label}: {} piece{}", commas(pieces.to_string()), if pieces == 1 { "" } else { "s" }));
    }
    let show = |title: &str, cell: fn(&Sides) -> String| {
        headed(title, &heads, [("256 × 256", sides.iter().map(cell).collect())].into_iter());
    };
    show("library / IntervalBitSet", |s| number(s.ratio()));
    show("µs a survey, library / IntervalBitSet", times);
}
