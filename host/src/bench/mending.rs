//! Mending written sets, against IntervalBitSet's sets of the same runs in the same order; and, of a set that is right already, against a load.
//!
//! A list has one run in each cell, as the other measured sets do. In an overlapping pair the lower run reaches into the upper one.

use super::measure::{Progress, Sides, Times, both, nanos, number, table};
use super::work;
use crate::differential::random::Random;
use crate::differential::reference::{self, Run};
use crate::oracle::IntervalBitSet;
use crate::{Edition, Fate, SetBuf};

const SIZES: [usize; 3] = [1_000, 10_000, 65_536];
const MOST: usize = 65_536;
const REPETITIONS: usize = 11;
const DONE: &str = "no call is refused";

// How the runs of a list stand, and in which edition they are written.
struct Order {
    label: &'static str,
    edition: Edition,
    // One run in so many reaches into the next; 0 where none does.
    overlapping: usize,
    arrange: fn(&mut [Run], &mut Random),
}

const ORDERS: [Order; 5] = [
    Order {
        label: "random order, a tenth overlapping",
        edition: Edition::Rows,
        overlapping: 10,
        arrange: |runs, random| random.shuffle(runs),
    },
    Order {
        label: "the same by columns",
        edition: Edition::Columns,
        overlapping: 10,
        arrange: |runs, random| random.shuffle(runs),
    },
    Order {
        label: "random order, all overlapping",
        edition: Edition::Rows,
        overlapping: 1,
        arrange: |runs, random| random.shuffle(runs),
    },
    Order { label: "falling", edition: Edition::Rows, overlapping: 0, arrange: |runs, _| runs.reverse() },
    Order { label: "already right", edition: Edition::Rows, overlapping: 0, arrange: |_, _| {} },
];

/// What was measured at each number of runs: each order beside IntervalBitSet, and a set that is right already beside a load of it, in both
/// editions.
pub struct Mending {
    orders: Vec<Vec<Sides>>,
    right: Vec<Vec<Sides>>,
}

fn runs_of(size: usize, order: &Order, random: &mut Random) -> Vec<Run> {
    let mut runs = work::cells(size, random);
    for i in 1..size {
        if order.overlapping > 0 && i % order.overlapping == 0 {
            runs[i - 1][1] = runs[i][0] + random.below(100);
        }
    }
    (order.arrange)(&mut runs, random);
    runs
}

fn set_of(size: usize) -> SetBuf {
    SetBuf::with_capacity((size + size / 10).min(MOST)).expect("a capacity")
}

// The sets of all runs, one by one.
#[inline(never)]
fn sets(runs: &[Run]) -> IntervalBitSet {
    let mut set = IntervalBitSet::new();
    for &[start, end] in runs {
        set.set(start as usize..=end as usize, true);
    }
    set
}

// Mending a list, beside the sets of its runs.
fn ordered(size: usize, order: &Order) -> Sides {
    let runs = runs_of(size, order, &mut Random::new(size as u64));
    let bytes = reference::encode(order.edition, &runs);
    let outcome = reference::united(&runs);
    let due = reference::encode(order.edition, &outcome);
    let (mut out, mut report) = (vec![0; bytes.len()], vec![Fate::Dropped; size]);
    let mut ours = set_of(size);
    let mut times = Times::default();
    for repetition in 0..REPETITIONS {
        let (mut filled, mut theirs) = (0, IntervalBitSet::new());
        times.push(both(
            repetition,
            || nanos(|| filled = ours.mend(&bytes, &mut out, &mut report).expect(DONE).set.len()),
            || nanos(|| theirs = sets(&runs)),
        ));
        assert!(out[..filled] == due, "another set was written");
        let fates = report.iter().map(|&fate| fate as u8);
        assert!(fates.eq(reference::fates(&runs, &outcome)), "the report differs");
        let held = theirs.ranges(.., true).map(|r| [*r.start() as u64, *r.end() as u64]);
        assert!(held.eq(outcome.iter().copied()), "the two sides do not hold the same positions");
    }
    times.medians()
}

// Mending a set that is right already, beside a load of it.
fn right(size: usize, edition: Edition) -> Sides {
    let bytes = reference::encode(edition, &work::cells(size, &mut Random::new(size as u64)));
    let (mut out, mut report) = (vec![0; bytes.len()], vec![Fate::Dropped; size]);
    let [mut mended, mut loaded] = [(); 2].map(|()| set_of(size));
    let mut times = Times::default();
    for repetition in 0..REPETITIONS {
        times.push(both(
            repetition,
            || nanos(|| assert!(mended.mend(&bytes, &mut out, &mut report).is_ok())),
            || nanos(|| loaded.load(&bytes).expect(DONE)),
        ));
        assert!(out == bytes && report.iter().all(|&fate| fate == Fate::Kept), "it does not come back");
        assert!(mended.eq(&loaded).expect(DONE), "another set was loaded");
    }
    times.medians()
}

/// Medians of nanoseconds for each call.
pub fn measure(progress: &Progress) -> Mending {
    let orders = ORDERS.iter().map(|order| {
        progress.tell(&format!("mending, {}", order.label));
        SIZES.iter().map(|&size| ordered(size, order)).collect()
    });
    let orders = orders.collect();
    progress.tell("mending, beside a load");
    let editions = [Edition::Rows, Edition::Columns];
    let right = editions.map(|edition| SIZES.iter().map(|&size| right(size, edition)).collect()).into();
    Mending { orders, right }
}

/// Prints what was measured.
pub fn tell(mending: &Mending) {
    let orders: Vec<&str> = ORDERS.iter().map(|order| order.label).collect();
    for (labels, rows, sides) in [
        (&orders[..], &mending.orders, "library / IntervalBitSet"),
        (&["already right, by rows", "already right, by columns"], &mending.right, "mend / load"),
    ] {
        let show = |title: &str, cell: fn(&Sides) -> String| {
            let cells = rows.iter().map(|row| row.iter().map(cell).collect());
            table(title, &SIZES, labels.iter().copied().zip(cells));
        };
        show(sides, |s| number(s.ratio()));
        show(&format!("µs a call, {sides}"), |s| format!("{} / {}", number(s.ours / 1e3), number(s.theirs / 1e3)));
    }
}
