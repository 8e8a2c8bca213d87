//! Why a list of ranges is refused, against plain Rust over IntervalBitSet: the same sets until there are more runs than the capacity, then the first
//! range of each run.
//!
//! In every list the last range is the first refused one, so that all of it counts; a list of no more ranges than the capacity is not refused. Each
//! run has a cell of its own, as in the other measured sets, and the other ranges are parts of runs that are there already.

use super::measure::{Progress, Sides, Times, both, commas, headed, nanos, number};
use super::work;
use crate::differential::random::Random;
use crate::differential::reference::Run;
use crate::oracle::IntervalBitSet;
use crate::{RangeRecord, Refusal, SetBuf};

// How many ranges a list has, and the capacity.
const SIZES: [(usize, usize); 4] = [(1_000, 64), (5_000, 64), (1_000, 1_024), (5_000, 1_024)];
const REPETITIONS: usize = 11;

struct Order {
    label: &'static str,
    // In which order runs begin.
    arrange: fn(&mut [Run], &mut Random),
    // At which places, of so many, so many runs begin: the first and the last among them.
    begins: fn(usize, usize, &mut Random) -> Vec<usize>,
    // Which of the runs that have begun the other ranges are parts of, by how many these are.
    part: fn(u64, &mut Random) -> u64,
}

const ORDERS: [Order; 4] = [
    Order {
        label: "at random",
        arrange: |runs, random| random.shuffle(runs),
        begins: |length, runs, random| {
            let mut places: Vec<usize> = (1..length - 1).collect();
            random.shuffle(&mut places);
            places.truncate(runs - 2);
            places.extend([0, length - 1]);
            places.sort_unstable();
            places
        },
        part: |begun, random| random.below(begun),
    },
    Order { label: "rising", arrange: |_, _| {}, begins: evenly, part: |begun, _| begun - 1 },
    Order { label: "falling", arrange: |runs, _| runs.reverse(), begins: evenly, part: |begun, _| begun - 1 },
    Order {
        label: "no room for a run more, all the while",
        arrange: |runs, random| random.shuffle(runs),
        begins: |length, runs, _| (0..runs - 1).chain([length - 1]).collect(),
        part: |begun, random| random.below(begun),
    },
];

fn evenly(length: usize, runs: usize, _: &mut Random) -> Vec<usize> {
    (0..runs).map(|i| i * (length - 1) / (runs - 1)).collect()
}

fn list_of(length: usize, capacity: usize, order: &Order) -> Vec<Run> {
    let mut random = Random::new(length as u64);
    let mut runs = work::cells(length.min(capacity + 1), &mut random);
    (order.arrange)(&mut runs, &mut random);
    let begins = (order.begins)(length, runs.len(), &mut random);
    let mut begun = 0;
    let mut range = |place: usize| {
        if begins.get(begun) == Some(&place) {
            begun += 1;
            return runs[begun - 1];
        }
        let [start, end] = runs[(order.part)(begun as u64, &mut random) as usize];
        [start + random.below(64), end - random.below(64)]
    };
    (0..length).map(&mut range).collect()
}

// The places, in a slice that was made beforehand, and how many they are; none where no set makes more runs than the capacity.
#[inline(never)]
fn plain(list: &[Run], capacity: usize, runs: &mut Vec<(usize, u64)>, out: &mut [u64]) -> Option<usize> {
    let mut set = IntervalBitSet::new();
    let refused = list.iter().position(|&[start, end]| {
        set.set(start as usize..=end as usize, true);
        set.count_ranges(.., true) > capacity
    })?;
    // Each run's end, and the first range in it.
    runs.clear();
    runs.extend(set.ranges(.., true).map(|run| (*run.end(), u64::MAX)));
    for (place, &[start, _]) in (0..).zip(&list[..=refused]) {
        let run = runs.partition_point(|&(end, _)| end < start as usize);
        runs[run].1 = runs[run].1.min(place);
    }
    let places = &mut out[..runs.len()];
    places.iter_mut().zip(&*runs).for_each(|(place, run)| *place = run.1);
    places.sort_unstable();
    Some(places.len())
}

fn sides(length: usize, capacity: usize, order: &Order) -> Sides {
    let list = list_of(length, capacity, order);
    let records: Vec<RangeRecord> = list.iter().map(|&[start, end]| RangeRecord::new(start..=end)).collect();
    let set = SetBuf::with_capacity(capacity).expect("a capacity");
    let mut runs = Vec::with_capacity(capacity + 1);
    let [mut ours, mut theirs] = [(); 2].map(|()| vec![0; capacity + 1]);
    let mut times = Times::default();
    for repetition in 0..REPETITIONS {
        let (mut told, mut filled) = (Ok(0), None);
        times.push(both(
            repetition,
            || nanos(|| told = set.why_full(&records, &mut ours).map(|places| places.len())),
            || nanos(|| filled = plain(&list, capacity, &mut runs, &mut theirs)),
        ));
        assert_eq!(told, filled.ok_or(Refusal::NotRefused), "one is refused");
        assert_eq!(told.is_ok(), length > capacity, "not all of the list counts");
        assert!(told.is_err() || ours == theirs && ours[capacity] == length as u64 - 1, "the places differ");
    }
    times.medians()
}

/// Measures each order, and prints Markdown.
pub fn tell(progress: &Progress) {
    let rows: Vec<Vec<Sides>> = ORDERS
        .iter()
        .map(|order| {
            progress.tell(&format!("why a list is refused, {}", order.label));
            SIZES.iter().map(|&(length, capacity)| sides(length, capacity, order)).collect()
        })
        .collect();
    let name = |n: usize| commas(n.to_string());
    let heads = SIZES.map(|(length, capacity)| {
        let refused = if length > capacity { "" } else { ", not refused" };
        format!("{} ranges, C = {}{refused}", name(length), name(capacity))
    });
    let show = |title: &str, cell: fn(&Sides) -> String| {
        let cells = rows.iter().map(|row| row.iter().map(cell).collect());
        headed(title, &heads, ORDERS.iter().map(|order| order.label).zip(cells));
    };
    show("library / IntervalBitSet", |s| number(s.ratio()));
    show("µs a list, library / IntervalBitSet", |s| format!("{} / {}", number(s.ours / 1e3), number(s.theirs / 1e3)));
    // How many times as long five times as many ranges take.
    let grown = |row: &Vec<Sides>| vec![number(row[1].ours / row[0].ours), number(row[1].theirs / row[0].theirs)];
    headed(
        "5,000 ranges / 1,000 ranges, C = 64",
        &["library", "IntervalBitSet"].map(String::from),
        ORDERS.iter().map(|order| order.label).zip(rows.iter().map(grown)),
    );
}
