//! Single public calls against IntervalBitSet: the same calls on the same set.

use super::measure::{Figures, Progress, Sides, Times, both, nanos};
use super::work::{self, Call, Pair, Report, Told};
use crate::differential::random::Random;
use crate::differential::reference::Run;

const LABELS: [&str; 11] = [
    "set to true",
    "set to false",
    "flip",
    "shift",
    "get",
    "run_at",
    "find",
    "tally",
    "tally, against count",
    "select",
    "draw",
];

// Places in the list above: the reports come last, in their order.
const TRUE: usize = 0;
const FALSE: usize = 1;
const FLIP: usize = 2;
const SHIFT: usize = 3;
const REPORTS: usize = 4;

// Calls that are timed together, as calls of one label.
struct Section {
    label: usize,
    calls: Vec<Call>,
}

// The calls of one repetition, which leaves the set as it was.
fn sections(runs: &[Run], random: &mut Random) -> Vec<Section> {
    let mut all = Vec::new();
    for _ in 0..5 {
        for (label, calls) in [FALSE, TRUE, FALSE].into_iter().zip(work::sets(runs, random)) {
            all.push(Section { label, calls });
        }
    }
    all.push(Section { label: FLIP, calls: (0..10).flat_map(|_| work::flips(runs, random)).collect() });
    all.push(Section { label: SHIFT, calls: (0..50).flat_map(|_| work::shifts(random)).collect() });
    for (i, kind) in Report::ALL.into_iter().enumerate() {
        let count = if kind == Report::Draws { 4 } else { 200 };
        all.push(Section { label: REPORTS + i, calls: (0..count).map(|_| work::report(kind, runs, random)).collect() });
    }
    all
}

// Nanoseconds for each call, by label, and what was told.
fn play(sections: &[Section], mut side: impl FnMut(&[Call], &mut Vec<Told>)) -> ([f64; LABELS.len()], Vec<Told>) {
    let mut taken = [0.0; LABELS.len()];
    let mut calls = [0; LABELS.len()];
    let mut told = Vec::with_capacity(sections.iter().map(|s| s.calls.len()).sum());
    for section in sections {
        taken[section.label] += nanos(|| side(&section.calls, &mut told));
        calls[section.label] += section.calls.iter().map(Call::weight).sum::<u64>();
    }
    (std::array::from_fn(|label| taken[label] / calls[label] as f64), told)
}

// Stops where the two sides do not hold the same after some of a section's calls. Flips and shifts tell nothing, and the calls of a
// section undo one another.
fn compare_halfway(pair: &Pair, section: &Section, random: &mut Random) {
    let some = &section.calls[..1 + random.below(19) as usize];
    let mut copy = pair.clone();
    work::ours(&mut copy.ours, some, &mut Vec::new());
    work::theirs(&mut copy.theirs, some, &mut Vec::new());
    copy.compare();
}

fn column(size: usize) -> Vec<Sides> {
    let mut random = Random::new(size as u64);
    let runs = work::cells(size, &mut random);
    let mut pair = Pair::new(work::capacity(size), &runs, &mut random);
    let mut times = vec![Times::default(); LABELS.len()];
    for repetition in 0..if size == 60_000 { 15 } else { 41 } {
        let sections = sections(&runs, &mut random);
        for section in sections.iter().filter(|s| s.label == FLIP || s.label == SHIFT) {
            compare_halfway(&pair, section, &mut random);
        }
        let ((ours, a), (theirs, b)) = both(
            repetition,
            || play(&sections, |calls, told| work::ours(&mut pair.ours, calls, told)),
            || play(&sections, |calls, told| work::theirs(&mut pair.theirs, calls, told)),
        );
        assert!(a == b, "the two sides do not answer the same");
        pair.compare();
        for (times, each) in times.iter_mut().zip(ours.into_iter().zip(theirs)) {
            times.push(each);
        }
    }
    times.into_iter().map(Times::medians).collect()
}

/// Medians of nanoseconds for each call.
pub fn measure(progress: &Progress) -> Figures {
    Figures::measure(&LABELS, "single public calls", progress, column)
}
