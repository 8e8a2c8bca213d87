//! How long the list for a tree's height takes, against the same list by a queue of subtrees, in a slice too.

use std::collections::VecDeque;

use super::measure::{Progress, Sides, Times, both, nanos, number, table};
use crate::SetBuf;
use crate::differential::reference::{self, Run};

// Heights, and how many runs their lists have.
const HEIGHTS: [u32; 3] = [12, 17, 22];
const SIZES: [usize; 3] = [376, 4_180, 46_367];
const REPETITIONS: usize = 51;

// The list, with how many runs each height takes told beforehand, and a queue that was made beforehand.
#[inline(never)]
fn queued(height: usize, least: &[u64], waiting: &mut VecDeque<(u64, usize)>, out: &mut [Run]) -> usize {
    let mut filled = 0;
    waiting.push_back((0, height));
    while let Some((from, height)) = waiting.pop_front() {
        let rank = from + least[height - 1];
        out[filled] = [2 * rank; 2];
        filled += 1;
        if height > 1 {
            waiting.push_back((from, height - 1));
        }
        if height > 2 {
            waiting.push_back((rank + 1, height - 2));
        }
    }
    filled
}

fn sides(height: u32, size: usize) -> Sides {
    let least: Vec<u64> = (0..=height).map(|h| reference::least(h)[0]).collect();
    let set = SetBuf::with_capacity(size).expect("a capacity");
    let mut waiting = VecDeque::with_capacity(size);
    let [mut ours, mut theirs] = [vec![[0; 2]; size], vec![[0; 2]; size]];
    let mut times = Times::default();
    for repetition in 0..REPETITIONS {
        ours.fill([0; 2]);
        theirs.fill([0; 2]);
        let mut filled = [0; 2];
        let [a, b] = &mut filled;
        times.push(both(
            repetition,
            || nanos(|| *a = set.deepest(height.into(), &mut ours).expect("no call is refused").len()),
            || nanos(|| *b = queued(height as usize, &least, &mut waiting, &mut theirs)),
        ));
        assert!(filled == [size; 2] && ours == theirs, "the lists differ");
    }
    times.medians()
}

/// Measures each height, and prints Markdown.
pub fn tell(progress: &Progress) {
    progress.tell("lists for heights");
    let all: Vec<Sides> = HEIGHTS.iter().zip(SIZES).map(|(&height, size)| sides(height, size)).collect();
    let show = |title: &str, cell: fn(&Sides) -> String| {
        table(title, &SIZES, [("height 12, 17 and 22", all.iter().map(cell).collect())].into_iter());
    };
    show("library / queue", |s| number(s.ratio()));
    show("µs a list, library / queue", |s| format!("{} / {}", number(s.ours / 1e3), number(s.theirs / 1e3)));
}
