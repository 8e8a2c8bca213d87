//! Written sets by columns, edition 2, against those by rows, edition 1; and the converter against a plain Rust loop that puts the same bytes
//! in the other order, without a look at what they tell.

use super::measure::{Figures, Progress, Times, both, nanos, number};
use super::work::{self, Pair};
use crate::differential::random::Random;
use crate::{Edition, SetBuf, convert};

const WRITTEN: &[&str] = &["write", "load"];
const CONVERTED: &[&str] = &["convert to columns", "convert to rows"];
const REPETITIONS: usize = 41;
const DONE: &str = "no call is refused";

/// What was measured: a call in edition 2 beside the same in edition 1, and the converter beside the plain loop.
pub struct Editions {
    written: Figures,
    converted: Figures,
}

// The header with the other version byte, then byte by byte: rows and columns change places.
#[inline(never)]
fn transpose(bytes: &[u8], out: &mut [u8]) {
    let runs = (bytes.len() - 5) / 16;
    let [rows, columns] = if bytes[0] == 1 { [runs, 16] } else { [16, runs] };
    out[0] = 3 - bytes[0];
    out[1..5].copy_from_slice(&bytes[1..5]);
    let (from, to) = (&bytes[5..], &mut out[5..]);
    for i in 0..rows {
        for j in 0..columns {
            to[rows * j + i] = from[columns * i + j];
        }
    }
}

// Writing a set in both editions, and loading it into others.
fn written(pair: &Pair, capacity: usize) -> [Times; 2] {
    let [mut columns, mut rows] = [(); 2].map(|()| vec![0; 5 + 16 * capacity]);
    let [mut of_columns, mut of_rows] = [(); 2].map(|()| SetBuf::with_capacity(capacity).expect("a capacity"));
    let mut times: [Times; 2] = Default::default();
    for repetition in 0..REPETITIONS {
        let [mut a, mut b] = [0; 2];
        times[0].push(both(
            repetition,
            || nanos(|| a = pair.ours.write(Edition::Columns, &mut columns).expect(DONE).len()),
            || nanos(|| b = pair.ours.write(Edition::Rows, &mut rows).expect(DONE).len()),
        ));
        let mut turned = vec![0; b];
        transpose(&rows[..b], &mut turned);
        assert!(columns[..a] == turned, "the editions differ in more than their order");
        times[1].push(both(
            repetition,
            || nanos(|| of_columns.load(&columns[..a]).expect(DONE)),
            || nanos(|| of_rows.load(&rows[..b]).expect(DONE)),
        ));
        let alike = [&of_columns, &of_rows].map(|loaded| loaded.eq(&pair.ours).expect(DONE));
        assert!(alike == [true; 2], "another set was loaded");
    }
    times
}

// Converting a written set of an edition.
fn converted(pair: &Pair, capacity: usize, edition: Edition) -> Times {
    let mut bytes = vec![0; 5 + 16 * capacity];
    let bytes = pair.ours.write(edition, &mut bytes).expect(DONE);
    let [mut ours, mut plain] = [(); 2].map(|()| vec![0; bytes.len()]);
    let mut times = Times::default();
    for repetition in 0..REPETITIONS {
        times.push(both(
            repetition,
            || nanos(|| assert!(convert(bytes, &mut ours).is_ok())),
            || nanos(|| transpose(bytes, &mut plain)),
        ));
        assert!(ours == plain, "the converted sets differ");
    }
    times
}

/// Medians of nanoseconds for each call.
pub fn measure(progress: &Progress) -> Editions {
    let pair = |size: usize| {
        let mut random = Random::new(size as u64);
        Pair::new(work::capacity(size), &work::cells(size, &mut random), &mut random)
    };
    Editions {
        written: Figures::measure(WRITTEN, "editions", progress, |size| {
            written(&pair(size), work::capacity(size)).map(Times::medians).into()
        }),
        converted: Figures::measure(CONVERTED, "converting", progress, |size| {
            let (pair, capacity) = (pair(size), work::capacity(size));
            [Edition::Rows, Edition::Columns].map(|edition| converted(&pair, capacity, edition).medians()).into()
        }),
    }
}

/// Prints what was measured.
pub fn tell(editions: &Editions) {
    let time = |nanos: f64| number(nanos / 1e3);
    for (figures, ratio, times) in [
        (&editions.written, "edition 2 / edition 1", "µs a call, edition 2 / edition 1"),
        (&editions.converted, "library / plain loop", "µs a call, library / plain loop"),
    ] {
        figures.table(ratio, |_, s| number(s.ratio()));
        figures.table(times, |_, s| format!("{} / {}", time(s.ours), time(s.theirs)));
    }
}
