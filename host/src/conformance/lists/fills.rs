//! Fills whose thousandths are rounded up, where a quotient of floating-point numbers would be another: the numbers of held positions at which four
//! ways to reckon so go wrong.

use crate::conformance::List;

/// The list.
pub fn list() -> List {
    let mut list = List::new("fills");
    list.store(0, 1, &[]);
    for n in [3, 7, 125, 999, 1000, 1001, 8192, 10_000, 100_000, 131_071, 262_144, 500_000, 524_287, 524_288] {
        for held in telling(n) {
            list.say(&format!("build 0/0 1 10 {}\nfill 0/0 10 {n}", 9 + held));
        }
    }
    list
}

// How many positions of n are held, so that some way to reckon goes wrong: the first and the last three of each way, and both ends.
fn telling(n: u64) -> Vec<u64> {
    let mut all = vec![1, n - 1, n];
    for way in 0..5 {
        let wrong: Vec<u64> = (1..=n).filter(|&held| reckoned(way, held, n) != (1000 * held).div_ceil(n)).collect();
        all.extend(wrong.iter().take(3));
        all.extend(wrong.iter().rev().take(3));
    }
    all.sort_unstable();
    all.dedup();
    all
}

// Thousandths in floating-point numbers of either length, and in whole numbers that are cut to 32 bits.
fn reckoned(way: u32, held: u64, n: u64) -> u64 {
    match way {
        0 => (1000.0 * held as f32 / n as f32).ceil() as u64,
        1 => (held as f32 / n as f32 * 1000.0).ceil() as u64,
        2 => (held as f64 / n as f64 * 1000.0).ceil() as u64,
        3 => (held as f64 * (1000.0 / n as f64)).ceil() as u64,
        _ => ((1000 * held as u32) as f32 / n as f32 + 0.999) as u64,
    }
}
