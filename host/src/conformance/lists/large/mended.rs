//! Mending of as many runs as are found in one pass, one less and one more, of thousands, and of twice as many as the largest pool has.

use super::{M, runs_of, spaced};
use crate::conformance::List;
use crate::differential::reference;

/// The list.
pub fn list() -> List {
    let mut list = super::named("mended");
    list.say(&format!("words 0 65536\nnew 0 1 0 {M}\nwords 1 300\nnew 1 2 100 300 0 300\nbuild 1/0 1 0 {M}"));
    for count in [300, 511, 512, 513, 1023, 1024, 1025, 1536, 5000] {
        // Rising, falling, in an order that jumps, and all the first one.
        for turn in [1, count - 1, coprime(count), 0] {
            for runs in shapes(count, turn) {
                closely(&mut list, "0/0", if count % 2 == 0 { "rows" } else { "columns" }, &runs);
            }
        }
        for edition in ["rows", "columns"] {
            closely(&mut list, "1/1", edition, &spaced(9, 3, 3, count, coprime(count)));
            closely(&mut list, "1/1", edition, &spaced(9, 4, 1, count, coprime(count)));
        }
    }
    // The most that there is room for, and one more; and twice as many that are joined to so many.
    for (edition, runs) in [
        ("rows", spaced(9, 5, 2, 65_536, 65_535)),
        ("columns", spaced(9, 5, 2, 65_536, coprime(65_536))),
        ("rows", spaced(9, 5, 2, 65_537, coprime(65_537))),
        ("columns", spaced(9, 5, 5, 65_536, coprime(65_536))),
        ("rows", format!("{},{}", spaced(0, 8, 2, 65_536, 1), spaced(2, 8, 3, 65_536, 65_535))),
    ] {
        closely(&mut list, "0/0", edition, &runs);
        list.say("tally 0/0 u u 1");
    }
    list
}

// A number that has no divisor in common with n, about three eighths of it.
fn coprime(n: u64) -> u64 {
    let divisor = |mut a: u64, mut b: u64| {
        while b > 0 {
            (a, b) = (b, a % b);
        }
        a
    };
    (3 * n / 8..).find(|&x| divisor(x, n) == 1).expect("n + 1 at the latest")
}

// Runs that are apart, that touch, that overlap, some that are dropped, and pairs that a third run joins.
fn shapes(count: u64, turn: u64) -> [String; 5] {
    let (half, third) = (count / 2, count / 3);
    [
        spaced(7, 9, 4, count, turn),
        spaced(M - 4 * count + 1, 4, 4, count, turn),
        spaced(0, 6, 20, count, turn),
        format!("{},{}", spaced(40, 10, 0, half, turn), spaced(45, 10, 3, count - half, turn)),
        format!("{},{}", spaced(9, 12, 3, count - third, turn), spaced(13, 36, 8, third, third.saturating_sub(1))),
    ]
}

// Mends with just the room that is due, and with a byte less of either slice.
fn closely(list: &mut List, to: &str, edition: &str, pattern: &str) {
    let runs = runs_of(pattern);
    let [set, report] = [5 + 16 * reference::united(&runs).len(), runs.len()];
    for [a, b] in [[set - 1, report], [set, report - 1], [set, report]] {
        list.say(&format!("mend {to} {edition}={pattern} {a} {b}"));
    }
}
