//! Why long lists are refused: of as many ranges as are found in one pass, one less and one more, of thousands, and of the largest pool.

use super::{M, spaced};
use crate::conformance::List;

/// The list.
pub fn list() -> List {
    let mut list = super::named("why_full");
    for count in [301, 511, 512, 513, 514, 1023, 1024, 1025, 1026, 5001] {
        let other = count / 2 + 1;
        let lists = [
            spaced(0, 3, 1, count, 1),
            spaced(M - 3 * count, 3, 2, count, count - 1),
            spaced(50, 7, 4, count, 5 * count / 8 + 1),
            // Every second one joins what is there, some hold nothing, and ranges follow that were not reached.
            format!("{},{}", spaced(0, 20, 11, other, 1), spaced(10, 10, 11, count, 1)),
            format!("{},{},{}", spaced(9, 4, 0, 40, 1), spaced(0, 4, 1, count, 1), spaced(2, 40, 3, 30, 1)),
        ];
        for capacity in [count - 2, count - 1, count, 300] {
            list.say(&format!("words 0 {capacity}"));
            for runs in &lists {
                list.say(&format!("why_full 0 {} *{runs}\nwhy_full 0 {capacity} *{runs}", capacity + 1));
            }
        }
    }
    // The number of runs stays at the capacity for long: each range but the last joins one that is there.
    for capacity in [20, 300] {
        list.say(&format!("words 0 {capacity}"));
        for count in [600, 1200] {
            let grown = spaced(0, 100, 10, capacity, 1);
            for (start, step) in [(10, 1), (9, 0)] {
                let more = spaced(start, step, 1, count, 1);
                list.say(&format!(
                    "why_full 0 {0} *{grown},{more},{1}\nwhy_full 0 {0} *{grown},{more}",
                    capacity + 1,
                    spaced(M - 1, 1, 1, 1, 1)
                ));
            }
        }
    }
    list.say(&format!(
        "words 0 65536
        new 0 2 0 9 4 4
        why_full 0 65537 *{0}
        why_full 0 65536 *{0}
        why_full 0 65540 *{1}
        why_full 0 0 *{2}
        spoil 0
        why_full 0 65537 *{3}",
        spaced(0, 2, 1, 65_537, 1),
        spaced(M - 2 * 70_000, 2, 1, 70_000, 69_999),
        spaced(0, 2, 1, 65_536, 1),
        spaced(4, 5, 2, 65_537, 40_503),
    ));
    list
}
