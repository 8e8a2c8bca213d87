//! Maps of the longest windows, and of windows with thousands of runs.

use super::{HALF, M, spaced};
use crate::conformance::List;

const LONGEST: u64 = 524_288;

/// The list.
pub fn list() -> List {
    let mut list = super::named("maps");
    for capacity in [300, 5000, 65_536] {
        list.say(&format!("words 0 {capacity}\nnew 0 1 0 {capacity}"));
        // The largest pool takes long over each.
        for base in [7, M - (LONGEST - 1), 0, HALF - 9].into_iter().take(if capacity > 5000 { 2 } else { 4 }) {
            longest(&mut list, capacity, base);
        }
    }
    // Two runs in a byte, and four: too many of them, one by one.
    for byte in [1, 128, 240, 90, 170] {
        list.say(&format!("read_map 0/0 64 {LONGEST} same={byte}:65536\ntally 0/0 u u 1"));
    }
    list.say(&format!(
        "read_map 0/0 64 {LONGEST} random=5:65536\nread_map 0/0 64 {LONGEST} random=6:30000+same=0:35536"
    ));
    by_chance(&mut list);
    // Spare bits of the longest windows.
    for n in LONGEST - 7..=LONGEST {
        list.say(&format!(
            "clear_map 3 {n} same=255:65536
            clear_map 3 {n} same=255:65535+00
            read_map 0/0 3 {n} same=0:65535+80
            read_map 0/0 3 {n} same=0:65535+01
            read_map 0/0 3 {n} same=255:65535
            fill 0/0 3 {n}"
        ));
    }
    list
}

// Windows that are full, empty, and have a run in each byte up to as many as there is room for, one less and one more.
fn longest(list: &mut List, capacity: u64, base: u64) {
    let close = |list: &mut List| {
        list.say(&format!(
            "write_map 0/0 {base} {LONGEST} 65536\nwrite_map 0/0 {base} {LONGEST} 65535\nfill 0/0 {base} {LONGEST}\ntally 0/0 u u 1"
        ));
    };
    list.say(&format!("build 0/0 1 {base} {}\nread_map 0/0 {base} {LONGEST} same=255:65536", base + 3));
    close(list);
    for runs in [capacity - 1, capacity, capacity + 1] {
        let ones = runs.min(65_536);
        let rest = 65_536 - ones;
        list.say(&format!("read_map 0/0 {base} {LONGEST} same=15:{ones}+same=0:{rest}\nread_map 0/0 {base} {LONGEST} same=85:{}+same=0:{}", runs / 4, 65_536 - runs / 4));
    }
    close(list);
    list.say(&format!(
        "write_map 0/0 {} {} 65536
        read_map 0/0 {base} {} same=255:65536+01
        read_map 0/0 {base} {LONGEST} same=0:65536",
        base.saturating_sub(5),
        LONGEST - 3,
        LONGEST + 1
    ));
}

// Bytes by chance in windows of which as many as there are runs for are in the middle.
fn by_chance(list: &mut List) {
    list.say("words 0 5000\nnew 0 1 0 5000");
    for (seed, count) in [(7, 600), (9, 2300), (11, 2400), (13, 2600), (15, 3000)] {
        for base in [3, HALF + 1] {
            let n = 8 * count;
            list.say(&format!(
                "build 0/0 *{}
                read_map 0/0 {base} {n} random={seed}:{count}
                tally 0/0 u u 1
                tally 0/0 i{base} e{} 0
                write_map 0/0 {base} {n} {count}
                write_map 0/0 {} {} {}
                write_set 0/0 2 80005
                fill 0/0 {base} {n}",
                spaced(base, 2000, 900, 20, 1),
                base + n,
                base + 1,
                n + 61,
                count + 9
            ));
        }
    }
}
