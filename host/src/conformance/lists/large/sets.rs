//! Written sets and run lists of more runs than a byte counts, and than two bytes do.

use super::{M, spaced};
use crate::conformance::List;

/// The list.
pub fn list() -> List {
    let mut list = super::named("sets");
    for count in [255, 256, 257, 300, 5000, 65_535, 65_536] {
        let due = 5 + 16 * count;
        let runs = spaced(5, 7, 3, count, 1);
        // Room for one run fewer, for all, and, where there may be, for one more.
        for capacity in count - 1..=65_536.min(count + 1) {
            list.say(&format!(
                "words 0 {capacity}
                new 0 1 0 {M}
                build 0/0 *{runs}
                tally 0/0 u u 1
                load 0/0 rows={runs}
                load 0/0 columns={runs}
                write_set 0/0 1 {due}"
            ));
        }
        list.say(&format!(
            "write_set 0/0 1 {}
            write_set 0/0 2 {due}
            write_set 0/0 2 {}
            write_set 0/0 1 {}
            convert rows={runs} {due}
            convert columns={runs} {due}
            convert columns={runs} {}
            words 1 {count}
            new 1 1 0 {count}
            load 1/0 columns={runs}
            eq 1/0 0/0
            set 1/0 i1 i1 1
            set 1/0 i8 i8 1
            eq 1/0 0/0
            run_at 1/0 9
            select 1/0 u u 1 {}",
            due - 1,
            due + 3,
            due - 16,
            due - 1,
            3 * count - 1
        ));
        damaged(&mut list, count, &runs);
    }
    // The runs at the end of all positions, and capacities that no pool has.
    list.say(&format!(
        "words 0 65536
        new 0 1 0 65536
        build 0/0 *{}
        tally 0/0 u u 0
        write_set 0/0 1 1048581
        words 2 65537
        new 2 1 0 1
        get 2/0 0
        deepest 2 1 2
        why_full 2 0 0",
        spaced(M - 3 * 65_535, 3, 1, 65_536, 1)
    ));
    list
}

// One byte and one run too many, counts that agree only in their low bytes, and runs that are out of order at the end, at the start, and everywhere.
fn damaged(list: &mut List, count: u64, runs: &str) {
    let few = spaced(5, 7, 3, count - 2, 1);
    let last = 5 + 7 * (count - 3);
    for bytes in [
        format!("rows={runs}+00"),
        format!("columns={runs}+same=0:16"),
        format!("01{:08x}+same=0:{}", count + 65_536, 16 * count),
        format!("01{:08x}+same=0:{}", count + (1 << 24), 16 * count),
        format!("02{:08x}+same=255:{}", count - 1, 16 * count),
        format!("02{count:08x}+random=77:{}", 16 * count),
        format!("rows={few},{},{}", spaced(last + 9, 1, 1, 1, 1), spaced(last + 10, 1, 1, 1, 1)),
        format!("columns={few},{},{}", spaced(last + 9, 1, 1, 1, 1), spaced(last + 12, 1, 0, 1, 1)),
        format!("rows={},{},{few}", spaced(0, 1, 1, 1, 1), spaced(1, 1, 1, 1, 1)),
        format!("columns={}", spaced(5, 7, 3, count, count - 1)),
    ] {
        list.say(&format!("load 0/0 {bytes}\nconvert {bytes} {}", 5 + 16 * count));
    }
    list.say("tally 0/0 u u 1");
}
