//! Surveys of thousands of pieces up to the most that there are, and rectangles of as many rows as the plane has.

use super::spaced;
use crate::conformance::List;

/// The list.
pub fn list() -> List {
    let mut list = super::named("grid");
    chessboard(&mut list);
    by_chance(&mut list);
    tall(&mut list);
    list
}

// Columns, rows, and both joined to a chessboard, where each cell is a piece.
fn chessboard(list: &mut List) {
    list.say(&format!(
        "words 0 65536\nnew 0 1 0 65536\nwords 1 65536\nnew 1 2 0 65536 0 65536\nbuild 0/0 *{}",
        spaced(0, 2, 1, 128, 1)
    ));
    // So many rows at once, twice as many as before.
    for rows in [1, 2, 4, 8, 16, 32, 64, 128] {
        list.say(&format!("shifted 1/0 0/0 {} 1\ncombine 1/1 or 1/0 0/0\nshifted 0/0 1/1 0 1", rows * 65_536));
        list.say("build 1/0 0\nbuild 1/1 0");
    }
    list.say("survey 0/0 0 0 8 327680\nsurvey 0/0 0 1 8 327680");
    list.say(&format!("build 1/0 *{}\nsurvey 1/0 0 0 8 327680", spaced(65_536, 131_072, 256, 128, 1)));
    list.say("combine 1/1 xor 0/0 1/0\nshifted 0/0 1/1 0 1\ntally 0/0 u u 1\ncount_rect 0/0 0 0 255 255\ncount_rect 0/0 3 5 200 91");
    for k in 0..=8 {
        let due = 5_u64 << (2 * k);
        list.say(&format!("survey 0/0 0 0 {k} {due}\nsurvey 0/0 0 0 {k} {}\nsurvey 0/0 3 5 {k} {}", due - 1, due + 10));
    }
    // Some of it covered.
    list.say("set_rect 0/0 7 9 100 200 1\nsurvey 0/0 0 0 8 327680\nset_rect 0/0 128 0 255 127 0\nsurvey 0/0 0 0 8 327680\nsurvey 0/0 1 1 8 327680");
}

// Sixty-four rows of cells by chance, in a corner of the plane and in the middle.
fn by_chance(list: &mut List) {
    for (row, column) in [(0_u64, 0_u64), (65_280, 65_280), (1000, 2000)] {
        list.say("words 0 5000\nnew 0 1 0 5000");
        for i in 0..64 {
            list.say(&format!(
                "read_map 0/0 {} 64 random={}:8",
                (row + i) * 65_536 + column,
                1_000_003 * (i + 1) + row
            ));
        }
        list.say(&format!(
            "survey 0/0 {row} {column} 6 20480\nsurvey 0/0 {row} {column} 8 20480\nsurvey 0/0 {} {} 6 20480\ncount_rect 0/0 {row} {column} {} {}",
            row + 3,
            column + 1,
            row + 63,
            column + 40
        ));
        list.say(&format!("survey 0/0 {row} {column} 7 9000\nsurvey 0/0 {row} {column} 6 9000\ntally 0/0 u u 1"));
    }
}

// A run in each row, as many as there is room for, and one row more; then rows that are joined.
fn tall(list: &mut List) {
    for capacity in [300, 5000, 65_535, 65_536] {
        list.say(&format!(
            "words 0 {capacity}
            new 0 1 0 {capacity}
            set_rect 0/0 0 3 {0} 9 1
            set_rect 0/0 0 3 {1} 9 1
            tally 0/0 u u 1
            count_rect 0/0 0 0 65535 65535
            count_rect 0/0 5 9 {1} 10
            set_rect 0/0 1 5 {1} 5 0
            set_rect 0/0 0 10 {1} 12 1
            set_rect 0/0 0 0 {1} 65535 0
            set_rect 0/0 0 0 65535 65535 1
            set_rect 0/0 0 7 {0} 7 0
            set_rect 0/0 0 7 {2} 7 0
            tally 0/0 u u 1
            set_rect 0/0 1 0 65535 65535 0
            write_set 0/0 1 100",
            capacity.min(65_535),
            capacity - 1,
            capacity - 2
        ));
    }
}
