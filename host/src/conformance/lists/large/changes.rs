//! Changes and reports of sets of hundreds, thousands and tens of thousands of runs: in turn, and by chance.

use super::{HALF, M, spaced};
use crate::conformance::List;
use crate::differential::calls::Place;
use crate::differential::chance::{self, Kind};
use crate::differential::random::Random;

/// The list.
pub fn list() -> List {
    let mut list = super::named("changes");
    let mut random = Random::new(0xA6);
    for capacity in [300, 5000, 65_536] {
        in_turn(&mut list, capacity);
    }
    for (capacity, calls) in [(300, 400), (5000, 160), (65_536, 40)] {
        by_chance(&mut list, &mut random, capacity, calls);
    }
    list
}

// What makes and joins as many runs as there are.
fn in_turn(list: &mut List, capacity: u64) {
    let all = spaced(100, 10, 6, capacity, 1);
    let end = 100 + 10 * (capacity - 1) + 5;
    list.say(&format!("words 0 {capacity}\nnew 0 1 0 {capacity}\nwords 1 {capacity}\nnew 1 1 0 {capacity}\nwords 2 {capacity}\nnew 2 1 0 {M}"));
    list.say(&format!(
        "build 0/0 *{all}
        set 0/0 i{0} i{0} 1
        set 0/0 i102 i102 0
        flip 0/0 u u
        flip 0/0 i100 u
        not 0/0 0/0
        tally 0/0 u u 0
        tally 0/0 e105 e{end} 1
        tally 0/0 i103 i{HALF} 0
        select 0/0 u u 1 {1}
        select 0/0 i107 u 0 {2}
        select 0/0 u u 1 {3}
        find 0/0 i{end} u 0
        find 0/0 e{end} u 1
        gap 0/0 i100 u 4
        gap 0/0 i100 u 5
        run_at 0/0 {end}
        run_at 0/0 {M}
        ranges 0/0 i{7} i{end} 1
        draw_front 0/0 103 {end} 1
        draw_back 0/0 103 {end} 1
        draw_back 0/0 103 {4} 0
        shift 0/0 90 0
        shift 0/0 7 0
        tally 0/0 u u 1
        shifted 1/0 0/0 {5} 1
        tally 1/0 u u 1
        shifted 1/0 0/0 2 1
        eq 1/0 0/0
        combine 2/0 or 0/0 1/0
        combine 2/0 and 0/0 1/0
        combine 2/0 xor 0/0 1/0
        tally 2/0 u u 1
        set 1/0 i40 i{6} 0
        combine 2/0 xor 0/0 1/0
        write_set 2/0 1 1048581
        shift 1/0 {5} 1
        set 1/0 u i{HALF} 1
        write_set 1/0 2 1048581
        set 0/0 i16 i{6} 1
        tally 0/0 u u 1",
        end + 2,
        3 * capacity,
        2 * capacity,
        6 * capacity,
        end - 6,
        M - 5 * capacity,
        5 * capacity,
        end - 95
    ));
    frame(list, capacity);
}

// A frame that changes a full world at its ends and in the middle.
fn frame(list: &mut List, capacity: u64) {
    list.say(&format!("build 0/0 *{}", spaced(100, 10, 6, capacity, 1)));
    let middle = 100 + 10 * (capacity / 2);
    let records = [
        [2, 1, 3, 1, 4, 1, 0, 0],
        [2, 1, middle, 1, middle + 19, 1, 0, 0],
        [2, 1, 3, 1, 4, 1, 0, 0],
        [15, 0, 0, 0, 0, 1, 0, 0],
        [3, 1, middle + 2, 1, middle + 3, 0, 0, 0],
        [3, 1, middle + 30, 0, 0, 0, 0, 0],
        [8, 0, 0, 0, 0, 0, 4 * capacity, 0],
        [14, 1, 100, 0, 0, 0, 5, 0],
        [4, 0, 50, 0, 0, 0, 0, 0],
        [10, 2, middle, 0, 0, 1, 0, 0],
        [12, 0, 0, 0, M, 1, 0, 0],
        [15, 0, 0, 0, 0, 0, 0, 0],
    ];
    let lines: String = records.iter().map(|r| format!("\nrecord{}", r.map(|x| format!(" {x}")).concat())).collect();
    list.say(&format!("frame 0 {0} {0}{lines}\nwrite_set 0/0 1 1048581", records.len()));
}

// Calls by chance on two worlds of one pool, that have room for few runs more, and on another pool.
fn by_chance(list: &mut List, random: &mut Random, capacity: u64, calls: usize) {
    let half = capacity / 2;
    list.say(&format!("words 0 {capacity}\nnew 0 2 {0} {M} 0 {half}\nwords 1 {half}\nnew 1 1 0 {half}", half / 2));
    list.say(&format!("build 0/0 *{}", spaced(HALF - 20 * half, 40, 15, half, 1)));
    list.say(&format!("build 0/1 *{}\nbuild 1/0 *{}", spaced(7, 9, 5, half - 1, 1), spaced(5, 9, 2, half - 2, 1)));
    let kinds = [
        Kind::Set,
        Kind::Set,
        Kind::Set,
        Kind::Flip,
        Kind::Flip,
        Kind::Shift,
        Kind::Tally,
        Kind::Select,
        Kind::Gap,
        Kind::Find,
        Kind::RunAt,
        Kind::Draw,
        Kind::SetRect,
        Kind::ReadMap,
        Kind::WriteMap,
        Kind::Fill,
        Kind::Equal,
    ];
    for turn in 0..calls {
        let at = Place { store: usize::from(turn % 3 == 0), world: u64::from(turn % 3 == 1) };
        // Few changes are of more than some runs, or little would be left of them.
        let kind = random.one_of(&kinds);
        if matches!(kind, Kind::Set | Kind::Flip) && !random.once_in(20) {
            let x = chance::position(random, list.expected.stores[at.store].runs(at.world));
            let y = x.saturating_add(random.below(60));
            let change = if random.truth() {
                format!("flip {at} i{x} i{y}")
            } else {
                format!("set {at} i{x} i{y} {}", random.below(2))
            };
            list.say(&change);
        } else if kind != Kind::Shift || random.once_in(4) {
            list.chance(random, kind, at);
        }
    }
    for at in ["0/0", "0/1", "1/0"] {
        list.say(&format!("tally {at} u u 1\nwrite_set {at} 1 1048581"));
    }
}
