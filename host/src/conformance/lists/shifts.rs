//! Both shifts over every distance that is a limit, and what is reported and changed where positions wrap.

use super::{HALF, M};
use crate::conformance::List;
use crate::differential::calls::Place;
use crate::differential::chance::Kind;
use crate::differential::random::Random;
use crate::differential::reference::Run;

/// The list.
pub fn list() -> List {
    let mut list = List::new("shifts");
    let sets: [&[Run]; 6] = [
        &[],
        &[[0, M]],
        &[[0, 0], [M, M]],
        &[[0, 70], [M - 64, M - 62], [M - 1, M]],
        &[[62, 64], [HALF - 1, HALF]],
        &[[1, HALF - 1], [HALF + 1, M - 1]],
    ];
    for runs in sets {
        // Within a world, into another one of its pool, and into one of another pool.
        list.store(2, 3, runs);
        list.pool(0, 9, &[[3, 3], [0, 3], [3, 6]]);
        for distance in [0, 1, 63, 64, HALF, M] {
            for left in 0..2 {
                list.say(&format!(
                    "shifted 0/2 2/0 0 1
                    shifted 0/1 0/2 {distance} {left}
                    shifted 0/0 2/0 {distance} {left}
                    shift 0/2 {distance} {left}
                    eq 0/0 0/1
                    eq 0/0 0/2"
                ));
                list.show(Place::first(0));
                list.say(&format!("run_at 0/2 0\ntally 0/2 u u 0\nflip 0/2 i{} u\nrun_at 0/2 {M}", M - 1));
            }
        }
    }
    let mut random = Random::new(0x5F);
    let kinds =
        [Kind::Shift, Kind::Shift, Kind::Set, Kind::Flip, Kind::RunAt, Kind::Tally, Kind::Select, Kind::Shifted];
    for capacity in [2, 5] {
        let most = capacity as u64;
        list.pool(3, capacity, &[[0, most]]);
        list.pool(0, 2 * capacity, &[[most, most], [1, 2 * most]]);
        list.pool(1, 2 * capacity, &[[most, most], [1, 2 * most]]);
        for (i, runs) in [[5, 9], [0, M], [0, 0], [M, M]].into_iter().enumerate() {
            list.build(Place { store: i / 2, world: i as u64 % 2 }, &[runs]);
        }
        for _ in 0..50 {
            let kind = random.one_of(&kinds);
            let at = Place { store: random.below(2) as usize, world: random.below(2) };
            list.chance(&mut random, kind, at);
        }
        list.show_all(0);
        list.show_all(1);
    }
    list
}
