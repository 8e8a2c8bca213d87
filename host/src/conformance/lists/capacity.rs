//! Changes at the limit of small capacities, of one world and of several. Runs are counted by position, wherever a pool keeps them.

use super::M;
use crate::conformance::List;
use crate::differential::calls::Place;
use crate::differential::chance::{self, Kind};
use crate::differential::random::Random;
use crate::differential::reference::Limit;

/// The list.
pub fn list() -> List {
    let mut list = List::new("capacity");
    // Every change of a short range beside one run, at capacity 1.
    list.pool(0, 1, &[[0, 1]]);
    for a in 0..6 {
        for b in a..6 {
            for change in ["set 0/0 RANGE 1", "set 0/0 RANGE 0", "flip 0/0 RANGE"] {
                list.say("build 0/0 1 2 3");
                list.say(&change.replace("RANGE", &format!("i{a} i{b}")));
                list.say("tally 0/0 u u 1");
            }
        }
    }
    // All positions, moved: what was the last is beside what was the first.
    for room in [1, 2] {
        list.pool(0, room, &[[0, room as u64]]);
        let ends = [0, 1, 2, 3, M - 1, M];
        for (i, a) in ends.iter().enumerate() {
            for b in &ends[i..] {
                let change = if i % 2 == 0 { format!("flip 0/0 i{a} i{b}") } else { format!("set 0/0 i{a} i{b} 1") };
                for shift in ["shift 0/0 3 1", "shift 0/0 2 0"] {
                    list.say(&format!("build 0/0 1 0 {M}\n{shift}\n{change}\ntally 0/0 u u 1"));
                }
            }
        }
    }
    let mut random = Random::new(0xCA);
    let alone: [&[Limit]; 4] = [&[[0, 1]], &[[0, 2]], &[[0, 3]], &[[0, 4]]];
    let several: [&[Limit]; 4] =
        [&[[0, 1], [0, M]], &[[1, 2], [1, 2]], &[[0, 3], [2, 3], [0, 1]], &[[1, 2], [0, 4], [0, 3]]];
    for (capacity, limits) in (1..=4).cycle().zip(alone.into_iter().chain(several)) {
        list.pool(0, capacity, limits);
        list.build(Place::first(0), &[[2, 3]]);
        for _ in 0..60 {
            let at = Place { store: 0, world: random.below(limits.len() as u64) };
            match random.below(8) {
                0 => list.chance(&mut random, Kind::ReadMap, at),
                1 => list.say(&format!("shift {at} {} {}", random.below(6), random.below(2))),
                2 => list.chance(&mut random, Kind::Flip, at),
                _ => {
                    let x = chance::position(&mut random, &[]).saturating_sub(random.below(8));
                    let y = x.saturating_add(random.below(4));
                    list.say(&format!("set {at} i{x} i{y} {}", u8::from(!random.once_in(3))));
                }
            }
            if random.once_in(3) {
                list.show(at);
            }
        }
        list.show_all(0);
    }
    list
}
