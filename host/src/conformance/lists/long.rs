//! Random histories of all calls, in pools of one world and of several.

use super::M;
use crate::conformance::{List, may_be};
use crate::differential::calls::Place;
use crate::differential::chance::{self, Wander};
use crate::differential::random::Random;
use crate::differential::reference::Run;

/// The list.
pub fn list() -> List {
    let mut list = List::new("long");
    let mut random = Random::new(0x10);
    for capacities in [[1, 2, 3, 4], [5, 8, 8, 12], [2, 16, 24, 6], [32, 64, 48, 64]] {
        for (at, &capacity) in capacities.iter().enumerate() {
            // The larger ones half full, or few histories would come near their limits.
            let step = M / capacity as u64;
            let runs: Vec<Run> = (0..capacity as u64 / 2)
                .map(|i| 2 * i * step)
                .map(|start| [start, start + random.below(step)])
                .collect();
            // The first is of one world; a world of the others may have room for fewer runs.
            if at == 0 {
                list.store(at, capacity, &runs);
            } else {
                let limits = chance::limits(&mut random, capacity);
                list.pool(at, capacity, &limits);
                for (world, some) in runs.chunks(capacity.div_ceil(limits.len())).enumerate() {
                    list.build(Place { store: at, world: world as u64 }, some);
                }
            }
        }
        let mut history = Wander::default();
        for _ in 0..200 {
            let call = history.next(&mut random, &list.expected.stores);
            if may_be(&call) {
                list.call(&call);
            }
        }
    }
    list
}
