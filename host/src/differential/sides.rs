//! One call on the library and on the oracle, and whether they agree.

use std::ops::Bound;

use super::Plan;
use super::calls::{Call, Place, Told};
use super::expected::{Expected, Pool, Store};
use super::library::Library;
use super::reference::{self, Look};

/// Several stores: their words, the same words kept apart to see what changed, and what they should hold.
#[derive(Clone)]
pub struct Sides {
    library: Library,
    kept: Vec<Vec<u64>>,
    expected: Expected,
}

impl Sides {
    /// Pools of empty worlds.
    pub fn new(plans: &[Plan]) -> Sides {
        let mut library = Library { stores: plans.iter().map(|plan| crate::room(plan.capacity)).collect() };
        for (to, plan) in plans.iter().enumerate() {
            let made = library.answer(&Call::New { to, limits: plan.limits.as_flattened().to_vec() });
            assert_eq!(made, Told::Done, "{plan:?}");
        }
        let expected = Expected { stores: library.stores.iter().map(|words| Store::of(words)).collect() };
        Sides { kept: library.stores.clone(), library, expected }
    }

    /// What the stores should hold.
    pub fn stores(&self) -> &[Store] {
        &self.expected.stores
    }

    pub fn words(&self, at: usize) -> &[u64] {
        &self.library.stores[at]
    }

    /// Makes a call on both, and tells what they tell, or a difference.
    pub fn step(&mut self, call: &Call) -> Result<Told, String> {
        let told = self.library.answer(call);
        if let Call::Lend { at, .. } | Call::Poke { at, .. } = *call {
            let words = &self.library.stores[at];
            self.expected.stores[at] = Store::of(words);
            self.kept[at].clone_from(words);
            return Ok(told);
        }
        let right = self.expected.answer(call);
        if right != told {
            return Err(format!("the library tells {told:?}\nand the oracle   {right:?}"));
        }
        let refused = matches!(told, Told::Refused(_));
        for i in 0..self.kept.len() {
            if call.changes() == Some(i) && !refused {
                self.same_worlds(i)?;
                self.kept[i].copy_from_slice(&self.library.stores[i]);
            } else if self.library.stores[i] != self.kept[i] {
                return Err(format!("told {told:?}, and changed words of store {i}, which it had to leave"));
            }
        }
        Ok(told)
    }

    // A changed pool is sound and every world of it is as the oracle has it, by a plain reading of its words and by the library's own
    // listing; its worlds take as much of the capacity as was kept beside them.
    fn same_worlds(&mut self, store: usize) -> Result<(), String> {
        let Store::Sound(Pool { worlds, taken, .. }) = &self.expected.stores[store] else {
            return Err(format!("a call changed store {store}, which is not sound"));
        };
        let words = &self.library.stores[store];
        match reference::look(words) {
            Look::Holds(read) if read == *worlds && reference::taken(&read) == *taken => {}
            look => return Err(format!("the words are {look:?}\nand the oracle has {worlds:?}, which take {taken}")),
        }
        let draws: usize = worlds.iter().map(|w| w.runs.len() + 1).sum();
        if draws * (words.len() / 8) > DRAWN_UP_TO {
            return Ok(());
        }
        for (i, w) in worlds.iter().enumerate() {
            let at = Place { store, world: i as u64 };
            let range = (Bound::Unbounded, Bound::Unbounded);
            let listed = self.library.answer(&Call::Ranges { at, range, value: true, backs: 0 });
            let Told::Draws(_, draws) = &listed else { return Err(format!("a listing of {at} tells {listed:?}")) };
            if !draws.iter().flat_map(|(run, _)| run).map(|r| [*r.start(), *r.end()]).eq(w.runs.iter().copied()) {
                return Err(format!("the library lists {listed:?}\nand world {at} holds {:?}", w.runs));
            }
        }
        Ok(())
    }
}

// Each draw from a listing makes the soundness check: above this many node visits the words alone are compared.
const DRAWN_UP_TO: usize = 8192;
