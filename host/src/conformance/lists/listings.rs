//! Draws from both ends, of ended listings, and of a store that changes in between.

use super::{HALF, M};
use crate::Listing;
use crate::conformance::{List, text};
use crate::differential::calls::{Call, Place, Told};
use crate::differential::random::Random;
use crate::differential::reference::Run;

// The world that is listed, the second of two.
const AT: Place = Place { store: 0, world: 1 };

impl List {
    // Makes a listing.
    fn listing(&mut self, range: &str, value: u64) -> Listing {
        let call = text::read(&mut format!("ranges {AT} {range} {value}").lines()).expect("a call");
        match self.call(&call) {
            Told::Draws(made, _) => made,
            told => panic!("no listing: {told:?}"),
        }
    }

    // Draws from it: whether there was a run, and what is left.
    fn draw(&mut self, listing: Listing, back: bool) -> (bool, Listing) {
        match self.call(&Call::Draw { at: AT, listing, back }) {
            Told::Drawn(run, left) => (run.is_some(), left),
            told => panic!("no draw: {told:?}"),
        }
    }

    // Draws a listing to its end, and once more; bit i of `backs` says that draw i is from the back.
    fn drain(&mut self, range: &str, value: u64, backs: u64) {
        let mut left = (true, self.listing(range, value));
        for i in 0.. {
            left = self.draw(left.1, backs >> (i % 64) & 1 == 1);
            if !left.0 {
                self.draw(left.1, backs & 1 == 1);
                return;
            }
        }
    }
}

// Drains listings of both values over several ranges.
fn drain_all(list: &mut List, random: &mut Random) {
    let wide = [format!("i{} u", M - 1), format!("e{M} u"), format!("i1 i{HALF}")];
    let ranges = ["u u", "i4 e12", "e2 i10", "i7 i7", "i5 e5", "i9 i3", "u e0"];
    for range in ranges.into_iter().chain(wide.iter().map(String::as_str)) {
        for value in 0..2 {
            let mixed = random.number();
            list.drain(range, value, random.one_of(&[0, M, mixed]));
        }
    }
}

/// The list.
pub fn list() -> List {
    let mut list = List::new("listings");
    let mut random = Random::new(0x11);
    let sets: [&[Run]; 5] = [
        &[],
        &[[0, M]],
        &[[2, 7], [10, 14], [M - 3, M]],
        &[[0, 0], [2, 2], [4, 4], [6, 6]],
        &[[0, HALF - 1], [HALF + 1, M]],
    ];
    list.pool(0, 8, &[[2, 4], [4, 6]]);
    list.build(Place::first(0), &[[1, 5], [9, 12]]);
    for runs in sets {
        list.build(AT, runs);
        drain_all(&mut list, &mut random);
    }
    // Runs that were moved, and one over the place where they came from.
    list.say("build 0/1 2 0 3 20 29\nshift 0/1 7 1\nset 0/1 i0 i8 1\nset 0/1 i1 i2 0");
    drain_all(&mut list, &mut random);
    // Listings that no call made.
    list.build(AT, &[[2, 7], [10, 14], [M - 3, M]]);
    for (first, last) in [(5, 4), (M, 0), (1, 0), (0, 0), (M, M), (7, 10), (8, 9), (3, M - 1)] {
        for value in 0..2 {
            list.say(&format!("draw_front {AT} {first} {last} {value}\ndraw_back {AT} {first} {last} {value}"));
        }
    }
    // Changes between draws, here and in the other world.
    let runs = [[0, 3], [20, 29], [60, 60], [HALF, HALF + 9], [M - 20, M - 10]];
    let ranges = [String::from("u u"), format!("i10 e{M}"), format!("e2 i{}", HALF + 4), String::from("i25 u")];
    for range in ranges.iter().cycle().take(16) {
        list.build(AT, &runs);
        let mut listing = list.listing(range, random.below(2));
        for _ in 0..6 {
            listing = list.draw(listing, random.truth()).1;
            let x = random.one_of(&runs)[0].saturating_add(random.below(12)).saturating_sub(5);
            let y = x.saturating_add(random.below(9));
            let change = [
                format!("set {AT} i{x} i{y} {}", random.below(2)),
                format!("flip {AT} i{x} i{y}"),
                format!("shift {AT} 7 1"),
                format!("flip 0/0 i{x} i{y}"),
            ];
            list.say(&random.one_of(&change));
        }
    }
    list
}
