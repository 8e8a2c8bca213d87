//! Worlds whose floors and ceilings are in the thousands, in pools that are full of runs.

use super::{M, spaced};
use crate::conformance::List;

/// The list.
pub fn list() -> List {
    let mut list = super::named("worlds");
    // Floors that are the whole pool, and one more.
    for (capacity, floor) in [(4800, 300), (65_536, 4096)] {
        list.say(&format!("words 0 {capacity}\nnew 0 16{}", format!(" {floor} {M}").repeat(16)));
        for world in 0..16 {
            list.say(&format!("build 0/{world} *{}", spaced(world, 40, 9, floor + 1, 1)));
            list.say(&format!("build 0/{world} *{}\nset 0/{world} i20 i20 1", spaced(world, 40, 9, floor, 1)));
        }
        list.say(&format!("build 0/3 0\nset 0/4 i20 i20 1\nbuild 0/3 *{}", spaced(0, 2, 1, floor, 1)));
        for world in 0..16 {
            list.say(&format!(
                "tally 0/{world} u u 1\neq 0/{world} 0/{}\nset 0/{world} i{} u 1",
                (world + 1) % 16,
                20 * floor
            ));
        }
        list.say(&format!("new 0 16{} {} {M}\nget 0/15 0", format!(" {floor} {M}").repeat(15), floor + 1));
    }
    // A ceiling below what is left, and above it, of thousands and of more than two bytes.
    for (floor, ceiling) in [(0, 255), (0, 256), (256, 257), (299, 65_535), (1000, 65_536), (1000, 65_537), (4000, M)] {
        list.say(&format!("words 0 5000\nnew 0 3 {floor} {ceiling} 500 1000 0 {M}"));
        for count in [254, 255, 256, 257, 258, 4499, 4500, 4501, 5000, 5001] {
            list.say(&format!("build 0/0 *{}\ntally 0/0 u u 1", spaced(count, 3, 2, count, 1)));
        }
        for count in [999, 1000, 1001] {
            list.say(&format!("build 0/1 *{}", spaced(0, 5, 2, count, 1)));
        }
        for count in [5000, 4001, 4000, 3500, 501, 500, 255, 0] {
            list.say(&format!("build 0/2 *{}\ntally 0/2 u u 1", spaced(0, 5, 2, count, 1)));
        }
    }
    list
}
