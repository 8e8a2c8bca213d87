//! The search for the lowest gap through the safe calls.

use std::ops::Bound;

use vizturel::frame::{Call, Reply};
use vizturel::{Refusal, Set, SetBuf};

const M: u64 = u64::MAX;

fn of(runs: &[[u64; 2]]) -> SetBuf {
    let mut set = SetBuf::with_capacity(8).unwrap();
    set.build(runs).unwrap();
    set
}

#[test]
fn an_empty_set_has_every_gap() {
    let s = of(&[]);
    assert_eq!(s.gap(.., M), Ok(Some(0)));
    assert_eq!(s.gap(.., 1), Ok(Some(0)));
    assert_eq!(s.gap(7.., 1), Ok(Some(7)));
    assert_eq!(s.gap(1.., M), Ok(Some(1)));
    assert_eq!(s.gap(..M, M), Ok(Some(0)));
    assert_eq!(s.gap(1..M, M), Ok(None));
    assert_eq!(s.gap(M..=M, 1), Ok(Some(M)));
}

#[test]
fn a_full_set_has_none() {
    let s = of(&[[0, M]]);
    assert_eq!(s.gap(.., 1), Ok(None));
    assert_eq!(s.gap(.., M), Ok(None));
}

#[test]
fn a_gap_at_either_end() {
    let s = of(&[[4, M - 3]]);
    assert_eq!(s.gap(.., 4), Ok(Some(0)));
    assert_eq!(s.gap(2.., 3), Ok(Some(M - 2)));
    assert_eq!(s.gap(.., 3), Ok(Some(0)));
    assert_eq!(s.gap(.., 5), Ok(None));
}

#[test]
fn the_lowest_of_several() {
    let s = of(&[[0, 9], [12, 19], [23, 29], [34, 39]]);
    assert_eq!(s.gap(.., 1), Ok(Some(10)));
    assert_eq!(s.gap(.., 2), Ok(Some(10)));
    assert_eq!(s.gap(.., 3), Ok(Some(20)));
    assert_eq!(s.gap(.., 4), Ok(Some(30)));
    assert_eq!(s.gap(.., 5), Ok(Some(40)));
    // From the range's start on, also where that lies within a free run or on a run's last position.
    assert_eq!(s.gap(11.., 1), Ok(Some(11)));
    assert_eq!(s.gap(11.., 2), Ok(Some(20)));
    assert_eq!(s.gap(19.., 3), Ok(Some(20)));
    assert_eq!(s.gap(21.., 3), Ok(Some(30)));
    assert_eq!(s.gap(50.., 3), Ok(Some(50)));
}

#[test]
fn the_last_free_run_alone_is_long_enough() {
    let s = of(&[[0, 9], [12, 19], [22, 29], [32, 39]]);
    assert_eq!(s.gap(0..43, 3), Ok(Some(40)));
    assert_eq!(s.gap(0..42, 3), Ok(None));
    assert_eq!(s.gap(0..40, 3), Ok(None));
    assert_eq!(s.gap(0..42, 2), Ok(Some(10)));
    assert_eq!(s.gap(31..42, 2), Ok(Some(40)));
    assert_eq!(s.gap(31..41, 2), Ok(None));
}

#[test]
fn a_gap_over_the_place_where_positions_wrap_in_memory() {
    let mut s = of(&[[0, 2], [20, 24]]);
    s.shift(12, true).unwrap();
    s.shift(12, false).unwrap();
    s.shift(4, true).unwrap();
    s.set(0..2, true).unwrap();
    // Held are 0 1, 4 5 6 and 24 ..= 28; the offset is 4.
    s.set(4..7, false).unwrap();
    assert_eq!(s.gap(..29, 22), Ok(Some(2)));
    assert_eq!(s.gap(..29, 23), Ok(None));
    for n in 1..=22 {
        assert_eq!(s.gap(..29, n), Ok(Some(2)));
        assert_eq!(s.gap(3..28, n), Ok((n < 22).then_some(3)));
    }
    // All but a stretch over both ends of the positions is held, and the stretch is no gap: M and 0 are no neighbours.
    let mut s = of(&[[3, M - 3]]);
    s.shift(1, true).unwrap();
    assert_eq!(s.gap(.., 4), Ok(Some(0)));
    assert_eq!(s.gap(4.., 2), Ok(Some(M - 1)));
    assert_eq!(s.gap(.., 5), Ok(None));
}

#[test]
fn empty_and_reversed_ranges_have_none() {
    let s = of(&[[2, 7]]);
    for range in [
        (Bound::Included(9), Bound::Excluded(9)),
        (Bound::Excluded(9), Bound::Excluded(10)),
        (Bound::Included(20), Bound::Included(10)),
        (Bound::Excluded(M), Bound::Unbounded),
        (Bound::Unbounded, Bound::Excluded(0)),
    ] {
        assert_eq!(s.gap(range, 1), Ok(None), "{range:?}");
        assert_eq!(s.gap(range, 0), Err(Refusal::GapLength), "{range:?}");
    }
}

#[test]
fn a_gap_of_no_position_is_refused_after_pool_and_world() {
    let mut s = of(&[[2, 7]]);
    let words = s.words().to_vec();
    assert_eq!(s.gap(.., 0), Err(Refusal::GapLength));
    assert_eq!(Refusal::GapLength.number(), 9);
    assert_eq!(s.words(), words);
    assert_eq!(s.world(1).gap(.., 0), Err(Refusal::WorldUnopened));
    s.words_mut()[7] = 1;
    assert_eq!(s.world(1).gap(.., 0), Err(Refusal::Unsound));
    assert_eq!(Set::from_words([0; 24]).gap(.., 0), Err(Refusal::StoreLength));
}

#[test]
fn the_example_of_the_documentation() {
    let mut slots = SetBuf::with_capacity(8).unwrap();
    slots.set(2..8, true).unwrap();
    slots.set(10..15, true).unwrap();
    assert_eq!(slots.gap(0..12, 2), Ok(Some(0)));
    assert_eq!(slots.gap(1..12, 2), Ok(Some(8)));
    assert_eq!(slots.gap(0..12, 3), Ok(None));
}

#[test]
fn equal_positions_have_equal_gaps_however_they_came() {
    let s = of(&[[4, 6], [9, 12], [20, 30]]);
    // Moved to and fro, so that its positions are kept elsewhere in memory.
    let mut t = of(&[[9, 12], [24, 26]]);
    t.shift(20, false).unwrap();
    t.set(9..=12, true).unwrap();
    t.set(20..=30, true).unwrap();
    assert_eq!(s.eq(&t), Ok(true));
    for first in 0..32 {
        for n in 1..16 {
            assert_eq!(s.gap(first..40, n), t.gap(first..40, n), "{first}..40, {n}");
        }
    }
}

#[test]
fn blocks_are_placed_in_a_frame() {
    let mut s = of(&[[2, 3], [8, 9]]);
    let told =
        s.frame(&[Call::gap(.., 3), Call::set(4..7, true), Call::gap(.., 3), Call::gap(..12, 3), Call::gap(.., 0)]);
    let right = [
        Ok(Reply::Position(Some(4))),
        Ok(Reply::Count(3)),
        Ok(Reply::Position(Some(10))),
        Ok(Reply::Position(None)),
        Err(Refusal::GapLength),
    ];
    assert_eq!(told, Ok(right.to_vec()));
}
