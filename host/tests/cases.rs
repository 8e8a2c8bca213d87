//! The scope document's sixteen cases and its fill, through the safe calls.

use std::ops::{Bound, RangeInclusive};

use vizturel::{Answer, Edition, Operation, PoolBuf, Refusal, Set, SetBuf, Tally, World, room, words};

const M: u64 = u64::MAX;
const ALL: u128 = 1 << 64;

fn empty() -> SetBuf {
    SetBuf::with_capacity(8).unwrap()
}

// A set of that capacity that a call has overwritten.
fn made(capacity: usize, make: impl FnOnce(&mut SetBuf) -> Answer<()>) -> Answer<SetBuf> {
    let mut set = SetBuf::with_capacity(capacity)?;
    make(&mut set)?;
    Ok(set)
}

fn of(runs: &[[u64; 2]]) -> SetBuf {
    made(8, |s| s.build(runs)).unwrap()
}

fn runs<S: AsRef<[u64]>>(set: &World<S>) -> Vec<RangeInclusive<u64>> {
    set.ranges(.., true).unwrap().collect()
}

#[test]
fn case_1() {
    let mut s = empty();
    assert_eq!(s.set(2..8, true), Ok(6));
    assert_eq!(s.set(4..6, false), Ok(2));
    assert_eq!(s.set(2..4, true), Ok(0));
}

#[test]
fn case_2() {
    let mut s = empty();
    assert_eq!(s.set(.., true), Ok(ALL));
    assert_eq!(s.set(.., true), Ok(0));
    assert_eq!(s.tally(.., true), Ok(Tally { positions: ALL, runs: 1 }));
}

#[test]
fn case_3() {
    let mut s = of(&[[2, 7]]);
    let before = s.words().to_vec();
    assert_eq!(s.set((Bound::Excluded(M), Bound::Unbounded), true), Ok(0));
    assert_eq!(s.words(), before);
}

#[test]
fn case_4() {
    let s = of(&[[2, 7]]);
    assert_eq!(s.run_at(4), Ok(2..=7));
    assert_eq!(s.run_at(0), Ok(0..=1));
    assert_eq!(s.run_at(9), Ok(8..=M));
}

#[test]
fn case_5() {
    let s = of(&[[2, 7]]);
    assert_eq!(s.find(4.., false), Ok(Some(8)));
    assert_eq!(s.find(2..8, false), Ok(None));
}

#[test]
fn case_6() {
    let s = of(&[[2, 7]]);
    assert_eq!(s.select(4..12, false, 1), Ok(Some(9)));
    assert_eq!(s.select(4..12, true, 4), Ok(None));
}

#[test]
fn case_7() {
    let s = of(&[[2, 7], [10, 14]]);
    assert_eq!(s.ranges(4..12, true).unwrap().collect::<Vec<_>>(), [4..=7, 10..=11]);
    assert_eq!(s.ranges(4..12, false).unwrap().collect::<Vec<_>>(), [8..=9]);
    assert_eq!(s.ranges(4..12, true).unwrap().rev().collect::<Vec<_>>(), [10..=11, 4..=7]);
    assert_eq!(s.tally(4..12, true), Ok(Tally { positions: 6, runs: 2 }));
}

#[test]
fn case_8() {
    let mut s = of(&[[2, 7]]);
    assert_eq!(s.flip(4..10), Ok(()));
    assert_eq!(runs(&s), [2..=3, 8..=9]);
}

#[test]
fn case_9() {
    let (a, b) = (of(&[[2, 7]]), of(&[[5, 9]]));
    let joined = |op| made(2, |s| s.combine(op, &a, &b)).unwrap();
    assert_eq!(joined(Operation::And).tally(.., true), Ok(Tally { positions: 3, runs: 1 }));
    assert_eq!(joined(Operation::Or).tally(.., true), Ok(Tally { positions: 8, runs: 1 }));
    assert_eq!(runs(&joined(Operation::Xor)), [2..=4, 8..=9]);
}

#[test]
fn case_10() {
    let mut s = of(&[[M - 1, M]]);
    let copy = made(1, |c| c.shifted(&s, 2, true)).unwrap();
    assert_eq!(runs(&copy), []);
    s.shift(1, true).unwrap();
    assert_eq!(runs(&s), [M..=M]);
    s.shift(1, true).unwrap();
    assert_eq!(runs(&s), []);
}

#[test]
fn case_11() {
    let s = of(&[[0, 3]]);
    assert_eq!(runs(&made(1, |c| c.shifted(&s, 2, false)).unwrap()), [0..=1]);
    assert_eq!(runs(&made(1, |c| c.shifted(&s, 4, false)).unwrap()), []);
}

#[test]
fn case_12() {
    // Two nodes and one run: capacity 1 is enough.
    let mut s = made(1, |s| s.build(&[[10, 19]])).unwrap();
    s.shift(5, true).unwrap();
    assert_eq!(s.set(0..15, true), Ok(15));
    assert_eq!(runs(&s), [0..=24]);
}

#[test]
fn case_13() {
    let mut s = made(1, |s| s.build(&[[2, 7]])).unwrap();
    assert_eq!(s.set(4..6, false), Err(Refusal::Capacity));
    assert_eq!(runs(&s), [2..=7]);
    assert_eq!(s.set(2..4, false), Ok(2));
}

#[test]
fn case_14() {
    let s = of(&[[5, 5]]);
    assert_eq!(runs(&made(2, |c| c.not(&s)).unwrap()), [0..=4, 6..=M]);
    assert_eq!(made(1, |c| c.not(&s)).err(), Some(Refusal::Capacity));
}

#[test]
fn case_15() {
    let s = of(&[[2, 3], [8, 9]]);
    let mut out = [0xEE; 40];
    let written = s.write(Edition::Rows, &mut out).unwrap();
    let due =
        [1, 0, 0, 0, 2, 0, 0, 0, 0, 0, 0, 0, 2, 0, 0, 0, 0, 0, 0, 0, 3, 0, 0, 0, 0, 0, 0, 0, 8, 0, 0, 0, 0, 0, 0, 0, 9];
    assert_eq!(written, due);
    assert_eq!(made(2, |c| c.load(written)).unwrap().eq(&s), Ok(true));
    assert_eq!(out[37..], [0xEE; 3]);
    assert_eq!(s.write(Edition::Rows, &mut out[..36]), Err(Refusal::OutputShort));

    let mut map = [0xEE; 3];
    assert_eq!(s.write_map(0, 10, &mut map).unwrap(), [0x0C, 0x03]);
    assert_eq!(map[2], 0xEE);
    let mut t = empty();
    assert_eq!(t.read_map(0, 10, &map[..2]), Ok(4));
    assert_eq!(t.eq(&s), Ok(true));
    assert_eq!(s.fill(0, 3), Ok(334));
}

#[test]
fn fill_is_rounded_up() {
    let mut s = empty();
    assert_eq!(s.fill(0, 524_288), Ok(0));
    assert_eq!(s.set(7..8, true), Ok(1));
    assert_eq!(s.fill(0, 524_288), Ok(1));
    assert_eq!(s.fill(0, 7), Ok(0));
    assert_eq!(s.fill(7, 1), Ok(1000));
    assert_eq!(s.set(0..524_288, true), Ok(524_287));
    assert_eq!(s.fill(0, 524_288), Ok(1000));
    // One position is free: that shows in a window of 999 positions, but not in one of 1,001.
    assert_eq!(s.fill(524_289 - 999, 999), Ok(999));
    assert_eq!(s.fill(524_289 - 1001, 1001), Ok(1000));
}

#[test]
fn case_16() {
    let mut bytes = vec![1, 0, 0, 0, 2];
    for number in [2_u64, 3, 4, 5] {
        bytes.extend(number.to_be_bytes());
    }
    assert_eq!(made(8, |s| s.load(&bytes)).err(), Some(Refusal::RunOrder));
    assert_eq!(made(8, |s| s.build(&[[2, 3], [4, 5]])).err(), Some(Refusal::RunOrder));
}

#[test]
fn every_refusal_has_its_number() {
    let mut words = room(2);
    let mut s = Set::new(&mut words[..]).unwrap();
    assert_eq!(Set::new([0; 24]).err().map(Refusal::number), Some(1));
    assert_eq!(SetBuf::with_capacity(0).err().map(Refusal::number), Some(1));
    assert_eq!(SetBuf::with_capacity(usize::MAX).err().map(Refusal::number), Some(1));
    assert_eq!(s.write(Edition::Rows, &mut []).err().map(Refusal::number), Some(2));
    assert_eq!(s.load(&[1, 0, 0, 0]).err().map(Refusal::number), Some(3));
    assert_eq!(s.load(&[3, 0, 0, 0, 0]).err().map(Refusal::number), Some(4));
    assert_eq!(s.build(&[[4, 3]]).err().map(Refusal::number), Some(5));
    assert_eq!(s.fill(M, 2).err().map(Refusal::number), Some(6));
    s.words_mut()[7] = 1;
    assert_eq!(s.get(0).err().map(Refusal::number), Some(7));
    assert_eq!(s.set(.., true).err().map(Refusal::number), Some(7));
    let s = of(&[[2, 7], [10, 14]]);
    assert_eq!(made(1, |c| c.shifted(&s, 0, true)).err().map(Refusal::number), Some(8));
    assert_eq!(s.gap(.., 0).err().map(Refusal::number), Some(9));
    assert_eq!(of(&[]).read_map(0, 7, &[0x80]).err().map(Refusal::number), Some(10));
    assert_eq!(PoolBuf::with_capacity(1, &[]).err().map(Refusal::number), Some(11));
    assert_eq!(s.world(1).get(0).err().map(Refusal::number), Some(12));
    assert_eq!(Refusal::GapLength.to_string(), "a gap of length 0 is asked for");
}

#[test]
fn a_set_is_lent_kept_and_handed_back() {
    let mut words = [0; words(2)];
    let mut s = Set::new(&mut words[..]).unwrap();
    s.set(3..=5, true).unwrap();
    // Only to be read.
    assert_eq!(Set::from_words(&words[..]).tally(.., true).unwrap().positions, 3);
    let kept = Set::from_words(words);
    assert_eq!(kept.get(5), Ok(true));
    assert_eq!(kept.into_words(), words);
}

#[test]
fn a_listing_goes_on_in_the_changed_set() {
    let mut s = of(&[[2, 7], [10, 14]]);
    let mut listing = s.listing(.., true).unwrap();
    assert_eq!(s.draw_front(&mut listing), Ok(Some(2..=7)));
    s.set(12..20, true).unwrap();
    assert_eq!(s.draw_back(&mut listing), Ok(Some(10..=19)));
    assert_eq!(s.draw_front(&mut listing), Ok(None));
    assert_eq!((listing.first, listing.last), (1, 0));
}
