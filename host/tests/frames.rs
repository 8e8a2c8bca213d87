//! Lists of calls at once, through the safe calls: each answers as the single call does.

use std::ops::Bound;

use vizturel::differential::random::Random;
use vizturel::frame::{AnswerRecord, Call, CallRecord, Range, Reply};
use vizturel::{Answer, Limits, Listing, PoolBuf, Rect, Refusal, Set, SetBuf, Tally, World};

const M: u64 = u64::MAX;

// Numbers of records that name no call, below those that do.
const WITHDRAWN: [u64; 2] = [7, 9];

// The same call alone.
fn single(set: &mut World<&mut [u64]>, call: Call) -> Answer<Reply> {
    Ok(match call {
        Call::Empty => {
            set.build(&[])?;
            Reply::Done
        }
        Call::Set(range, value) => Reply::Count(set.set(range, value)?),
        Call::Flip(range) => {
            set.flip(range)?;
            Reply::Done
        }
        Call::Shift { distance, left } => {
            set.shift(distance, left)?;
            Reply::Done
        }
        Call::Get(x) => Reply::Value(set.get(x)?),
        Call::RunAt(x) => Reply::Run(set.run_at(x)?),
        Call::Find(range, value) => Reply::Position(set.find(range, value)?),
        Call::Tally(range, value) => Reply::Tally(set.tally(range, value)?),
        Call::SetStrict(range, value) => Reply::Count(set.set_strict(range, value)?),
        Call::FlipStrict(range) => {
            set.flip_strict(range)?;
            Reply::Done
        }
        Call::TallyStrict(range, value) => Reply::Tally(set.tally_strict(range, value)?),
        Call::Select(range, value, k) => Reply::Position(set.select(range, value, k)?),
        Call::Gap(range, n) => Reply::Position(set.gap(range, n)?),
        Call::Listing(range, value) => Reply::Listing(set.listing(range, value)?),
        Call::DrawFront(mut l) => Reply::Drawn(set.draw_front(&mut l)?, l),
        Call::DrawBack(mut l) => Reply::Drawn(set.draw_back(&mut l)?, l),
        Call::Fill { base, n } => Reply::Number(set.fill(base, n)?),
        Call::SetRect(rect, value) => Reply::Count(set.set_rect(rect, value)?),
        Call::CountRect(rect) => Reply::Number(set.count_rect(rect)?),
    })
}

// A position among few, so that calls meet; the last ones too.
fn position(random: &mut Random) -> u64 {
    if random.once_in(6) { M - random.below(4) } else { random.below(40) }
}

fn range(random: &mut Random) -> Range {
    let mut bound = || {
        let x = position(random);
        random.one_of(&[Bound::Included(x), Bound::Excluded(x), Bound::Unbounded])
    };
    (bound(), bound())
}

fn any_call(random: &mut Random) -> Call {
    let (r, x, y, v) = (range(random), position(random), position(random), random.truth());
    let listing = Listing { first: x, last: y, value: v };
    let rows = [random.below(3), random.below(3)];
    let rect = Rect::new((rows[0], x), (rows[1], y));
    let calls = [
        Call::Set((Bound::Included(x), Bound::Included(y)), v),
        Call::Set(r, v),
        Call::Flip(r),
        Call::Shift { distance: x, left: v },
        Call::Get(x),
        Call::RunAt(x),
        Call::Find(r, v),
        Call::Tally(r, v),
        Call::SetStrict(r, v),
        Call::FlipStrict(r),
        Call::TallyStrict(r, v),
        Call::Select(r, v, y),
        Call::Gap(r, y % 6),
        Call::Listing(r, v),
        Call::DrawFront(listing),
        Call::DrawBack(listing),
        Call::Fill { base: x, n: y },
        Call::SetRect(rect, v),
        Call::CountRect(rect),
    ];
    if random.once_in(60) { Call::Empty } else { random.one_of(&calls) }
}

#[test]
fn a_list_is_its_calls_one_by_one() {
    let mut random = Random::new(1);
    let mut refused = 0;
    let mut unopened = 0;
    let mut no_length = 0;
    let mut reversed = 0;
    let mut off_plane = 0;
    for turn in 0..400 {
        let worlds = 1 + turn / 4 % 3;
        let limits = [Limits { floor: 0, ceiling: 3 }, Limits { floor: 1, ceiling: 2 }, Limits::NONE];
        let mut listed = PoolBuf::with_capacity(1 + turn % 4, &limits[..worlds]).unwrap();
        let mut called = listed.clone();
        for _ in 0..4 {
            let calls: Vec<(u64, Call)> = (0..random.below(20))
                .map(|_| {
                    let world = if random.once_in(20) { 3 } else { random.below(worlds as u64) };
                    (world, any_call(&mut random))
                })
                .collect();
            let right: Vec<_> = calls.iter().map(|&(at, call)| single(&mut called.world_mut(at), call)).collect();
            refused += right.iter().filter(|told| **told == Err(Refusal::Capacity)).count();
            unopened += right.iter().filter(|told| **told == Err(Refusal::WorldUnopened)).count();
            no_length += right.iter().filter(|told| **told == Err(Refusal::GapLength)).count();
            reversed += right.iter().filter(|told| **told == Err(Refusal::RangeReversed)).count();
            off_plane += right.iter().filter(|told| **told == Err(Refusal::OffPlane)).count();
            assert_eq!(listed.frame(&calls), Ok(right), "{calls:?}");
            for world in 0..worlds as u64 {
                assert_eq!(listed.world(world).eq(&called.world(world)), Ok(true), "{calls:?}");
            }
        }
    }
    assert!(refused > 100 && unopened > 100, "only {refused} calls were refused with 8, {unopened} with 12");
    assert!(no_length > 100 && reversed > 100, "only {no_length} calls were refused with 9, {reversed} with 14");
    assert!(off_plane > 100, "only {off_plane} calls were refused with 15");
}

#[test]
fn ranges_of_any_kind() {
    let mut s = SetBuf::with_capacity(1).unwrap();
    let told = s.frame(&[Call::set(2..8, true), Call::set(4..6, false), Call::find(4.., false)]).unwrap();
    assert_eq!(told, [Ok(Reply::Count(6)), Err(Refusal::Capacity), Ok(Reply::Position(Some(8)))]);
    let all = [
        Call::tally(.., true),
        Call::flip(..),
        Call::tally(..=4, false),
        Call::select(1..=4, false, 2),
        Call::tally(..1, true),
        Call::gap(1.., 2),
        Call::gap(1..9, 0),
        Call::listing(3..3, true),
    ];
    let ended = Listing { first: 1, last: 0, value: true };
    let right = [
        Ok(Reply::Tally(Tally { positions: 6, runs: 1 })),
        Err(Refusal::Capacity),
        Ok(Reply::Tally(Tally { positions: 2, runs: 1 })),
        Ok(Reply::Position(None)),
        Ok(Reply::Tally(Tally::default())),
        Ok(Reply::Position(Some(8))),
        Err(Refusal::GapLength),
        Ok(Reply::Listing(ended)),
    ];
    assert_eq!(s.frame(&all).unwrap(), right);
    assert_eq!(s.frame(&[Call::set(.., true)]).unwrap(), [Ok(Reply::Count((1 << 64) - 6))]);
    let full = Tally { positions: 1 << 64, runs: 1 };
    assert_eq!(s.frame(&[Call::tally(.., true)]).unwrap(), [Ok(Reply::Tally(full))]);
    assert_eq!(s.frame(&[Call::set(.., false)]).unwrap(), [Ok(Reply::Count(1 << 64))]);
    assert_eq!(s.frame(&[]), Ok(vec![]));
}

#[test]
fn records_keep_to_named_numbers() {
    let mut random = Random::new(2);
    let mut seen = [0; 21];
    for world in 0..4_000 {
        let record = CallRecord::from((world, any_call(&mut random)));
        // Of a rectangle the words of the kinds are rows, and there are three.
        assert!(record.lower_kind <= 3 && record.upper_kind <= 3 && record.world == world, "{record:?}");
        seen[record.call as usize] += 1;
    }
    for (number, &count) in (0..).zip(&seen) {
        assert_eq!(count == 0, WITHDRAWN.contains(&number), "number {number} came up {count} times");
    }
}

#[test]
fn a_withdrawn_number_is_refused() {
    let mut s = SetBuf::with_capacity(2).unwrap();
    s.build(&[[2, 7]]).unwrap();
    let set = CallRecord::from((0, Call::set(4..6, false)));
    let get = CallRecord::from((0, Call::Get(4)));
    let mut answers = [AnswerRecord { number: M, ..AnswerRecord::default() }; 3];
    for number in WITHDRAWN {
        for world in [0, 1, 15, M] {
            let asked = [CallRecord { call: number, world, ..set }, CallRecord { call: number, world, ..get }, get];
            let refused = AnswerRecord { refusal: Refusal::WorldUnopened.number(), ..AnswerRecord::default() };
            let held = AnswerRecord { number: 1, ..AnswerRecord::default() };
            assert_eq!(s.play(&asked, &mut answers).unwrap(), [refused, refused, held], "{number} at {world}");
        }
    }
}

#[test]
fn records_are_lent() {
    let mut slots = SetBuf::with_capacity(64).unwrap();
    let mut calls = [CallRecord::default(); 8];
    let stale = AnswerRecord { number: M, reserved: M, ..AnswerRecord::default() };
    let mut answers = [stale; 8];
    for (k, record) in calls[..3].iter_mut().enumerate() {
        *record = (0, Call::select(.., false, k as u64)).into();
    }
    let free = slots.play(&calls[..3], &mut answers).unwrap();
    assert_eq!(free.len(), 3);
    for (record, slot) in calls.iter_mut().zip(free) {
        assert_eq!((slot.refusal, slot.found, slot.reserved), (0, 1, 0));
        *record = (0, Call::set(slot.number..=slot.number, true)).into();
    }
    assert_eq!(answers[3..], [stale; 5]);
    slots.play(&calls[..3], &mut answers).unwrap();
    assert_eq!(slots.tally(..3, true).unwrap().positions, 3);
    // A record of zeros is a get of 0 at world 0.
    assert_eq!(slots.play(&[CallRecord::default()], &mut answers).unwrap()[0].number, 1);
}

#[test]
fn a_refused_list_changes_nothing() {
    let stale = [AnswerRecord { number: M, ..AnswerRecord::default() }; 2];
    let mut answers = stale;
    let asked = [(0, Call::Empty), (0, Call::set(.., true))].map(CallRecord::from);
    let mut s = SetBuf::with_capacity(2).unwrap();
    s.build(&[[2, 7]]).unwrap();
    let before = s.words().to_vec();
    assert_eq!(s.play(&asked, &mut answers[..1]).err(), Some(Refusal::OutputShort));
    assert_eq!(s.play(&asked, &mut []).err(), Some(Refusal::OutputShort));
    assert_eq!(s.words(), before);
    assert_eq!(Set::from_words(&mut [0; 24][..]).play(&asked, &mut answers).err(), Some(Refusal::StoreLength));
    s.words_mut()[7] = 1;
    let before = s.words().to_vec();
    assert_eq!(s.play(&asked, &mut answers).err(), Some(Refusal::Unsound));
    assert_eq!(s.play(&asked, &mut []).err(), Some(Refusal::Unsound));
    assert_eq!(s.frame(&[Call::Empty]), Err(Refusal::Unsound));
    assert_eq!((s.words(), answers), (&before[..], stale));
}
