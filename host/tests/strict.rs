//! Strict set, flip and tally through the safe calls: which ranges they refuse, and that they do else what the other calls do.

// Reversed ranges are what is tried here.
#![allow(clippy::reversed_empty_ranges)]

use std::ops::Bound::{self, Excluded, Included, Unbounded};

use vizturel::frame::{Call, Reply};
use vizturel::{Pool, Refusal, Set, SetBuf, Tally};

const M: u64 = u64::MAX;

type Range = (Bound<u64>, Bound<u64>);

fn of(runs: &[[u64; 2]]) -> SetBuf {
    let mut set = SetBuf::with_capacity(8).unwrap();
    set.build(runs).unwrap();
    set
}

// No bound, and each of these positions included and excluded.
fn bounds() -> Vec<Bound<u64>> {
    let ends = [0, 1, 2, M - 1, M];
    [Unbounded].into_iter().chain(ends.into_iter().flat_map(|x| [Included(x), Excluded(x)])).collect()
}

/// What the ticket's two sentences say of a range.
#[derive(Clone, Copy, Debug, PartialEq)]
enum Kind {
    Empty,
    Reversed,
    Some,
}

// Let s be the first position the lower bound allows (possibly 2^64) and e the last the upper allows (possibly −1). The range is empty if
// s = e + 1 and reversed if s exceeds e + 1.
fn kind(range: Range) -> Kind {
    let s: i128 = match range.0 {
        Included(x) => x.into(),
        Excluded(x) => i128::from(x) + 1,
        Unbounded => 0,
    };
    let e: i128 = match range.1 {
        Included(x) => x.into(),
        Excluded(x) => i128::from(x) - 1,
        Unbounded => M.into(),
    };
    match s {
        _ if s == e + 1 => Kind::Empty,
        _ if s > e + 1 => Kind::Reversed,
        _ => Kind::Some,
    }
}

#[test]
fn every_pair_of_bounds() {
    let mut seen = [0; 3];
    for range in bounds().iter().flat_map(|&lower| bounds().into_iter().map(move |upper| (lower, upper))) {
        let kind = kind(range);
        seen[kind as usize] += 1;
        for runs in [&[][..], &[[0, M]], &[[0, 0], [2, 2], [M, M]], &[[1, 1], [3, M - 1]]] {
            let fresh = of(runs);
            for value in [true, false] {
                // Each strict call, the other one, and what each left.
                let [mut strict, mut plain] = [fresh.clone(), fresh.clone()];
                let set = [strict.set_strict(range, value), plain.set(range, value)];
                let [mut turned, mut flat] = [fresh.clone(), fresh.clone()];
                let flip = [turned.flip_strict(range), flat.flip(range)];
                let tally = [fresh.tally_strict(range, value), fresh.tally(range, value)];
                match kind {
                    Kind::Reversed => {
                        assert_eq!(set[0], Err(Refusal::RangeReversed), "{range:?}");
                        assert_eq!(flip[0], Err(Refusal::RangeReversed), "{range:?}");
                        assert_eq!(tally[0], Err(Refusal::RangeReversed), "{range:?}");
                        assert_eq!(strict.words(), fresh.words(), "{range:?}");
                        assert_eq!(turned.words(), fresh.words(), "{range:?}");
                    }
                    Kind::Empty | Kind::Some => {
                        assert_eq!(set[0], set[1], "{range:?}");
                        assert_eq!(flip[0], flip[1], "{range:?}");
                        assert_eq!(tally[0], tally[1], "{range:?}");
                        assert_eq!(strict.eq(&plain), Ok(true), "{range:?}");
                        assert_eq!(turned.eq(&flat), Ok(true), "{range:?}");
                    }
                }
                // The other calls tell both alike: they change nothing and count nothing.
                if kind != Kind::Some {
                    assert_eq!((set[1], flip[1], tally[1]), (Ok(0), Ok(()), Ok(Tally::default())), "{range:?}");
                    assert_eq!((plain.eq(&fresh), flat.eq(&fresh)), (Ok(true), Ok(true)), "{range:?}");
                } else {
                    let held = tally[1].unwrap().positions + fresh.tally(range, !value).unwrap().positions;
                    assert!(held > 0, "{range:?} has a position");
                }
            }
        }
    }
    assert!(seen.iter().all(|&n| n >= 8), "{seen:?}");
}

#[test]
fn ranges_by_name() {
    let told = |range: Range| of(&[[2, 7]]).tally_strict(range, true).err();
    let reversed = Some(Refusal::RangeReversed);
    assert_eq!(told((Excluded(5), Excluded(5))), reversed);
    assert_eq!(told((Excluded(5), Excluded(6))), None);
    assert_eq!(told((Included(5), Excluded(5))), None);
    assert_eq!(told((Excluded(M), Unbounded)), None);
    assert_eq!(told((Excluded(M), Included(M - 1))), reversed);
    assert_eq!(told((Unbounded, Excluded(0))), None);
    assert_eq!(told((Included(1), Excluded(0))), reversed);
    assert_eq!(Refusal::RangeReversed.number(), 14);
}

#[test]
fn a_reversed_range_is_refused_after_pool_and_world() {
    let mut s = of(&[[2, 7]]);
    let reversed = (Included(9), Included(3));
    assert_eq!(s.world_mut(1).set_strict(reversed, true), Err(Refusal::WorldUnopened));
    assert_eq!(s.world_mut(1).flip_strict(reversed), Err(Refusal::WorldUnopened));
    assert_eq!(s.world(1).tally_strict(reversed, true), Err(Refusal::WorldUnopened));
    s.words_mut()[7] = 1;
    assert_eq!(s.set_strict(reversed, true), Err(Refusal::Unsound));
    assert_eq!(s.world_mut(1).flip_strict(reversed), Err(Refusal::Unsound));
    assert_eq!(Set::from_words([0; 24]).tally_strict(reversed, true), Err(Refusal::StoreLength));
}

#[test]
fn room_is_asked_for_after_that() {
    let mut s = SetBuf::with_capacity(1).unwrap();
    s.build(&[[2, 7]]).unwrap();
    assert_eq!(s.set_strict(9..=9, true), Err(Refusal::Capacity));
    assert_eq!(s.flip_strict(4..6), Err(Refusal::Capacity));
    assert_eq!(s.set_strict(9..=3, true), Err(Refusal::RangeReversed));
    assert_eq!(s.set_strict(9..9, true), Ok(0));
}

#[test]
fn in_a_frame() {
    let mut pool = Pool::from_words(of(&[[2, 7]]).into_words());
    let asked = [Call::set_strict(9..3, true), Call::flip_strict(9..3), Call::tally_strict(9..3, true)];
    let done = [Call::set_strict(9..12, true), Call::flip_strict(4..6), Call::tally_strict(3..10, true)];
    let calls: Vec<_> = asked.into_iter().chain(done).map(|call| (0, call)).collect();
    let told = pool.frame(&calls).unwrap();
    assert!(told[..3].iter().all(|reply| *reply == Err(Refusal::RangeReversed)), "{told:?}");
    let tally = Reply::Tally(Tally { positions: 4, runs: 3 });
    assert_eq!(told[3..], [Ok(Reply::Count(3)), Ok(Reply::Done), Ok(tally)]);
}
