//! Why a list of ranges is refused: an example, lists by chance against a search of all sublists, and what each refusal leaves.

use std::ops::Bound::{Excluded, Included, Unbounded};

use vizturel::differential::calls::{Call, Told};
use vizturel::differential::chance;
use vizturel::differential::library::Library;
use vizturel::differential::random::Random;
use vizturel::differential::reference::Run;
use vizturel::{Limits, PoolBuf, RangeRecord, Refusal, SetBuf, room, words};

const M: u64 = u64::MAX;
const STALE: u64 = 0xEEEE_EEEE_EEEE_EEEE;

fn ranges_of(runs: &[Run]) -> Vec<RangeRecord> {
    runs.iter().map(|&[start, end]| RangeRecord::new(start..=end)).collect()
}

fn store(capacity: usize) -> SetBuf {
    SetBuf::with_capacity(capacity).unwrap()
}

// The place of the first of some ranges of a list that is refused with 8, where they are set one by one into a new store, by the calls.
fn stops(capacity: usize, list: &[RangeRecord], places: impl Iterator<Item = usize>) -> Option<usize> {
    let mut set = store(capacity);
    for place in places {
        match set.set(list[place], true) {
            Ok(_) => {}
            Err(Refusal::Capacity) => return Some(place),
            Err(other) => panic!("refused with {other:?}"),
        }
    }
    None
}

// What is told of a list, from a slice with room for three places more, which stay; and so does every word.
fn why(store: &SetBuf, list: &[RangeRecord]) -> Result<Vec<usize>, Refusal> {
    let before = store.words().to_vec();
    let due = before.len() / 8 - 49 + 1;
    let mut out = vec![STALE; due + 3];
    let told = store.why_full(list, &mut out).map(|places| places.to_vec());
    assert!(store.words() == before, "words changed");
    match told {
        Ok(places) => {
            assert_eq!((&out[..due], &out[due..]), (&places[..], &[STALE; 3][..]));
            Ok(places.into_iter().map(|place| place as usize).collect())
        }
        Err(refusal) => {
            assert!(out.iter().all(|&word| word == STALE), "refused, and changed the slice");
            Err(refusal)
        }
    }
}

// Of each number of ranges from none on whether some sublist of so many is refused.
fn refused_sublists(capacity: usize, list: &[RangeRecord]) -> Vec<bool> {
    let mut some = vec![false; list.len() + 1];
    for code in 0..1_u32 << list.len() {
        let count = code.count_ones() as usize;
        some[count] = some[count] || stops(capacity, list, (0..list.len()).filter(|i| code >> i & 1 == 1)).is_some();
    }
    some
}

#[test]
fn a_list_that_stops() {
    // 14..16 touches 10..14, 50..50 is empty, and 34..50 joins 30..34 and 50..54.
    let list = [10..14, 30..34, 14..16, 50..50, 50..54, 34..50, 70..72, 20..22, 90..92].map(RangeRecord::new);
    let set = store(3);
    // With 20..22 there would be 10..16, 20..22, 30..54 and 70..72: it is the fourth run.
    assert_eq!(stops(3, &list, 0..list.len()), Some(7));
    let places = why(&set, &list).unwrap();
    assert_eq!(places, [0, 1, 6, 7]);
    assert_eq!(stops(3, &list, places.into_iter()), Some(7));
    // At a capacity of one run more it is the last range.
    assert_eq!(why(&store(4), &list), Ok(vec![0, 1, 6, 7, 8]));
    assert_eq!(why(&store(5), &list), Err(Refusal::NotRefused));
    assert_eq!(why(&set, &list[..7]), Err(Refusal::NotRefused));
    assert_eq!(why(&set, &[]), Err(Refusal::NotRefused));
}

#[test]
fn no_shorter_sublist_is_refused() {
    let mut random = Random::new(13);
    let (mut stopped, mut ended) = (0, 0);
    for turn in 0..900 {
        let capacity = 1 + turn % 3;
        let list = chance::spawns(&mut random, capacity as u64, 8);
        let words: Vec<[u64; 4]> = list.iter().map(|&run| chance::spelled(&mut random, run)).collect();
        let record =
            |&[lower_kind, lower, upper_kind, upper]: &[u64; 4]| RangeRecord { lower_kind, lower, upper_kind, upper };
        let ranges: Vec<RangeRecord> = words.iter().map(record).collect();
        let refused = refused_sublists(capacity, &ranges);
        match why(&store(capacity), &ranges) {
            Ok(places) => {
                stopped += 1;
                assert_eq!(places.len(), capacity + 1, "{list:?}");
                assert!(places.windows(2).all(|w| w[0] < w[1]), "{places:?} of {list:?}");
                assert!(places.iter().all(|&place| list[place][0] <= list[place][1]), "{places:?} of {list:?}");
                // It is refused, at its last range, which is the one at which the whole list stops.
                let at = stops(capacity, &ranges, places.iter().copied());
                assert_eq!(at, places.last().copied(), "{places:?} of {list:?}");
                assert_eq!(at, stops(capacity, &ranges, 0..ranges.len()), "{places:?} of {list:?}");
                assert_eq!(refused.iter().position(|&some| some), Some(capacity + 1), "{list:?}");
            }
            Err(refusal) => {
                ended += 1;
                assert_eq!(refusal, Refusal::NotRefused, "{list:?}");
                assert_eq!(stops(capacity, &ranges, 0..ranges.len()), None, "{list:?}");
                // The list goes through, though a part of it may not.
                assert!(refused.iter().take(capacity + 1).all(|&some| !some), "{list:?}");
            }
        }
    }
    assert!(stopped > 200 && ended > 200, "{stopped} lists were refused, and {ended} were not");
}

// A list that is not refused may have a part that is: the ranges that join others are what it goes through by.
#[test]
fn a_part_may_be_refused_where_the_list_is_not() {
    let list = ranges_of(&[[2, 2], [3, 3], [4, 4]]);
    assert_eq!(why(&store(1), &list), Err(Refusal::NotRefused));
    assert_eq!(stops(1, &list, [0, 2].into_iter()), Some(2));
}

#[test]
fn touching_ranges_are_one_run() {
    let list = ranges_of(&[[4, 5], [2, 3], [6, 6], [8, 8]]);
    assert_eq!(why(&store(1), &list), Ok(vec![0, 3]));
    assert_eq!(why(&store(1), &list[..3]), Err(Refusal::NotRefused));
    // The first listed of a run is told, wherever it lies in it, and also where a later range joins it to others.
    assert_eq!(why(&store(2), &ranges_of(&[[9, 9], [2, 2], [3, 8], [20, 20], [0, 0], [30, 30]])), Ok(vec![0, 3, 4]));
    // The positions 0 and M do not touch.
    assert_eq!(why(&store(1), &ranges_of(&[[M, M], [0, 0]])), Ok(vec![0, 1]));
    assert_eq!(why(&store(1), &ranges_of(&[[M - 1, M], [0, M - 3], [0, M - 2]])), Ok(vec![0, 1]));
    assert_eq!(why(&store(1), &ranges_of(&[[M - 1, M], [0, M - 2]])), Err(Refusal::NotRefused));
}

#[test]
fn ranges_without_positions_are_never_chosen() {
    let nothing = [
        RangeRecord::new((Included(5), Excluded(5))),
        RangeRecord::new((Included(9), Included(2))),
        RangeRecord::new((Excluded(5), Excluded(5))),
        RangeRecord::new((Excluded(5), Excluded(6))),
        RangeRecord::new((Excluded(M), Unbounded)),
        RangeRecord::new((Unbounded, Excluded(0))),
        RangeRecord::new((Excluded(M), Excluded(0))),
    ];
    for many in 1..40 {
        let list: Vec<RangeRecord> = (0..many).map(|i| nothing[i % nothing.len()]).collect();
        assert_eq!(why(&store(1), &list), Err(Refusal::NotRefused));
    }
    // Before, among and after those that are.
    let mut list = nothing.to_vec();
    list.push(RangeRecord::new(2..=2));
    list.extend(nothing);
    list.push(RangeRecord::new(7..=7));
    list.extend(nothing);
    assert_eq!(why(&store(1), &list), Ok(vec![7, 15]));
    // Without bounds a range is all positions, whatever its values are.
    let [apart, other] = [2..=2, 7..=7].map(RangeRecord::new);
    let all = RangeRecord { lower_kind: 3, lower: 9, upper_kind: 3, upper: 2 };
    assert_eq!(why(&store(1), &[apart, all, other]), Err(Refusal::NotRefused));
    // Kinds that are reserved make a range empty at either end, and that of zeros is one.
    assert_eq!(why(&store(1), &[apart, RangeRecord::default(), other]), Ok(vec![0, 2]));
    for kind in [0, 4, 1 << 32 | 3, M] {
        let [no_lower, no_upper] = [RangeRecord { lower_kind: kind, ..all }, RangeRecord { upper_kind: kind, ..all }];
        for empty in [no_lower, no_upper, RangeRecord { lower_kind: kind, upper_kind: kind, ..all }] {
            assert_eq!(why(&store(1), &[apart, empty, other]), Ok(vec![0, 2]), "{empty:?}");
            // As a range of Rust it is one of the same positions.
            let mut set = store(1);
            assert_eq!(
                (set.set(empty, true), set.set_strict(empty, true), set.find(empty, false)),
                (Ok(0), Ok(0), Ok(None))
            );
        }
    }
}

// About as many runs as the library takes at once, and more: rising, falling and in any order, where the answer is known.
#[test]
fn long_lists() {
    let mut random = Random::new(7);
    for capacity in [510_u64, 511, 512, 513, 1023, 1024, 1025, 2000] {
        let mut places: Vec<usize> = (0..=capacity as usize).collect();
        let rising: Vec<Run> = (0..=capacity).map(|i| [3 * i, 3 * i + i % 2]).collect();
        let falling: Vec<Run> = rising.iter().rev().copied().collect();
        let mut mixed = rising.clone();
        random.shuffle(&mut mixed);
        let set = store(capacity as usize);
        for list in [&rising, &falling, &mixed] {
            assert_eq!(why(&set, &ranges_of(list)).as_ref(), Ok(&places), "{capacity}");
            assert_eq!(why(&set, &ranges_of(&list[1..])), Err(Refusal::NotRefused), "{capacity}");
        }
        // Each range twice, then turn by turn a run and what joins it to the last, and a run too many.
        let mut list: Vec<Run> = mixed[..capacity as usize - 1].iter().flat_map(|&run| [run; 2]).collect();
        let x = 3 * capacity + 10;
        list.push([x, x]);
        places = (0..2 * capacity as usize).step_by(2).collect();
        for i in 1..300 {
            list.extend([[x, x + 2 * i - 1], [x + 2 * i, x + 2 * i]]);
        }
        list.push([M, M]);
        places.push(list.len() - 1);
        assert_eq!(why(&set, &ranges_of(&list)), Ok(places), "{capacity}");
    }
}

// The capacity is told by the length alone, whatever the words are, and whichever worlds there are.
#[test]
fn the_pool_is_only_measured() {
    let list = ranges_of(&[[0, 0], [4, 4], [5, 5], [2, 2], [9, 9]]);
    let due = Ok(vec![0, 1, 3]);
    let mut filled = store(2);
    assert_eq!(why(&filled, &list), due);
    filled.set(1.., true).unwrap();
    assert_eq!(why(&filled, &list), due);
    filled.words_mut()[7] = 1;
    assert_eq!(filled.get(0), Err(Refusal::Unsound));
    assert_eq!(why(&filled, &list), due);
    assert_eq!(why(&SetBuf::from_words(room(2)), &list), due);
    assert_eq!(why(&SetBuf::from_words(vec![M; words(2)]), &list), due);
    let shared = PoolBuf::with_capacity(2, &[Limits { floor: 0, ceiling: 0 }; 16]).unwrap();
    let mut out = [STALE; 3];
    assert_eq!(shared.why_full(&list, &mut out).unwrap(), [0, 1, 3]);
    assert_eq!(shared.world(99).why_full(&list, &mut out).unwrap(), [0, 1, 3]);
}

#[test]
fn the_refusals_in_their_order() {
    let stopping = ranges_of(&[[0, 0], [4, 4], [2, 2]]);
    // 1 comes before all.
    for length in [0, 8, words(0), words(2) - 1, words(2) + 1, words(65_536) + 8] {
        let none = SetBuf::from_words(vec![0; length]);
        for list in [&stopping[..], &stopping[..1], &[]] {
            let mut out = [STALE; 4];
            assert_eq!(none.why_full(list, &mut out[..0]), Err(Refusal::StoreLength), "{length} words");
            assert_eq!(none.why_full(list, &mut out), Err(Refusal::StoreLength), "{length} words");
            assert_eq!(out, [STALE; 4]);
        }
    }
    // 16 before 2, and 2 for every slice of fewer than C + 1 words.
    let set = store(2);
    for length in 0..5 {
        let mut out = vec![STALE; length];
        assert_eq!(set.why_full(&stopping[..2], &mut out), Err(Refusal::NotRefused), "{length} words");
        match set.why_full(&stopping, &mut out) {
            Ok(places) => assert_eq!((length >= 3, &places[..]), (true, &[0, 1, 2][..])),
            Err(refusal) => assert_eq!((length < 3, refusal), (true, Refusal::OutputShort)),
        }
        let front = if length < 3 { 0 } else { 3 };
        assert!(out[front..].iter().all(|&word| word == STALE));
    }
}

// Words after the last whole range are no range.
#[test]
fn words_without_their_range() {
    let mut library = Library { stores: vec![store(1).into_words()] };
    let list = [1, 2, 1, 2, 1, 7, 1, 7];
    for length in 0..=list.len() {
        let told = library.answer(&Call::WhyFull { at: 0, ranges: list[..length].to_vec(), room: 2 });
        let due = if length < 8 { Told::Refused(Refusal::NotRefused) } else { Told::Words(2, vec![0, 1]) };
        assert_eq!(told, due, "{length} words");
    }
    for more in 1..4 {
        let ranges = [&list[..], &[0, 0, 0][..more]].concat();
        let told = library.answer(&Call::WhyFull { at: 0, ranges, room: 3 });
        assert_eq!(told, Told::Words(2, vec![0, 1, STALE]));
    }
}
