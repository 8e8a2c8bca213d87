//! The list for the deepest tree of a height: that it makes that height, run by run, in a store of just as many runs; that no order of fewer
//! runs does, where they are few; and what each refusal leaves.

use vizturel::differential::calls::{Call, Told};
use vizturel::differential::library::Library;
use vizturel::differential::reference::{self, Run, node_at, record_at};
use vizturel::frame::{Call as Listed, Reply};
use vizturel::{HEIGHT, PoolBuf, Refusal, SetBuf, room, words};

const STALE: Run = [0xEEEE_EEEE_EEEE_EEEE; 2];

// How many runs each height takes, from height 1 on.
const RUNS: [usize; HEIGHT as usize] =
    [1, 2, 4, 7, 12, 20, 33, 54, 88, 143, 232, 376, 609, 986, 1596, 2583, 4180, 6764, 10_945, 17_710, 28_656, 46_367];

// Every height, and how many runs it takes.
fn heights() -> impl Iterator<Item = (u64, usize)> {
    (1..).zip(RUNS)
}

fn store(runs: usize) -> SetBuf {
    SetBuf::with_capacity(runs).unwrap()
}

// How high the tree of the only world is, by the words: the root stands first in its record, and the height is word 4 of a node.
fn height(store: &SetBuf) -> u64 {
    let words = store.words();
    match words[record_at(0)] {
        0 => 0,
        root => words[node_at(root as usize) + 4],
    }
}

// The list for a height, from a slice with room for three runs more, which stay; and so does every word.
fn list(store: &SetBuf, height: u64, runs: usize) -> Vec<Run> {
    let before = store.words().to_vec();
    let mut out = vec![STALE; runs + 3];
    let list = store.deepest(height, &mut out).unwrap().to_vec();
    assert_eq!(list.len(), runs, "height {height}");
    assert_eq!(out[..runs], list);
    assert_eq!(out[runs..], [STALE; 3], "height {height}");
    assert!(store.words() == before, "height {height}: words changed");
    list
}

// What asking for a list gives that is refused: the slice stays, and every word.
fn refused(store: &SetBuf, height: u64, runs: usize) -> Refusal {
    let before = store.words().to_vec();
    let mut out = vec![STALE; runs];
    let told = store.deepest(height, &mut out).map(|list| list.len());
    assert!(out.iter().all(|&run| run == STALE), "refused, and changed the slice");
    assert!(store.words() == before, "refused, and changed words");
    told.expect_err("it is refused")
}

#[test]
fn each_height_takes_one_run_more_than_the_two_before_it() {
    assert_eq!(RUNS[..2], [1, 2]);
    assert!(RUNS.windows(3).all(|w| w[2] == w[1] + w[0] + 1));
}

#[test]
fn each_list_makes_its_height_with_its_last_run() {
    for (h, runs) in heights() {
        let mut store = store(runs);
        let list = list(&store, h, runs);
        let sets: Vec<Listed> = list.iter().map(|&[start, end]| Listed::set(start..=end, true)).collect();
        let (last, before) = sets.split_last().unwrap();
        for (calls, high) in [(before, h - 1), (std::slice::from_ref(last), h)] {
            let told = store.frame(calls).unwrap();
            assert!(told.iter().all(|told| matches!(told, Ok(Reply::Count(n)) if *n > 0)), "height {h}");
            assert_eq!(height(&store), high, "height {h}, {} sets", calls.len());
        }
        assert_eq!(store.tally(.., true).unwrap().runs, runs as u64);
    }
}

#[test]
fn single_calls_make_it_too() {
    for (h, runs) in heights().take(10) {
        let mut store = store(runs);
        let list = list(&store, h, runs);
        for (i, &[start, end]) in list.iter().enumerate() {
            assert!(height(&store) < h, "height {h} before run {i}");
            store.set(start..=end, true).unwrap();
        }
        assert_eq!(height(&store), h);
    }
}

// Hands every order of so many things on.
fn every_order(order: &mut Vec<u64>, from: usize, each: &mut impl FnMut(&[u64])) {
    if from == order.len() {
        each(order);
    }
    for i in from..order.len() {
        order.swap(from, i);
        every_order(order, from + 1, each);
        order.swap(from, i);
    }
}

#[test]
fn no_order_of_fewer_runs_is_as_high() {
    for runs in 1..=7 {
        let mut highest = 0;
        every_order(&mut (0..runs as u64).collect(), 0, &mut |order| {
            let mut store = store(runs);
            for rank in order {
                store.set(3 * rank..3 * rank + 2, true).unwrap();
            }
            highest = highest.max(height(&store));
        });
        assert_eq!(highest, heights().take_while(|&(_, least)| least <= runs).count() as u64, "{runs} runs");
    }
}

#[test]
fn a_capacity_of_one_run_less_is_refused() {
    for (h, runs) in heights().skip(1) {
        assert_eq!(refused(&store(runs - 1), h, runs), Refusal::Capacity, "height {h}");
        // Before a slice that is too short.
        assert_eq!(refused(&store(runs - 1), h, 0), Refusal::Capacity, "height {h}");
        assert_eq!(list(&store(runs + 1), h, runs), list(&store(runs), h, runs));
    }
}

#[test]
fn a_slice_of_one_word_less_is_refused() {
    for (h, runs) in heights() {
        let store = store(runs);
        assert_eq!(refused(&store, h, runs - 1), Refusal::OutputShort, "height {h}");
        assert_eq!(refused(&store, h, 0), Refusal::OutputShort, "height {h}");
        let due: Vec<u64> = list(&store, h, runs).into_flattened();
        let mut library = Library { stores: vec![store.into_words()] };
        let mut ask = |room| library.answer(&Call::Deepest { at: 0, height: h, room });
        assert_eq!(ask(2 * runs - 1), Told::Refused(Refusal::OutputShort), "height {h}");
        assert_eq!(ask(2 * runs), Told::Words(2 * runs, due.clone()), "height {h}");
        assert_eq!(ask(2 * runs + 1), Told::Words(2 * runs, [&due[..], &STALE[..1]].concat()), "height {h}");
    }
}

#[test]
fn other_heights_are_refused() {
    for capacity in [1, 4, 65_536] {
        let store = store(capacity);
        for h in [0, HEIGHT + 1, HEIGHT + 2, 1 << 32, 1 << 32 | 1, 1 << 63, u64::MAX] {
            // Before a capacity and a slice that are too small.
            for runs in [0, 8] {
                assert_eq!(refused(&store, h, runs), Refusal::TreeHeight, "height {h}");
            }
        }
    }
}

#[test]
fn a_wrong_length_comes_before_all() {
    for length in [0, 8, words(0), words(4) - 1, words(4) + 1, words(65_536) + 8] {
        let store = SetBuf::from_words(vec![0; length]);
        for h in [0, 1, 3, HEIGHT, HEIGHT + 1] {
            assert_eq!(refused(&store, h, 0), Refusal::StoreLength, "{length} words, height {h}");
        }
    }
}

// The list follows from the height alone: whatever the words are, and whichever worlds there are.
#[test]
fn equal_calls_get_equal_lists() {
    for (h, runs) in heights() {
        let mut filled = store(runs);
        let due = list(&filled, h, runs);
        assert_eq!(due, reference::deepest(h as u32), "height {h}");
        filled.set(1.., true).unwrap();
        assert_eq!(list(&filled, h, runs), due);
        filled.words_mut()[7] = 1;
        assert_eq!(filled.get(0), Err(Refusal::Unsound));
        assert_eq!(list(&filled, h, runs), due);
        assert_eq!(list(&SetBuf::from_words(room(runs + 9)), h, runs), due);
        assert_eq!(list(&SetBuf::from_words(vec![u64::MAX; words(runs)]), h, runs), due);
        let shared = PoolBuf::with_capacity(runs, &[vizturel::Limits { floor: 0, ceiling: 0 }; 16]).unwrap();
        let mut out = vec![STALE; runs];
        assert_eq!(shared.deepest(h, &mut out).unwrap(), due);
        assert_eq!(shared.world(99).deepest(h, &mut out).unwrap(), due);
    }
}
