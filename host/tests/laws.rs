//! The laws of docs/LAWS.md through the safe calls, each tried on sets by chance: what the calls of both sides answer, and what they leave.

use std::ops::Bound::{self, Excluded, Included, Unbounded};

use vizturel::differential::random::Random;
use vizturel::{Answer, Limits, Operation, PoolBuf, Refusal, SetBuf, World};

const M: u64 = u64::MAX;
const OPERATIONS: [Operation; 3] = [Operation::And, Operation::Or, Operation::Xor];
const TIMES: usize = 4000;

type Range = (Bound<u64>, Bound<u64>);

// Near 0, in the middle and near M, where a shift drops something.
fn position(random: &mut Random) -> u64 {
    let near = random.one_of(&[0, 1 << 63, M - 63]);
    near + random.below(64)
}

// Mostly as short as the positions are far apart, and sometimes so long that all is dropped.
fn distance(random: &mut Random) -> u64 {
    match random.below(6) {
        0 => random.number(),
        1 => M - random.below(70),
        2 => (1 << 63) - 35 + random.below(70),
        _ => random.below(70),
    }
}

fn bound(random: &mut Random) -> Bound<u64> {
    match random.below(5) {
        0 => Unbounded,
        1 | 2 => Included(position(random)),
        _ => Excluded(position(random)),
    }
}

fn range(random: &mut Random) -> Range {
    (bound(random), bound(random))
}

// The first position that the lower bound allows, and the one after the last that the upper one allows.
fn ends((lower, upper): Range) -> (u128, u128) {
    let first = match lower {
        Included(x) => x.into(),
        Excluded(x) => u128::from(x) + 1,
        Unbounded => 0,
    };
    let past = match upper {
        Included(x) => u128::from(x) + 1,
        Excluded(x) => x.into(),
        Unbounded => 1 << 64,
    };
    (first, past)
}

fn disjoint(one: Range, other: Range) -> bool {
    let ((a, b), (c, d)) = (ends(one), ends(other));
    a >= b || c >= d || b <= c || d <= a
}

fn covers(one: Range, other: Range) -> bool {
    let ((a, b), (c, d)) = (ends(one), ends(other));
    a >= b || (c <= a && b <= d)
}

fn fill(world: &mut World<&mut [u64]>, random: &mut Random) {
    for _ in 0..random.below(7) {
        let (a, b) = (position(random), position(random));
        world.set(a.min(b)..=a.max(b), random.below(4) > 0).unwrap();
    }
}

fn pool(capacity: usize) -> PoolBuf {
    PoolBuf::with_capacity(capacity, &[Limits::NONE; 3]).unwrap()
}

fn pool_by_chance(random: &mut Random) -> PoolBuf {
    let mut pool = pool(64);
    for world in 0..3 {
        fill(&mut pool.world_mut(world), random);
    }
    pool
}

fn set_by_chance(random: &mut Random) -> SetBuf {
    let mut set = SetBuf::with_capacity(64).unwrap();
    fill(&mut set.world_mut(0), random);
    set
}

// Every world of one holds what it does of the other.
fn same(one: &PoolBuf, other: &PoolBuf) -> bool {
    (0..3).all(|world| one.world(world).eq(&other.world(world)).unwrap())
}

/// Two sets: worlds of two pools, two worlds of one pool, or one world.
#[derive(Clone)]
struct Pair {
    pools: [PoolBuf; 2],
    at: [(usize, u64); 2],
}

impl Pair {
    fn by_chance(random: &mut Random) -> Pair {
        let at = random.one_of(&[[(0, 1), (1, 2)], [(0, 2), (0, 0)], [(1, 1), (1, 1)]]);
        Pair { pools: [pool_by_chance(random), pool_by_chance(random)], at }
    }

    fn get(&self, which: usize) -> World<&[u64]> {
        let (pool, world) = self.at[which];
        self.pools[pool].world(world)
    }

    fn combine(&self, op: Operation, into: &mut World<&mut [u64]>) -> Answer<()> {
        into.combine(op, &self.get(0), &self.get(1))
    }

    // Each shifted once.
    fn shift(&mut self, distance: u64, left: bool) {
        let [first, second] = self.at;
        self.pools[first.0].world_mut(first.1).shift(distance, left).unwrap();
        if second != first {
            self.pools[second.0].world_mut(second.1).shift(distance, left).unwrap();
        }
    }

    // Each copied once by a shift, into worlds that lie as they do.
    fn shifted(&self, distance: u64, left: bool) -> Pair {
        let mut copy = Pair { pools: [pool(64), pool(64)], at: self.at };
        for which in 0..2 {
            let (pool, world) = self.at[which];
            copy.pools[pool].world_mut(world).shifted(&self.get(which), distance, left).unwrap();
        }
        copy
    }
}

#[test]
fn counts_of_and_and_or() {
    let mut random = Random::new(14);
    for _ in 0..TIMES {
        let pair = Pair::by_chance(&mut random);
        let [mut and, mut or] = [pool(64), pool(64)];
        pair.combine(Operation::And, &mut and.world_mut(0)).unwrap();
        pair.combine(Operation::Or, &mut or.world_mut(1)).unwrap();
        let (range, value) = (range(&mut random), random.truth());
        let count = |world: &World<&[u64]>| world.tally(range, value).unwrap().positions;
        assert_eq!(count(&and.world(0)) + count(&or.world(1)), count(&pair.get(0)) + count(&pair.get(1)));
    }
}

#[test]
fn shifts_pass_through() {
    let mut random = Random::new(15);
    for _ in 0..TIMES {
        let mut pair = Pair::by_chance(&mut random);
        let (op, d, left) = (random.one_of(&OPERATIONS), distance(&mut random), random.truth());
        // The outcome shifted in place, and a shifted copy of it.
        let [mut joined, mut place, mut copy] = [pool(64), pool(64), pool(64)];
        pair.combine(op, &mut joined.world_mut(0)).unwrap();
        copy.world_mut(0).shifted(&joined.world(0), d, left).unwrap();
        joined.world_mut(0).shift(d, left).unwrap();
        assert!(same(&joined, &copy));
        // The outcome of shifted copies, and of the sets shifted in place.
        pair.shifted(d, left).combine(op, &mut place.world_mut(0)).unwrap();
        assert!(same(&place, &joined));
        pair.shift(d, left);
        pair.combine(op, &mut place.world_mut(0)).unwrap();
        assert!(same(&place, &joined));
    }
}

#[test]
fn two_shifts() {
    let mut random = Random::new(16);
    let (mut emptied, mut added) = (0, 0);
    for _ in 0..TIMES {
        let fresh = set_by_chance(&mut random);
        let (d, e, left) = (distance(&mut random), distance(&mut random), random.truth());
        let [mut twice, mut swapped, mut copy, mut again] =
            [fresh.clone(), fresh.clone(), fresh.clone(), fresh.clone()];
        twice.shift(d, left).unwrap();
        copy.shifted(&fresh, d, left).unwrap();
        again.shifted(&copy, e, left).unwrap();
        twice.shift(e, left).unwrap();
        assert_eq!(again.eq(&twice), Ok(true));
        swapped.shift(e, left).unwrap();
        swapped.shift(d, left).unwrap();
        assert_eq!(swapped.eq(&twice), Ok(true));
        match d.checked_add(e) {
            Some(sum) => {
                added += 1;
                let mut once = fresh.clone();
                once.shift(sum, left).unwrap();
                assert_eq!(once.eq(&twice), Ok(true), "{d} and {e}");
            }
            None => {
                emptied += 1;
                assert_eq!(twice.tally(.., true).unwrap().positions, 0, "{d} and {e}");
            }
        }
    }
    assert!(emptied > TIMES / 20 && added > TIMES / 2, "{emptied} {added}");
}

#[test]
fn there_and_back() {
    let mut random = Random::new(17);
    for _ in 0..TIMES {
        let fresh = set_by_chance(&mut random);
        let d = distance(&mut random);
        let [mut up, mut down, mut cut] = [fresh.clone(), fresh.clone(), fresh.clone()];
        up.shift(d, true).unwrap();
        up.shift(d, false).unwrap();
        cut.set((Excluded(M - d), Unbounded), false).unwrap();
        assert_eq!(up.eq(&cut), Ok(true), "left then right by {d}");
        down.shift(d, false).unwrap();
        down.shift(d, true).unwrap();
        cut = fresh.clone();
        cut.set(..d, false).unwrap();
        assert_eq!(down.eq(&cut), Ok(true), "right then left by {d}");
    }
}

#[test]
fn what_is_not_refused_is_not_refused_of_shifted_sets() {
    let mut random = Random::new(18);
    let (mut done, mut refused, mut done_after) = (0, 0, 0);
    for _ in 0..TIMES {
        let mut pair = Pair::by_chance(&mut random);
        let (op, d, left) = (random.one_of(&OPERATIONS), distance(&mut random), random.truth());
        let fresh = pool(1 + random.below(6) as usize);
        let mut used = fresh.clone();
        let before = pair.combine(op, &mut used.world_mut(1));
        pair.shift(d, left);
        // Into the world as it was, and as the first call left it.
        let after = pair.combine(op, &mut fresh.clone().world_mut(1));
        assert_eq!(pair.combine(op, &mut used.world_mut(1)), after);
        match before {
            Ok(()) => {
                done += 1;
                assert_eq!(after, Ok(()));
            }
            Err(refusal) => {
                refused += 1;
                assert_eq!(refusal, Refusal::Capacity);
                done_after += usize::from(after.is_ok());
            }
        }
    }
    assert!(done > TIMES / 5 && refused > TIMES / 20 && done_after > 0, "{done} {refused} {done_after}");
}

#[test]
fn the_other_way_fails() {
    let [mut a, mut b, mut c] = [(); 3].map(|()| SetBuf::with_capacity(1).unwrap());
    a.set(M..=M, true).unwrap();
    b.set(5..=5, true).unwrap();
    assert_eq!(c.combine(Operation::Or, &a, &b), Err(Refusal::Capacity));
    a.shift(1, true).unwrap();
    b.shift(1, true).unwrap();
    assert_eq!(c.combine(Operation::Or, &a, &b), Ok(()));
    assert_eq!(c.run_at(6), Ok(6..=6));
}

fn of(runs: &[[u64; 2]]) -> SetBuf {
    let mut set = SetBuf::with_capacity(8).unwrap();
    set.build(runs).unwrap();
    set
}

fn holds(set: &SetBuf, runs: &[[u64; 2]]) -> bool {
    set.eq(&of(runs)).unwrap()
}

// The examples of docs/LAWS.md, law by law.
#[test]
fn examples() {
    // 1. Counts.
    let [mut and, mut or] = [of(&[]), of(&[])];
    and.combine(Operation::And, &of(&[[1, 4]]), &of(&[[3, 6]])).unwrap();
    or.combine(Operation::Or, &of(&[[1, 4]]), &of(&[[3, 6]])).unwrap();
    assert_eq!([&and, &or].map(|set| set.tally(.., true).unwrap().positions), [2, 6]);
    // 2. A shift passes through.
    let [mut joined, mut again] = [of(&[]), of(&[])];
    let [mut a, mut b] = [of(&[[M, M]]), of(&[[5, 5], [M, M]])];
    joined.combine(Operation::Xor, &a, &b).unwrap();
    assert!(holds(&joined, &[[5, 5]]));
    joined.shift(1, true).unwrap();
    a.shift(1, true).unwrap();
    b.shift(1, true).unwrap();
    assert!(holds(&a, &[]) && holds(&b, &[[6, 6]]));
    again.combine(Operation::Xor, &a, &b).unwrap();
    assert!(holds(&joined, &[[6, 6]]) && holds(&again, &[[6, 6]]));
    // 3. Two shifts.
    let [mut seven, mut first] = [of(&[[7, 7]]), of(&[[0, 0]])];
    seven.shift(2, true).unwrap();
    seven.shift(3, true).unwrap();
    first.shift(1 << 63, true).unwrap();
    first.shift(1 << 63, true).unwrap();
    assert!(holds(&seven, &[[12, 12]]) && holds(&first, &[]));
    let mut last = of(&[[0, 0]]);
    last.shift(M, true).unwrap();
    assert!(holds(&last, &[[M, M]]));
    // 4. Left then right.
    let mut cut = of(&[[0, 0], [5, 5], [M, M]]);
    cut.shift(1, true).unwrap();
    cut.shift(1, false).unwrap();
    assert!(holds(&cut, &[[0, 0], [5, 5]]));
    // 5. Of copies the refusal law is not claimed.
    let mut small = SetBuf::with_capacity(1).unwrap();
    let [a, b] = [of(&[[0, 0], [2, 2]]), of(&[[0, 0]])];
    assert_eq!(small.combine(Operation::And, &a, &b), Ok(()));
    assert_eq!(small.shifted(&a, 1, true), Err(Refusal::Capacity));
    // Sets to one value: the sum of the counts.
    let [mut x, mut y] = [of(&[]), of(&[])];
    assert_eq!((x.set(1..=2, true), x.set(2..=3, true)), (Ok(2), Ok(1)));
    assert_eq!((y.set(2..=3, true), y.set(1..=2, true)), (Ok(2), Ok(1)));
}

// What docs/LAWS.md does not claim, with the example it gives of each.
#[test]
fn what_is_not_claimed() {
    let empty = of(&[]);
    // The complement of a shifted set has the freed places, and the shifted complement has not.
    let [mut first, mut shifted, mut second] = [empty.clone(), empty.clone(), empty.clone()];
    first.not(&empty).unwrap();
    first.shift(1, true).unwrap();
    shifted.shift(1, true).unwrap();
    second.not(&shifted).unwrap();
    assert!(holds(&first, &[[1, M]]) && holds(&second, &[[0, M]]));
    // Left then right is not right then left.
    let [mut up, mut down] = [of(&[[0, 0]]), of(&[[0, 0]])];
    up.shift(1, true).unwrap();
    up.shift(1, false).unwrap();
    down.shift(1, false).unwrap();
    down.shift(1, true).unwrap();
    assert_eq!((up.get(0), down.get(0)), (Ok(true), Ok(false)));
    // A set before one that covers it changes the count that the second answers.
    let [mut both, mut one] = [empty.clone(), empty.clone()];
    both.set(3..=3, true).unwrap();
    assert_eq!((both.set(3..=3, true), one.set(3..=3, true)), (Ok(0), Ok(1)));
    // One order of two sets is refused, and the other is not: of one world, and of two.
    let three = || {
        let mut set = SetBuf::with_capacity(1).unwrap();
        set.set(3..=3, true).unwrap();
        set
    };
    let [mut late, mut early] = [three(), three()];
    assert_eq!((late.set(3..=3, false), late.set(7..=7, true)), (Ok(1), Ok(1)));
    assert_eq!(early.set(7..=7, true), Err(Refusal::Capacity));
    let fresh = || {
        let mut pool = PoolBuf::with_capacity(1, &[Limits::NONE; 2]).unwrap();
        pool.world_mut(0).set(3..=3, true).unwrap();
        pool
    };
    let [mut late, mut early] = [fresh(), fresh()];
    assert_eq!(late.world_mut(0).set(3..=3, false), Ok(1));
    assert_eq!(late.world_mut(1).set(7..=7, true), Ok(1));
    assert_eq!(early.world_mut(1).set(7..=7, true), Err(Refusal::Capacity));
}

#[test]
fn sets_and_flips_of_one_world() {
    let mut random = Random::new(19);
    let mut seen = [0; 3];
    for _ in 0..TIMES {
        let fresh = pool_by_chance(&mut random);
        let (one, other, b, c) = (range(&mut random), range(&mut random), random.truth(), random.truth());
        let set = |pool: &mut PoolBuf, range, value| pool.world_mut(1).set(range, value).unwrap();
        let flip = |pool: &mut PoolBuf, range| pool.world_mut(1).flip(range).unwrap();
        let two = || [fresh.clone(), fresh.clone()];
        let [mut x, mut y] = two();
        let first = [set(&mut x, one, b), set(&mut x, other, c)];
        let second = [set(&mut y, other, c), set(&mut y, one, b)];
        if disjoint(one, other) {
            seen[0] += 1;
            assert_eq!(first, [second[1], second[0]], "{one:?} {other:?}");
            assert!(same(&x, &y), "{one:?} {other:?}");
            // A set and a flip.
            let [mut x, mut y] = two();
            let before = set(&mut x, one, b);
            flip(&mut x, other);
            flip(&mut y, other);
            assert_eq!(set(&mut y, one, b), before, "{one:?} {other:?}");
            assert!(same(&x, &y), "{one:?} {other:?}");
        }
        // A map of a window that the range does not touch.
        let base = position(&mut random).min(M - 15);
        let map = [random.below(256) as u8, random.below(256) as u8];
        if disjoint(one, (Included(base), Included(base + 15))) {
            let [mut x, mut y] = two();
            let before = (set(&mut x, one, b), x.world_mut(1).read_map(base, 16, &map).unwrap());
            let after = (y.world_mut(1).read_map(base, 16, &map).unwrap(), set(&mut y, one, b));
            assert_eq!(before, (after.1, after.0), "{one:?} {base}");
            assert!(same(&x, &y), "{one:?} {base}");
        }
        if b == c {
            seen[1] += 1;
            assert_eq!(first[0] + first[1], second[0] + second[1], "{one:?} {other:?}");
            assert!(same(&x, &y), "{one:?} {other:?}");
        }
        if covers(one, other) {
            seen[2] += 1;
            let mut once = fresh.clone();
            set(&mut once, other, c);
            assert!(same(&x, &once), "{one:?} {other:?}");
        }
        // Flips, in either order, and twice.
        let [mut x, mut y] = two();
        flip(&mut x, one);
        flip(&mut x, other);
        flip(&mut y, other);
        flip(&mut y, one);
        assert!(same(&x, &y), "{one:?} {other:?}");
        flip(&mut x, other);
        flip(&mut x, one);
        assert!(same(&x, &fresh), "{one:?} {other:?}");
    }
    assert!(seen.iter().all(|&n| n > TIMES / 8), "{seen:?}");
}

// A pool that has little room left, or none.
fn crowded(random: &mut Random) -> PoolBuf {
    let mut pool = pool(4 + random.below(8) as usize);
    for world in [0, 1, 2, 0, 1, 2, 0, 1, 2] {
        let x = position(random);
        // A refused one leaves all as it was.
        let _ = pool.world_mut(world).set(x..=x, true);
    }
    pool
}

// A call of some kind, with its answer as a number.
fn change(world: &mut World<&mut [u64]>, which: u64, random: &mut Random) -> Answer<u128> {
    match which {
        0 => world.set(range(random), random.truth()),
        1 => world.flip(range(random)).map(|()| 0),
        2 => world.shift(distance(random), random.truth()).map(|()| 0),
        3 => world.build(&[[position(random) / 2, M / 2], [M - random.below(9), M]]).map(|()| 0),
        4 => world.tally(range(random), random.truth()).map(|tally| tally.positions + u128::from(tally.runs)),
        _ => world.read_map(position(random) / 2, 8, &[random.below(256) as u8]),
    }
}

#[test]
fn calls_on_two_worlds() {
    let mut random = Random::new(20);
    let (mut done, mut refused) = (0, 0);
    for _ in 0..TIMES {
        let fresh = crowded(&mut random);
        let [mut x, mut y] = [fresh.clone(), fresh];
        let (one, other) = (random.below(6), random.below(6));
        let [mut r, mut s] = [random.clone(), Random::new(random.number())];
        let first =
            (change(&mut x.world_mut(0), one, &mut r.clone()), change(&mut x.world_mut(2), other, &mut s.clone()));
        let second = (change(&mut y.world_mut(2), other, &mut s), change(&mut y.world_mut(0), one, &mut r));
        if let ((Ok(a), Ok(b)), (Ok(c), Ok(d))) = (first, second) {
            done += 1;
            assert_eq!((a, b), (d, c), "{one} {other}");
            assert!(same(&x, &y), "{one} {other}");
        } else {
            refused += 1;
        }
    }
    assert!(done > TIMES / 2 && refused > 0, "{done} {refused}");
}

#[test]
fn a_call_before_one_that_overwrites() {
    let mut random = Random::new(21);
    let (mut done, mut refused) = (0, 0);
    for _ in 0..TIMES {
        let fresh = crowded(&mut random);
        let source = set_by_chance(&mut random);
        let [mut x, mut y] = [fresh.clone(), fresh];
        // It may be refused: then the next one is not changed by it either.
        let _ = change(&mut x.world_mut(1), random.below(6), &mut random);
        let (d, left) = (distance(&mut random), random.truth());
        let answer = x.world_mut(1).shifted(&source, d, left);
        assert_eq!(y.world_mut(1).shifted(&source, d, left), answer);
        if answer.is_ok() {
            done += 1;
            assert!(same(&x, &y));
        } else {
            refused += 1;
        }
    }
    assert!(done > TIMES / 5 && refused > TIMES / 100, "{done} {refused}");
}

#[test]
fn reports_in_either_order() {
    let mut random = Random::new(22);
    for _ in 0..TIMES {
        let pool = pool_by_chance(&mut random);
        let words = pool.words().to_vec();
        let (one, other, b, c) = (range(&mut random), range(&mut random), random.truth(), random.truth());
        let tally = || pool.world(0).tally(one, b);
        let find = || pool.world(2).find(other, c);
        let first = (tally(), find());
        let second = (find(), tally());
        assert_eq!(first, (second.1, second.0));
        assert_eq!(pool.words(), words);
    }
}
