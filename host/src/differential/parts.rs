//! The parts of the run.

use std::ops::Bound;

use super::calls::{Call, Place, Range, SPARE};
use super::chance::{self, KINDS, Kind, Wander};
use super::random::Random;
use super::records;
use super::reference::{self, Draft, Limit, Run, Shape, WORLDS, node_at, record_at};
use super::{Difference, EDITIONS, HALF, M, Options, Plan, Score, Sequence, WRITTEN};
use crate::{Edition, HEIGHT, Operation, Rect, SIDE};

type Outcome = Result<(), Difference>;

// The world of the parts that have one.
const HERE: Place = Place::first(0);

const ENDS: [u64; 5] = [0, 1, HALF, M - 1, M];

fn every_bound(positions: &[u64]) -> Vec<Bound<u64>> {
    let mut all = vec![Bound::Unbounded];
    for &x in positions {
        all.extend([Bound::Included(x), Bound::Excluded(x)]);
    }
    all
}

// Every pair of bounds: empty and reversed ranges among them.
fn every_range(positions: &[u64]) -> Vec<Range> {
    let bounds = every_bound(positions);
    bounds.iter().flat_map(|&lower| bounds.iter().map(move |&upper| (lower, upper))).collect()
}

fn changes(ranges: &[Range]) -> Vec<Call> {
    let mut all = Vec::new();
    for &range in ranges {
        all.push(Call::Set { at: HERE, range, value: true });
        all.push(Call::Set { at: HERE, range, value: false });
        all.push(Call::Flip { at: HERE, range });
    }
    for distance in [0, 1, 2, HALF - 1, HALF, M] {
        all.extend([true, false].map(|left| Call::Shift { at: HERE, distance, left }));
    }
    all
}

// All that is reported of a range.
fn report(score: &mut Score, s: &mut Sequence, range: Range, value: bool, backs: u64) -> Outcome {
    s.call(score, Call::Find { at: HERE, range, value })?;
    s.call(score, Call::Tally { at: HERE, range, value })?;
    s.call(score, Call::TallyStrict { at: HERE, range, value })?;
    s.call(score, Call::Ranges { at: HERE, range, value, backs })?;
    for k in [0, 1, HALF - 1, HALF, M - 1, M] {
        s.call(score, Call::Select { at: HERE, range, value, k })?;
    }
    if !value {
        for n in [0, 1, 2, HALF - 1, HALF, M - 1, M] {
            s.call(score, Call::Gap { at: HERE, range, n })?;
        }
    }
    Ok(())
}

/// Every short sequence of changes at 0, around 2^63 and at M, with every kind of bound, and reports after each.
pub fn exhaustive(score: &mut Score, options: Options) -> Outcome {
    score.begin("exhaustive: two changes, every bound, some reports");
    let ranges = every_range(&ENDS);
    let all = changes(&ranges);
    let mut turn = 0;
    for first in &all {
        let mut one = Sequence::alone(&[5]);
        one.call(score, first.clone())?;
        for second in &all {
            turn += 1;
            if turn % options.stride != 0 {
                continue;
            }
            let mut two = one.clone();
            two.call(score, second.clone())?;
            for x in ENDS {
                two.call(score, Call::Get { at: HERE, x })?;
                two.call(score, Call::RunAt { at: HERE, x })?;
            }
            // Over the turns every range has its turn.
            for i in 0..3 {
                let range = ranges[(3 * turn + i) as usize % ranges.len()];
                report(score, &mut two, range, turn / 121 % 2 == 0, turn)?;
            }
        }
    }
    score.begin("exhaustive: a set and a shift, every report");
    for set in all.iter().filter(|c| matches!(c, Call::Set { value: true, .. })) {
        for shift in all.iter().filter(|c| matches!(c, Call::Shift { .. })) {
            turn += 1;
            if turn % options.stride != 0 {
                continue;
            }
            let mut s = Sequence::alone(&[2]);
            s.call(score, set.clone())?;
            s.call(score, shift.clone())?;
            for &range in &ranges {
                for value in [true, false] {
                    report(score, &mut s, range, value, turn)?;
                }
            }
        }
    }
    score.begin("exhaustive: three changes of closed ranges at capacities 1 to 3");
    let closed: Vec<Range> =
        (0..5).flat_map(|i| (i..5).map(move |j| (Bound::Included(ENDS[i]), Bound::Included(ENDS[j])))).collect();
    let all = changes(&closed);
    for (i, first) in all.iter().enumerate() {
        let mut one = Sequence::alone(&[1 + i % 3]);
        one.call(score, first.clone())?;
        for second in &all {
            let mut two = one.clone();
            two.call(score, second.clone())?;
            for third in &all {
                turn += 1;
                if turn % options.stride != 0 {
                    continue;
                }
                let mut three = two.clone();
                three.call(score, third.clone())?;
                report(score, &mut three, closed[turn as usize % closed.len()], turn / 15 % 2 == 0, turn)?;
            }
        }
    }
    Ok(())
}

// Worlds of each number from none to more than a pool may have, with limits at and beyond what a capacity allows.
fn every_making(capacity: u64) -> Vec<Vec<Limit>> {
    let mut all = Vec::new();
    for count in 0..=WORLDS + 2 {
        all.extend([[0, 0], [0, capacity], [1, 1], [1, M], [capacity, M]].map(|limit| vec![limit; count]));
        // One of them, the first and the last, is odd: a floor above its ceiling, one above the capacity, and one that wraps the sum.
        for at in [0, count.saturating_sub(1)].into_iter().filter(|&at| at < count) {
            for limit in [[1, 0], [capacity, capacity - 1], [M, M - 1], [capacity + 1, M], [M, M], [M - 1, M]] {
                let mut limits = vec![[0, 1], [1, 1]].into_iter().cycle().take(count).collect::<Vec<_>>();
                limits[at] = limit;
                all.push(limits);
            }
            // Floors that take all of the capacity, and one run more.
            for more in [0, 1] {
                let mut limits = vec![[0, 2]; count];
                limits[at] = [(capacity + more).saturating_sub(1), M];
                limits[count - 1 - at][0] += 1;
                all.push(limits);
            }
        }
    }
    all
}

/// Pools made with limits of every kind, in words of every kind, and which worlds they have then.
pub fn makings(score: &mut Score, options: Options) -> Outcome {
    score.begin("pools made");
    let mut random = Random::new(options.seed ^ 0x11);
    let mut turn = 0;
    let mut make = |score: &mut Score, random: &mut Random, capacity: usize, limits: Vec<u64>| {
        turn += 1;
        if turn % options.stride != 0 {
            return Ok(());
        }
        let mut s = Sequence::new(vec![chance::plan(random, capacity)]);
        grow(score, &mut s, random, 0, 2)?;
        match turn / options.stride % 4 {
            0 => s.call(score, Call::Poke { at: 0, word: SPARE, value: 1 })?,
            1 => s.call(score, Call::Lend { at: 0, words: crate::room(capacity) })?,
            2 => s.call(score, Call::Lend { at: 0, words: vec![0; 8 * (capacity + 49) - 1] })?,
            _ => {}
        }
        let worlds = limits.len() as u64 / 2;
        s.call(score, Call::New { to: 0, limits })?;
        for world in [worlds.saturating_sub(1), worlds] {
            let at = Place { store: 0, world };
            s.call(score, Call::Set { at, range: (Bound::Included(3), Bound::Included(4)), value: true })?;
        }
        Ok(())
    };
    for capacity in [1, 2, 3, 15, 16, 17] {
        for limits in every_making(capacity as u64) {
            let words = limits.into_flattened();
            make(score, &mut random, capacity, words.clone())?;
            // A last word without its partner is no world.
            let more = random.one_of(&[0, 1, M]);
            make(score, &mut random, capacity, [&words[..], &[more]].concat())?;
        }
    }
    let few = [0, 1, 2, 3, HALF, M - 1, M];
    for code in 0..7_usize.pow(4) {
        let limits = (0..4).map(|i| few[code / 7_usize.pow(i) % 7]).collect();
        make(score, &mut random, 2, limits)?;
    }
    Ok(())
}

// The limits of two worlds that a capacity allows, up to ceilings above it.
fn every_pair(capacity: u64) -> Vec<[Limit; 2]> {
    let of_floor = |floor| (floor..=capacity + 1).map(move |ceiling| [floor, ceiling]);
    let every = || (0..=capacity).flat_map(of_floor);
    let pairs = every().flat_map(|a| every().map(move |b| [a, b]));
    pairs.filter(|[a, b]| a[0] + b[0] <= capacity).collect()
}

// So many single positions, each a run.
fn singles(count: usize) -> Vec<Run> {
    (0..count as u64).map(|i| [2 * i, 2 * i]).collect()
}

/// Two worlds of small pools with every floor and ceiling and every number of runs: what each change that may add runs makes of that.
pub fn shares(score: &mut Score, options: Options) -> Outcome {
    score.begin("what worlds take of their pool");
    let mut turn = 0;
    for capacity in 1..=4_usize {
        for limits in every_pair(capacity as u64) {
            for code in 0..(capacity + 2).pow(2) {
                turn += 1;
                if turn % options.stride == 0 {
                    let runs = [code / (capacity + 2), code % (capacity + 2)];
                    share(score, Plan { capacity, limits: limits.to_vec() }, runs)?;
                }
            }
        }
    }
    Ok(())
}

// Gives world 1 so many runs, then world 0, by each call that can, and then a run more and one less to each.
fn share(score: &mut Score, plan: Plan, [here, beside]: [usize; 2]) -> Outcome {
    let neighbour = Place { store: 0, world: 1 };
    let [set, complement] = [0, 1].map(|world| Place { store: 1, world });
    let mut s = Sequence::new(vec![plan, Plan { capacity: 16, limits: vec![[0, 16]; 2] }]);
    s.call(score, Call::Build { to: neighbour, runs: singles(beside) })?;
    s.call(score, Call::Build { to: set, runs: singles(here) })?;
    s.call(score, Call::Not { to: complement, a: set })?;
    let map = vec![0x55 & ((1_u16 << (2 * here)) - 1) as u8, if here > 4 { 1 << (2 * (here - 5)) } else { 0 }];
    for call in [
        Call::Build { to: HERE, runs: singles(here) },
        Call::Load { to: HERE, bytes: reference::encode(Edition::Rows, &singles(here)) },
        Call::Load { to: HERE, bytes: reference::encode(Edition::Columns, &singles(here)) },
        Call::ReadMap { at: HERE, base: 0, n: 16, map },
        Call::Combine { to: HERE, op: Operation::And, a: set, b: set },
        Call::Not { to: HERE, a: complement },
        Call::Shifted { to: HERE, a: set, distance: 1, left: true },
    ] {
        let mut t = s.clone();
        t.call(score, call)?;
        let single = |x| (Bound::Included(x), Bound::Included(x));
        for at in [HERE, neighbour] {
            t.call(score, Call::Set { at, range: single(40), value: true })?;
            t.call(score, Call::Flip { at, range: single(50) })?;
        }
        for at in [neighbour, HERE, neighbour] {
            t.call(score, Call::Flip { at, range: single(60) })?;
            t.call(score, Call::Set { at, range: (Bound::Unbounded, Bound::Included(1)), value: false })?;
        }
    }
    Ok(())
}

// Some changes by chance in worlds of a store.
fn grow(score: &mut Score, s: &mut Sequence, random: &mut Random, store: usize, count: u64) -> Outcome {
    for _ in 0..count {
        let kind = random.one_of(&[Kind::Set, Kind::Set, Kind::Set, Kind::Flip, Kind::Shift]);
        let at = chance::place(random, s.sides.stores(), store);
        let call = chance::call(random, s.sides.stores(), kind, at);
        s.call(score, call)?;
    }
    Ok(())
}

// Every kind of call about a store, and before them a frame on a copy, so that they have the store as it is.
fn every_kind(score: &mut Score, s: &mut Sequence, random: &mut Random, store: usize) -> Outcome {
    let count = random.below(5) as usize;
    let frame = chance::frame(random, s.sides.stores(), store, count);
    s.clone().call(score, frame)?;
    for kind in KINDS {
        let at = chance::place(random, s.sides.stores(), store);
        let call = chance::call(random, s.sides.stores(), kind, at);
        s.call(score, call)?;
    }
    Ok(())
}

// What a word of a damaged store may be instead.
fn word_beside(random: &mut Random, words: &[u64], word: usize) -> u64 {
    let (few, other, any) = (random.below(8), random.one_of(words), random.number());
    random.one_of(&[few, other, words[word] ^ 1, any])
}

/// Every word of sound pools changed in many ways, and every kind of call on what is left.
pub fn damaged_stores(score: &mut Score, options: Options) -> Outcome {
    score.begin("damaged pools: each word changed");
    let mut random = Random::new(options.seed ^ 0xDA);
    let mut turn = 0;
    for store in 0..24 {
        let capacity = 1 + store % 6;
        let mut s = Sequence::new([capacity, 3, 3].map(|c| chance::plan(&mut random, c)).to_vec());
        let count = random.below(40);
        grow(score, &mut s, &mut random, 0, count)?;
        grow(score, &mut s, &mut random, 1, 4)?;
        let words = s.sides.words(0).to_vec();
        for (word, &was) in words.iter().enumerate() {
            let last = capacity as u64 + 32;
            let beside = random.one_of(&words);
            let mut values = vec![was.wrapping_add(1), was.wrapping_sub(1), !was, was ^ HALF, was ^ (1 << 32)];
            values.extend([0, 1, 2, 3, last, last + 1, HALF, M, beside, random.number()]);
            values.retain(|&v| v != was);
            for value in values {
                turn += 1;
                if turn % options.stride != 0 {
                    continue;
                }
                let mut damaged = s.clone();
                damaged.call(score, Call::Poke { at: 0, word, value })?;
                every_kind(score, &mut damaged, &mut random, 0)?;
            }
        }
    }
    score.begin("damaged pools: two words changed, records and nodes mixed up");
    for turn in 0..40_000 {
        if turn % options.stride != 0 {
            continue;
        }
        let capacities = [1 + turn as usize / 2 % 5, 2, 4];
        let mut s = Sequence::new(capacities.map(|c| chance::plan(&mut random, c)).to_vec());
        let count = random.below(20);
        grow(score, &mut s, &mut random, 0, count)?;
        let mut words = s.sides.words(0).to_vec();
        if (turn / options.stride).is_multiple_of(2) {
            for _ in 0..2 {
                let word = random.below(words.len() as u64) as usize;
                words[word] = word_beside(&mut random, &words, word);
            }
        } else {
            mix(&mut random, &mut words);
        }
        s.call(score, Call::Lend { at: 0, words })?;
        every_kind(score, &mut s, &mut random, 0)?;
    }
    Ok(())
}

// Two different numbers below one that is at least 2.
fn two_of(random: &mut Random, below: usize) -> [usize; 2] {
    let a = random.below(below as u64) as usize;
    let b = random.below(below as u64 - 1) as usize;
    [a, if b < a { b } else { b + 1 }]
}

// Mixes up worlds of a pool. Some of what this leaves is sound: worlds that changed places with all they have, and a world more or less
// whose record is all 0.
fn mix(random: &mut Random, words: &mut [u64]) {
    let opened = words[0] as usize;
    let nodes = words.len() / 8 - (WORLDS + 1);
    let [i, j] = two_of(random, WORLDS);
    let [n, m] = two_of(random, nodes).map(|n| n + 1);
    let in_use: Vec<usize> = (1..=nodes).filter(|&n| words[node_at(n) + 4] != 0).collect();
    let swap = |words: &mut [u64], a: usize, b: usize, count: usize| (0..count).for_each(|k| words.swap(a + k, b + k));
    match random.below(10) {
        // The records of two worlds, opened or not, with or without their numbers in the nodes.
        0 => swap(words, record_at(i), record_at(j), 8),
        1 if opened > 1 => {
            let [i, j] = two_of(random, opened);
            swap(words, record_at(i), record_at(j), 8);
            for &n in &in_use {
                let world = &mut words[node_at(n) + 7];
                *world = if *world == i as u64 {
                    j as u64
                } else if *world == j as u64 {
                    i as u64
                } else {
                    *world
                };
            }
        }
        // One word of two records: a root, an offset, a sum, a limit.
        2 if opened > 1 => {
            let [i, j] = two_of(random, opened);
            let word = random.below(8) as usize;
            words.swap(record_at(i) + word, record_at(j) + word);
        }
        // Worlds more or fewer.
        3 => words[0] = random.one_of(&[opened as u64 + 1, opened as u64 - 1, 16]),
        // A record that is not opened, and not 0.
        4 => words[record_at(i) + random.below(8) as usize] = 1 + random.below(3),
        // Two nodes, and one word of them: a link, a sum, a world's number.
        5 => swap(words, node_at(n), node_at(m), 8),
        6 if in_use.len() > 1 => {
            let [a, b] = two_of(random, in_use.len());
            let word = 2 + random.below(6) as usize;
            words.swap(node_at(in_use[a]) + word, node_at(in_use[b]) + word);
        }
        // A link into another tree, or into a free node.
        7 if !in_use.is_empty() => {
            let from = random.one_of(&in_use);
            words[node_at(from) + 2 + random.below(2) as usize] = n as u64;
        }
        8 => words[record_at(random.below(opened as u64) as usize)] = random.one_of(&[0, n as u64, m as u64]),
        // A node of another world, and one of none.
        _ if !in_use.is_empty() => {
            let number = random.one_of(&[i as u64, j as u64, 16, M]);
            words[node_at(random.one_of(&in_use)) + 7] = number;
        }
        _ => words[1] = n as u64,
    }
}

// Runs that rise; now and then they touch, overlap or are reversed. Where `spread` is set they reach up to M.
fn some_runs(random: &mut Random, most: u64) -> Vec<Run> {
    let count = random.below(most + 1);
    let spread = random.truth();
    let mut runs = Vec::new();
    let mut x = if random.truth() { 0 } else { random.below(20) };
    for i in 0..count {
        let long = if spread { random.below((M - x) / 2 + 1) } else { random.below(9) };
        let mut y = x.saturating_add(long);
        if i + 1 == count && random.once_in(3) {
            y = M;
        }
        runs.push([x, y]);
        let gap = if random.once_in(40) { random.below(2) } else { 2 + random.below(9) };
        x = y.saturating_add(gap);
        if x >= M - 1 {
            break;
        }
    }
    if random.once_in(40) && !runs.is_empty() {
        let i = random.below(runs.len() as u64) as usize;
        runs[i].swap(0, 1);
    }
    runs
}

// A world by chance: full ones, and those with a run or a floor too many, come up often.
fn some_world(random: &mut Random, most: u64) -> Draft {
    let physical = some_runs(random, most);
    let offset = match random.below(4) {
        0 => 0,
        1 => chance::position(random, &physical),
        2 => chance::position(random, &physical).wrapping_neg(),
        _ => random.number(),
    };
    let offset = if physical.is_empty() && !random.once_in(40) { 0 } else { offset };
    let held = reference::logical(&physical, offset).len() as u64;
    let ceiling = random.one_of(&[held, held, held + 1, held + 2, M]);
    let ceiling = if random.once_in(40) { ceiling.saturating_sub(1) } else { ceiling };
    let floor = random.one_of(&[0, 0, held, held, ceiling.min(held + 1)]);
    Draft { physical, offset, limit: [floor, ceiling] }
}

/// Pools that no call of the library made: any arrangement of nodes, any offsets and limits; sound ones and others.
pub fn crafted_stores(score: &mut Score, options: Options) -> Outcome {
    score.begin("crafted pools");
    let mut random = Random::new(options.seed ^ 0xC7);
    for turn in 0..60_000 {
        if turn % options.stride != 0 {
            continue;
        }
        let mut s = Sequence::alone(&[1, 2, 3]);
        for at in 0..3 {
            let capacity = 1 + random.below(9) as usize;
            let mut left = capacity as u64 + random.below(3);
            let mut worlds = Vec::new();
            for _ in 0..random.one_of(&[1, 1, 2, 2, 3, 4, 16]) {
                let world = some_world(&mut random, left);
                left -= (world.physical.len() as u64).max(world.limit[0]).min(left);
                worlds.push(world);
            }
            let shape = if random.once_in(8) { Shape::Any } else { Shape::Even };
            let words = reference::craft(capacity, &worlds, shape, &mut random);
            s.call(score, Call::Lend { at, words })?;
        }
        for _ in 0..2 {
            every_kind(score, &mut s, &mut random, 0)?;
        }
    }
    Ok(())
}

/// Stores of every wrong length, alone and beside damaged ones, and worlds that are not opened.
pub fn wrong_lengths(score: &mut Score, options: Options) -> Outcome {
    score.begin("wrong lengths");
    let mut random = Random::new(options.seed ^ 0x1E);
    let mut lengths: Vec<usize> = (0..=80).chain(8 * 49 - 16..=8 * 52 + 1).collect();
    lengths.extend([8 * (65_536 + 49) + 1, 8 * (65_536 + 50)]);
    for length in lengths {
        let mut s = Sequence::alone(&[2, 2, 2]);
        s.call(score, Call::Lend { at: 0, words: vec![0; length] })?;
        every_kind(score, &mut s, &mut random, 0)?;
    }
    // Whatever the three worlds of a call are: in a store of a wrong length or a damaged one, not opened, or good.
    for which in 0..4_usize.pow(3) {
        let mut s = Sequence::alone(&[2, 2, 2]);
        let mut places = [0, 1, 2].map(Place::first);
        for (store, at) in places.iter_mut().enumerate() {
            s.call(score, Call::Set { at: *at, range: (Bound::Included(3), Bound::Excluded(9)), value: true })?;
            match which / 4_usize.pow(store as u32) % 4 {
                0 => s.call(score, Call::Lend { at: store, words: vec![0; 8 * 50 - 1] })?,
                1 => s.call(score, Call::Poke { at: store, word: SPARE, value: 1 })?,
                2 => at.world = random.one_of(&[1, 15, 16, HALF, M]),
                _ => {}
            }
        }
        let [at, a, b] = places;
        for op in [Operation::And, Operation::Or, Operation::Xor] {
            let mut t = s.clone();
            t.call(score, Call::Combine { to: at, op, a, b })?;
        }
        // With arguments that would be refused for themselves, too.
        for call in [
            Call::Equal { a: at, b: a },
            Call::Not { to: at, a },
            Call::Shifted { to: at, a, distance: 3, left: true },
            Call::Load { to: at, bytes: vec![] },
            Call::Load { to: at, bytes: vec![3, 0, 0, 0, 0] },
            Call::Mend { to: at, bytes: vec![1], rooms: [0, 0] },
            Call::Mend { to: at, bytes: vec![3, 0, 0, 0, 0], rooms: [0, 0] },
            Call::Mend { to: at, bytes: reference::encode(Edition::Rows, &singles(3)), rooms: [0, 0] },
            Call::Mend { to: at, bytes: reference::encode(Edition::Columns, &[[4, 3], [2, 2]]), rooms: [21, 1] },
            Call::Build { to: at, runs: vec![[4, 3]] },
            Call::Build { to: at, runs: singles(3) },
            Call::ReadMap { at, base: 0, n: 0, map: vec![] },
            Call::ReadMap { at, base: 0, n: 7, map: vec![0x80] },
            Call::ReadMap { at, base: 0, n: 8, map: vec![0x55] },
            Call::Fill { at, base: 0, n: 0 },
            Call::Gap { at, range: (Bound::Unbounded, Bound::Unbounded), n: 0 },
            Call::Deepest { at: 0, height: 0, room: 0 },
            Call::Deepest { at: 0, height: 3, room: 0 },
            Call::Deepest { at: 0, height: 2, room: 3 },
            Call::Deepest { at: 0, height: 2, room: 5 },
            Call::WhyFull { at: 0, ranges: vec![], room: 0 },
            Call::WhyFull { at: 0, ranges: words_of(&singles(3)), room: 2 },
            Call::WhyFull { at: 0, ranges: words_of(&singles(3)), room: 4 },
            Call::Write { at, edition: 1, room: 0 },
            Call::Write { at, edition: 2, room: 0 },
            Call::WriteMap { at, base: M, n: 2, room: 0 },
            Call::Frame { at: 0, calls: vec![0, 0, 5, 0, 0, 0, 0, at.world], room: 8 },
            Call::Frame { at: 0, calls: vec![13, 0, 5, 0, 0, 0, 0, at.world], room: 7 },
        ] {
            let mut t = s.clone();
            t.call(score, call)?;
        }
    }
    Ok(())
}

// Converts bytes into a slice of so much room and, where they are a written set, what that gives back again.
fn convert_twice(score: &mut Score, s: &mut Sequence, bytes: Vec<u8>, room: usize) -> Outcome {
    let other = reference::converted(&bytes);
    s.call(score, Call::Convert { bytes, room })?;
    match other {
        Ok(bytes) => s.call(score, Call::Convert { bytes, room }),
        Err(_) => Ok(()),
    }
}

// A written set cut and lengthened, and with each byte given each value.
fn damaged(written: &[u8]) -> impl Iterator<Item = Vec<u8>> {
    let cut = (0..written.len() + 34).map(|length| {
        let mut bytes = written.to_vec();
        bytes.resize(length, 0);
        bytes
    });
    let changed = (0..written.len()).flat_map(|i| (0..=255).map(move |value| (i, value)));
    cut.chain(changed.map(|(i, value)| {
        let mut bytes = written.to_vec();
        bytes[i] = value;
        bytes
    }))
}

/// Written sets of both editions cut, lengthened and with each byte changed, loaded and converted; run lists in every order.
pub fn damaged_bytes(score: &mut Score, options: Options) -> Outcome {
    score.begin("damaged written sets");
    let mut random = Random::new(options.seed ^ 0xB7);
    for (runs, edition) in WRITTEN.into_iter().flat_map(|runs| EDITIONS.map(|edition| (runs, edition))) {
        let written = reference::encode(edition, runs);
        for capacity in 1..=4 {
            let mut s = Sequence::alone(&[capacity]);
            s.call(score, Call::Set { at: HERE, range: (Bound::Included(7), Bound::Unbounded), value: true })?;
            for bytes in damaged(&written) {
                s.call(score, Call::Load { to: HERE, bytes: bytes.clone() })?;
                s.call(score, Call::Mend { to: HERE, bytes, rooms: [written.len(), runs.len()] })?;
            }
            for room in 0..5 + 16 * capacity + 3 {
                s.call(score, Call::Write { at: HERE, edition: edition as u64, room })?;
            }
        }
        let mut s = Sequence::alone(&[1]);
        for bytes in damaged(&written) {
            convert_twice(score, &mut s, bytes, written.len() + 3)?;
        }
        for room in 0..written.len() + 3 {
            convert_twice(score, &mut s, written.clone(), room)?;
        }
    }
    // The version is told before a length that is no set's, and after one below 5.
    let mut s = Sequence::alone(&[2]);
    for length in 0..24 {
        for version in [0, 1, 2, 3, 255] {
            let bytes = vec![version; length];
            s.call(score, Call::Convert { bytes: bytes.clone(), room: 40 })?;
            s.call(score, Call::Mend { to: HERE, bytes: bytes.clone(), rooms: [40, 2] })?;
            s.call(score, Call::Load { to: HERE, bytes })?;
        }
    }
    score.begin("run lists in every order");
    let few = [0, 1, 2, 3, M - 2, M - 1, M];
    for code in 0..7_usize.pow(4) {
        let x: Vec<u64> = (0..4).map(|i| few[code / 7_usize.pow(i) % 7]).collect();
        let runs = vec![[x[0], x[1]], [x[2], x[3]]];
        for capacity in 1..=2 {
            let mut s = Sequence::alone(&[capacity]);
            for edition in EDITIONS {
                let bytes = reference::encode(edition, &runs);
                convert_twice(score, &mut s, bytes.clone(), bytes.len())?;
                s.call(score, Call::Mend { to: HERE, bytes: bytes.clone(), rooms: [40, 3] })?;
                s.call(score, Call::Load { to: HERE, bytes })?;
                s.call(score, Call::Build { to: HERE, runs: Vec::new() })?;
            }
            s.call(score, Call::Build { to: HERE, runs: runs.clone() })?;
        }
    }
    for _ in 0..40_000 / options.stride {
        let mut s = Sequence::alone(&[1 + random.below(5) as usize]);
        let mut bytes = reference::encode(random.one_of(&EDITIONS), &some_runs(&mut random, 6));
        for _ in 0..random.below(3) {
            chance::spoil(&mut random, &mut bytes);
        }
        let room = bytes.len() + random.below(4) as usize;
        convert_twice(score, &mut s, bytes.clone(), room)?;
        s.call(score, Call::Load { to: HERE, bytes })?;
    }
    Ok(())
}

// Mends runs in an edition where there is just the room that is due, one byte less of either slice, and more of both; each time in the
// world as it is.
fn mend_closely(score: &mut Score, s: &mut Sequence, edition: Edition, runs: &[Run]) -> Outcome {
    let due = [5 + 16 * reference::united(runs).len(), runs.len()];
    let bytes = reference::encode(edition, runs);
    for (less, more) in [([1, 0], 0), ([0, 1], 0), ([0, 0], 2), ([0, 0], 0)] {
        let rooms = [0, 1].map(|i| (due[i] + more).saturating_sub(less[i]));
        s.call(score, Call::Mend { to: HERE, bytes: bytes.clone(), rooms })?;
    }
    Ok(())
}

// How many runs the library takes from the bytes at once.
const BLOCK: u64 = 512;

/// Written sets whose runs stand in any order: every three of some runs, lists by chance in worlds of little room, and lists of about as many
/// runs as the library takes at once, and twice and thrice as many.
pub fn mendings(score: &mut Score, options: Options) -> Outcome {
    score.begin("mended sets, every three runs");
    let mut random = Random::new(options.seed ^ 0x4E);
    let ends = [0, 1, 2, 3, M - 1, M];
    let all: Vec<Run> = ends.iter().flat_map(|&start| ends.map(|end| [start, end])).collect();
    for code in (0..all.len().pow(3) as u64).step_by(options.stride as usize) {
        let code = code as usize;
        let runs = [code, code / all.len(), code / all.len().pow(2)].map(|i| all[i % all.len()]);
        let mut s = Sequence::alone(&[1 + code % 3]);
        s.call(score, Call::Build { to: HERE, runs: vec![[7, 7]] })?;
        mend_closely(score, &mut s, EDITIONS[code / 3 % 2], &runs)?;
    }
    score.begin("mended sets by chance");
    for _ in 0..40_000 / options.stride {
        let capacity = 1 + random.below(6) as usize;
        let plan = chance::plan(&mut random, capacity);
        let mut s = Sequence::new(vec![plan]);
        grow(score, &mut s, &mut random, 0, 3)?;
        let runs = some_runs(&mut random, 6);
        let runs = chance::jumble(&mut random, &runs, 8);
        let call = chance::mend(&mut random, HERE, &runs);
        s.call(score, call)?;
    }
    score.begin("mended sets of many runs");
    for count in [BLOCK - 1, BLOCK, BLOCK + 1, 2 * BLOCK, 2 * BLOCK + 1, 3 * BLOCK + 2] {
        let apart: Vec<Run> = (0..count).map(|i| [4 * i, 4 * i + random.below(3)]).collect();
        let touching: Vec<Run> = (0..count).map(|i| [4 * i, 4 * i + random.below(5)]).collect();
        // A block ends among runs of one start, or in a run of the outcome that goes on in the next.
        let equal = vec![[9, 12]; count as usize];
        let nested: Vec<Run> = (0..count).map(|i| [i, M - i]).collect();
        let dropped: Vec<Run> = (0..count).map(|i| [4 * i + i % 3, 4 * i + 1]).collect();
        let high: Vec<Run> = (0..count).map(|i| [M - 3 * i, M - 3 * i]).collect();
        for (i, mut runs) in [apart, touching, equal, nested, dropped, high].into_iter().enumerate() {
            let mut s = Sequence::alone(&[count as usize]);
            mend_closely(score, &mut s, EDITIONS[i % 2], &runs)?;
            runs.reverse();
            mend_closely(score, &mut s, EDITIONS[i % 2], &runs)?;
            random.shuffle(&mut runs);
            mend_closely(score, &mut s, EDITIONS[(i + 1) % 2], &runs)?;
            // One run less than the outcome has.
            let less = reference::united(&runs).len() - 1;
            if less > 0 {
                mend_closely(score, &mut Sequence::alone(&[less]), EDITIONS[i % 2], &runs)?;
            }
        }
    }
    Ok(())
}

/// The lists for all heights, at every capacity around the number of their runs, in pools that are sound and others, and in words of a wrong
/// length.
pub fn heights(score: &mut Score, options: Options) -> Outcome {
    score.begin("lists for heights");
    let mut random = Random::new(options.seed ^ 0xDE);
    for highest in 1..=HEIGHT {
        let [runs, _] = reference::least(highest as u32).map(|count| count as usize);
        for capacity in [runs - 1, runs, runs + 1].into_iter().filter(|&capacity| capacity > 0) {
            let mut s = Sequence::new(vec![chance::plan(&mut random, capacity)]);
            grow(score, &mut s, &mut random, 0, 2)?;
            every_height(score, &mut s, capacity, highest)?;
            s.call(score, Call::Poke { at: 0, word: SPARE, value: 1 })?;
            every_height(score, &mut s, capacity, highest)?;
            let words = (0..8 * (capacity + 49)).map(|_| random.number()).collect();
            s.call(score, Call::Lend { at: 0, words })?;
            every_height(score, &mut s, capacity, highest)?;
            let words = vec![0; 8 * (capacity + 49) + 1 + random.below(7) as usize];
            s.call(score, Call::Lend { at: 0, words })?;
            every_height(score, &mut s, capacity, highest)?;
        }
    }
    Ok(())
}

// Asks a store for the lists for heights about one, and for heights that there are none of, with room for none of it, for a word less than is
// due, for just that, and for more.
fn every_height(score: &mut Score, s: &mut Sequence, capacity: usize, about: u64) -> Outcome {
    for height in [about - 1, about, about + 1, HEIGHT, HEIGHT + 1, 1 << 32 | about, M] {
        let due = 2 * capacity.min(reference::least(height.min(HEIGHT) as u32)[0] as usize);
        for room in [0, due.saturating_sub(1), due, due + 3] {
            s.call(score, Call::Deepest { at: 0, height, room })?;
        }
    }
    Ok(())
}

// The words of ranges that include their ends.
fn words_of(runs: &[Run]) -> Vec<u64> {
    runs.iter().flat_map(|&[start, end]| [1, start, 1, end]).collect()
}

// Asks why a list is refused at a capacity, with room for all places, for one less, for none, and for some more; once with words after the last
// range.
fn why_closely(score: &mut Score, s: &mut Sequence, capacity: usize, ranges: &[u64], more: usize) -> Outcome {
    for room in [capacity, capacity + 1, capacity + 2, 0, capacity + 6] {
        s.call(score, Call::WhyFull { at: 0, ranges: ranges.to_vec(), room })?;
    }
    let ranges = [ranges, &[1, 7, 1][..more]].concat();
    s.call(score, Call::WhyFull { at: 0, ranges, room: capacity + 1 })
}

/// Lists of ranges that are refused, and others: every list of up to four of some ranges at both ends of the positions, with bounds of every
/// kind, at capacities 1 to 3; lists by chance; lists of as many ranges as the library takes at once, and twice and thrice as many; in pools
/// that are sound and others, and in words of a wrong length.
pub fn stopped(score: &mut Score, options: Options) -> Outcome {
    score.begin("lists that stop, up to four ranges");
    let mut random = Random::new(options.seed ^ 0x50);
    // Single positions, neighbours, ranges that join others, all positions, one that is empty and one that is reversed.
    let some: [Run; 14] = [
        [0, 0],
        [1, 1],
        [2, 2],
        [0, 1],
        [2, 4],
        [4, 4],
        [M - 2, M - 2],
        [M - 1, M],
        [M, M],
        [M - 2, M - 1],
        [1, M - 1],
        [0, M],
        [3, 2],
        [M, 4],
    ];
    let mut pools = [1, 2, 3].map(|capacity| Sequence::alone(&[capacity]));
    let mut turn = 0;
    for count in 0..=4 {
        for code in 0..some.len().pow(count) {
            for (pool, capacity) in pools.iter_mut().zip(1..) {
                turn += 1;
                if turn % options.stride != 0 {
                    continue;
                }
                let list = (0..count).map(|i| some[code / some.len().pow(i) % some.len()]);
                let ranges: Vec<u64> = list.flat_map(|run| chance::spelled(&mut random, run)).collect();
                // Over the turns every length has its turn, and some lists have them all.
                if turn % 16 == 0 {
                    why_closely(score, pool, capacity, &ranges, turn as usize / 16 % 4)?;
                }
                let room = capacity + [0, 1, 1, 2][turn as usize % 4];
                pool.call(score, Call::WhyFull { at: 0, ranges, room })?;
            }
        }
    }
    score.begin("lists that stop, by chance");
    for turn in 0..6_000 / options.stride {
        let capacity = [1, 2, 3, 4, 7, 16, 33, 64, 120][turn as usize % 9];
        let mut s = Sequence::alone(&[capacity]);
        let list = chance::spawns(&mut random, capacity as u64, M);
        let ranges: Vec<u64> = list.into_iter().flat_map(|run| chance::spelled(&mut random, run)).collect();
        why_closely(score, &mut s, capacity, &ranges, turn as usize / 9 % 4)?;
    }
    for turn in 0..6 {
        let capacity = [200, 500, 1000][turn % 3];
        let mut s = Sequence::alone(&[capacity]);
        let list = chance::spawns(&mut random, capacity as u64, M);
        why_closely(score, &mut s, capacity, &words_of(&list), turn % 4)?;
    }
    score.begin("lists that stop, of many ranges");
    let sizes = [BLOCK, BLOCK + 1, BLOCK - 1, 2 * BLOCK, 2 * BLOCK + 1, 3 * BLOCK + 2];
    for runs in sizes.into_iter().take(if options.stride > 1 { 2 } else { sizes.len() }) {
        for list in many_ranges(&mut random, runs) {
            // One run less than there are at the last call, as many, and one more.
            for capacity in [runs - 2, runs - 1, runs] {
                let mut s = Sequence::alone(&[capacity as usize]);
                why_closely(score, &mut s, capacity as usize, &words_of(&list), 1)?;
            }
        }
    }
    score.begin("lists that stop, in words of any kind");
    for capacity in [1, 2, 3, 9, 40] {
        let list: Vec<Run> = (0..=capacity as u64).rev().map(|i| [3 * i, 3 * i + 1]).collect();
        for ranges in [words_of(&list), words_of(&list[1..])] {
            let mut s = Sequence::new(vec![chance::plan(&mut random, capacity)]);
            grow(score, &mut s, &mut random, 0, 4)?;
            why_closely(score, &mut s, capacity, &ranges, 3)?;
            s.call(score, Call::Poke { at: 0, word: SPARE, value: 1 })?;
            why_closely(score, &mut s, capacity, &ranges, 2)?;
            let length = 8 * (capacity + 49);
            for words in [vec![0; length], vec![M; length], (0..length).map(|_| random.number()).collect()] {
                s.call(score, Call::Lend { at: 0, words })?;
                why_closely(score, &mut s, capacity, &ranges, 1)?;
            }
            for length in [0, 8 * 49, length - 8, length - 1, length + 1, length + 7, length + 8, 8 * (65_536 + 50)] {
                s.call(score, Call::Lend { at: 0, words: vec![0; length] })?;
                why_closely(score, &mut s, capacity, &ranges, 1)?;
            }
        }
    }
    Ok(())
}

// Lists of which the union comes to have so many runs with the last range: rising, falling, in any order, each range once more and more than
// once, with ranges that hold nothing, and such that the runs go up and down by one all the while.
fn many_ranges(random: &mut Random, runs: u64) -> Vec<Vec<Run>> {
    let rising: Vec<Run> = (0..runs).map(|i| [4 * i, 4 * i + random.below(3)]).collect();
    let falling = rising.iter().rev().copied().collect();
    let mut mixed = rising.clone();
    random.shuffle(&mut mixed);
    let mut again: Vec<Run> = rising[..rising.len() - 1].iter().flat_map(|&run| [run, [run[1], run[0]], run]).collect();
    random.shuffle(&mut again);
    again.push([M, M]);
    // Two runs less than that, then turn by turn a run more and a range that joins it to the one before it.
    let mut hovering: Vec<Run> = rising[..rising.len() - 3].to_vec();
    for i in 0..200 {
        let x = 4 * runs + 4 * i;
        hovering.extend([[x, x], [x - 4, x]]);
    }
    hovering.extend([[M - 2, M - 2], [M, M]]);
    vec![rising, falling, mixed, again, hovering]
}

// Reads a map, clears it and, where a spare bit was one, reads what that leaves.
fn read_and_cleared(score: &mut Score, s: &mut Sequence, base: u64, n: u64, map: Vec<u8>) -> Outcome {
    let mut cleared = map.clone();
    let stray = reference::clear(n, &mut cleared) > 0;
    s.call(score, Call::ReadMap { at: HERE, base, n, map: map.clone() })?;
    s.call(score, Call::ClearMap { base, n, map })?;
    if stray {
        s.call(score, Call::ReadMap { at: HERE, base, n, map: cleared })?;
    }
    Ok(())
}

/// Windows and maps of every size near a limit, and slices of every room.
pub fn windows(score: &mut Score, options: Options) -> Outcome {
    score.begin("windows and maps");
    let mut random = Random::new(options.seed ^ 0x3A);
    let bases = [0, 1, 7, 8, HALF - 4, M - 524_287, M - 524_286, M - 16, M - 8, M - 7, M - 1, M];
    let sizes = [0, 1, 2, 7, 8, 9, 15, 16, 17, 63, 64, 65, 524_288, 524_289, 1 << 32, HALF, M];
    for base in bases {
        for n in sizes {
            for turn in 0..4 {
                let mut s = Sequence::alone(&[[1, 2, 8, 200][turn]]);
                grow(score, &mut s, &mut random, 0, 6)?;
                let due = n.min(600_000).div_ceil(8) as usize;
                s.call(score, Call::Fill { at: HERE, base, n })?;
                for room in [0, due.saturating_sub(1), due, due + 1] {
                    s.call(score, Call::WriteMap { at: HERE, base, n, room })?;
                }
                // The oracle takes long over a large map of single positions.
                let single = due < 20 || (turn == 0 && base == 0);
                let bytes = if single { vec![0, 0xFF, 0x55, random.number() as u8] } else { vec![0, 0xFF] };
                for length in [due.saturating_sub(1), due, due + 1] {
                    for &byte in &bytes {
                        read_and_cleared(score, &mut s, base, n, vec![byte; length])?;
                    }
                }
                if due < 20 {
                    // What is written is read back elsewhere.
                    s.call(score, Call::WriteMap { at: HERE, base, n, room: 40 })?;
                    let map = (0..due).map(|_| random.number() as u8).collect();
                    read_and_cleared(score, &mut s, base, n, map)?;
                    s.call(score, Call::WriteMap { at: HERE, base, n, room: 40 })?;
                }
            }
        }
    }
    Ok(())
}

// How many neighbouring positions the sets of the gap search have around an edge.
const AROUND: u64 = 8;

/// The gap search on every set of eight neighbouring positions at 0, around 2^63 and at M, with the place where physical positions end
/// before, among and after them, in ranges of every kind about them and for every length that could fit.
pub fn gaps(score: &mut Score, options: Options) -> Outcome {
    score.begin("gaps");
    let mut random = Random::new(options.seed ^ 0x6A);
    let mut turn = 0;
    for base in [0, HALF - AROUND / 2, M - (AROUND - 1)] {
        for held in 0..1_u64 << AROUND {
            for offset in [0, base.wrapping_sub(1), base + 1, base + AROUND / 2, base + (AROUND - 1)] {
                turn += 1;
                if turn % options.stride != 0 {
                    continue;
                }
                let mut s = Sequence::alone(&[1]);
                let runs = runs_of_bits(base, held);
                // Turned back by the offset, which is 0 where nothing is held, they are physical runs.
                let offset = if runs.is_empty() { 0 } else { offset };
                let physical = reference::logical(&runs, offset.wrapping_neg());
                let world = Draft { physical, offset, limit: [0, 5] };
                let words = reference::craft(5, &[world], Shape::Even, &mut random);
                s.call(score, Call::Lend { at: 0, words })?;
                for _ in 0..4 {
                    let (x, y) = (base + random.below(AROUND), base + random.below(AROUND));
                    let lower = random.one_of(&[Bound::Unbounded, Bound::Included(x), Bound::Excluded(x)]);
                    let upper = random.one_of(&[Bound::Unbounded, Bound::Included(y), Bound::Excluded(y)]);
                    for n in (0..=AROUND + 1).chain([HALF - 4, HALF, M - AROUND, M]) {
                        s.call(score, Call::Gap { at: HERE, range: (lower, upper), n })?;
                    }
                }
            }
        }
    }
    Ok(())
}

// The runs of the bits that are one, from a base on.
fn runs_of_bits(base: u64, bits: u64) -> Vec<Run> {
    let mut runs: Vec<Run> = Vec::new();
    for x in (0..AROUND).filter(|i| bits >> i & 1 == 1).map(|i| base + i) {
        match runs.last_mut() {
            Some([_, end]) if *end + 1 == x => *end = x,
            _ => runs.push([x, x]),
        }
    }
    runs
}

// How many rows and columns of cells the rectangles of a patch have.
const PATCH: u64 = 4;

// The rectangles of a patch of cells.
fn every_rect(row: u64, column: u64) -> Vec<Rect> {
    let ends = || (0..PATCH).flat_map(|i| (i..PATCH).map(move |j| (i, j)));
    let rect = |(top, bottom), (left, right)| Rect::new((row + top, column + left), (row + bottom, column + right));
    ends().flat_map(|rows| ends().map(move |columns| rect(rows, columns))).collect()
}

// Lends a pool of one world with these runs, room for so many more, and physical positions that end at a cell.
fn lend_cells(
    score: &mut Score,
    s: &mut Sequence,
    random: &mut Random,
    runs: &[Run],
    more: usize,
    offset: u64,
) -> Outcome {
    let capacity = (runs.len() + more).max(1);
    let offset = if runs.is_empty() { 0 } else { offset };
    let physical = reference::logical(runs, offset.wrapping_neg());
    let world = Draft { physical, offset, limit: [0, capacity as u64] };
    let words = reference::craft(capacity, &[world], Shape::Even, random);
    s.call(score, Call::Lend { at: 0, words })
}

/// Rectangles and surveys of cells: every rectangle of patches at the plane's corners, edges and middle, each cell of them held or not, with no room
/// for a run more, and little; then rows that are nearly as wide as the plane, so that one cell lies between two of them; then many rows.
pub fn grids(score: &mut Score, options: Options) -> Outcome {
    score.begin("cells of a grid: every rectangle of a patch");
    let mut random = Random::new(options.seed ^ 0x12);
    let last = SIDE - PATCH;
    let patches = [[0, 0], [0, last], [last, 0], [last, last], [7, 9], [SIDE / 2, SIDE - 2 * PATCH], [last - 1, 1]];
    for turn in 0..600 {
        if turn % options.stride.min(40) != 0 {
            continue;
        }
        let [row, column] = random.one_of(&patches);
        let whole = Rect::new((row, column), (row + PATCH - 1, column + PATCH - 1));
        // Cells by chance, with the cells before and after each row of the patch, where there are some.
        let dense = 1 + random.below(3);
        let cells = (row..row + PATCH).flat_map(|r| (r * SIDE + column).saturating_sub(1)..=r * SIDE + column + PATCH);
        let held: Vec<Run> = cells.filter(|_| random.below(4) < dense).map(|x| [x, x]).collect();
        let runs = reference::united(&held);
        let offset = random.one_of(&[0, row * SIDE + column + 1, (row + 1) * SIDE + column, HALF]);
        let mut s = Sequence::alone(&[1]);
        lend_cells(score, &mut s, &mut random, &runs, room_for(turn), offset)?;
        for k in 0..=2 {
            s.call(score, Call::Survey { at: HERE, row, column, k, room: 5 * 16 })?;
        }
        for rect in every_rect(row, column) {
            s.call(score, Call::CountRect { at: HERE, rect })?;
            for value in [true, false] {
                let mut t = s.clone();
                t.call(score, Call::SetRect { at: HERE, rect, value })?;
                t.call(score, Call::CountRect { at: HERE, rect: whole })?;
                t.call(score, Call::Survey { at: HERE, row, column, k: 2, room: 5 * 16 })?;
            }
        }
    }
    score.begin("cells of a grid: rows nearly as wide as the plane");
    for turn in 0..2000_u64 {
        if turn % options.stride.min(40) != 0 {
            continue;
        }
        let top = random.one_of(&[0, 1, 5, SIDE - 4]);
        let rows = 1 + random.below(4);
        // Cells at the ends of the rows, those before the first row and after the last among them.
        let ends = (top..=top + rows).flat_map(|r| (r * SIDE).saturating_sub(3)..r * SIDE + 3);
        let cells: Vec<Run> = ends.filter(|&x| x < SIDE * SIDE && !random.once_in(3)).map(|x| [x, x]).collect();
        let runs = reference::united(&cells);
        let offset = random.one_of(&[0, top * SIDE, (top + 1) * SIDE - 1, (top + 1) * SIDE + 1, HALF]);
        let mut s = Sequence::alone(&[1]);
        lend_cells(score, &mut s, &mut random, &runs, room_for(turn), offset)?;
        let around = Rect::new((top.saturating_sub(1), 0), ((top + rows).min(SIDE - 1), SIDE - 1));
        for (left, right) in [(0, SIDE - 1), (0, SIDE - 2), (1, SIDE - 1), (1, SIDE - 2), (2, SIDE - 1), (0, 0)] {
            let rect = Rect::new((top, left), (top + rows - 1, right));
            s.call(score, Call::CountRect { at: HERE, rect })?;
            for value in [true, false] {
                let mut t = s.clone();
                t.call(score, Call::SetRect { at: HERE, rect, value })?;
                t.call(score, Call::CountRect { at: HERE, rect: around })?;
            }
        }
    }
    many_rows(score, &mut random)
}

// Room for no run more in every other turn, else for a few.
fn room_for(turn: u64) -> usize {
    [0, 1, 0, 2, 0, 3, 0, 8][turn as usize % 8]
}

// A rectangle of as many rows as the plane has, at the largest capacity, which is as many runs: then what adds one is refused, and what joins
// runs or takes some away is not.
fn many_rows(score: &mut Score, random: &mut Random) -> Outcome {
    score.begin("cells of a grid: as many rows as the plane has");
    let last = SIDE - 1;
    let column = |left, right| Rect::new((0, left), (last, right));
    let mut s = Sequence::alone(&[SIDE as usize]);
    s.call(score, Call::SetRect { at: HERE, rect: column(3, 4), value: true })?;
    for (rect, value) in [
        (Rect::cell(9, 9), true),
        (column(0, last - 1), false),
        (column(3, 4), true),
        (column(5, 7), true),
        // A hole in every row would be a run more in each.
        (column(5, 5), false),
        (Rect::new((0, 0), (400, last)), false),
        (Rect::new((0, 0), (800, 5)), true),
        (Rect::new((402, 6), (700, 6)), false),
        (Rect::new((380, 6), (420, 6)), false),
        (Rect::new((0, 0), (400, 6)), false),
        (Rect::new((500, 6), (701, 6)), false),
        // 401 rows gain a run, and those after them lose one: a run too many, and then none too many. Not all of the first fit at first.
        (Rect::new((0, 6), (700, 7)), true),
        (Rect::new((0, 6), (701, 7)), true),
        (Rect::PLANE, true),
        (column(3, 4), false),
        (Rect::PLANE, false),
    ] {
        s.call(score, Call::SetRect { at: HERE, rect, value })?;
        s.call(score, Call::CountRect { at: HERE, rect: Rect::PLANE })?;
        for _ in 0..4 {
            let call = chance::call(random, s.sides.stores(), Kind::CountRect, HERE);
            s.call(score, call)?;
        }
        for (row, column, k) in [(0, 0, 8), (300, 0, 8), (256, 5, 3), (SIDE - 256, SIDE - 256, 8)] {
            s.call(score, Call::Survey { at: HERE, row, column, k, room: 5 << 16 })?;
        }
    }
    Ok(())
}

fn wander(score: &mut Score, random: &mut Random, plans: Vec<Plan>, calls: u64) -> Outcome {
    let mut s = Sequence::new(plans);
    let mut history = Wander::default();
    for _ in 0..calls {
        let call = history.next(random, s.sides.stores());
        s.call(score, call)?;
    }
    Ok(())
}

/// Random sequences at the smallest capacities, with one world and several, where refusal 8 is near at every call.
pub fn limits(score: &mut Score, options: Options) -> Outcome {
    score.begin("capacity limits");
    let mut random = Random::new(options.seed ^ 0x8);
    for turn in 0..options.calls / 4 / 300 {
        let capacities = [1 + turn as usize % 3, 1 + random.below(4) as usize, 1 + random.below(3) as usize];
        let plan = |c| if turn % 4 == 0 { Plan::alone(c) } else { chance::plan(&mut random, c) };
        let plans = capacities.map(plan).to_vec();
        wander(score, &mut random, plans, 300)?;
    }
    Ok(())
}

/// The largest capacity: filled to the last run, one more refused, and what it gives to others, by one world and by 16; and the deepest
/// trees that there are.
pub fn large(score: &mut Score, options: Options) -> Outcome {
    score.begin("the largest capacity");
    let mut random = Random::new(options.seed ^ 0x1A);
    const LARGEST: u64 = 65_536;
    let runs: Vec<Run> = (0..LARGEST).map(|i| [i << 40, (i << 40) + random.below(1 << 39)]).collect();
    let mut s = Sequence::alone(&[LARGEST as usize, LARGEST as usize, 3]);
    let [second, third] = [1, 2].map(Place::first);
    s.call(score, Call::Build { to: HERE, runs: runs.clone() })?;
    for edition in EDITIONS {
        let bytes = reference::encode(edition, &runs);
        let room = bytes.len();
        convert_twice(score, &mut s, bytes.clone(), room)?;
        s.call(score, Call::Load { to: second, bytes })?;
        s.call(score, Call::Equal { a: HERE, b: second })?;
        s.call(score, Call::Write { at: HERE, edition: edition as u64, room })?;
    }
    // More runs than a world can have, but no more in the outcome; then one more there.
    let mut many: Vec<Run> = [&runs[..], &runs[..1000]].concat();
    random.shuffle(&mut many);
    for edition in EDITIONS {
        let rooms = [5 + 16 * LARGEST as usize, many.len()];
        s.call(score, Call::Mend { to: second, bytes: reference::encode(edition, &many), rooms })?;
        s.call(score, Call::Equal { a: HERE, b: second })?;
        many.push([M, M]);
    }
    // As many ranges as fit, the first of them in any order, and then one more.
    let mut list = runs.clone();
    random.shuffle(&mut list[..8192]);
    for _ in 0..2 {
        s.call(score, Call::WhyFull { at: 0, ranges: words_of(&list), room: LARGEST as usize + 2 })?;
        list.push([M, M]);
    }
    s.call(score, Call::Not { to: second, a: HERE })?;
    s.call(score, Call::Set { at: HERE, range: (Bound::Included(M - 3), Bound::Included(M - 3)), value: true })?;
    s.call(score, Call::Shift { at: HERE, distance: 5 << 40, left: true })?;
    s.call(score, Call::Set { at: HERE, range: (Bound::Included(3), Bound::Included(3)), value: true })?;
    for op in [Operation::And, Operation::Or, Operation::Xor] {
        s.call(score, Call::Combine { to: third, op, a: HERE, b: second })?;
    }
    s.call(score, Call::Combine { to: second, op: Operation::Xor, a: HERE, b: third })?;
    s.call(score, Call::Write { at: second, edition: 1, room: 5 + 16 * LARGEST as usize })?;
    few_draws(score, &mut s, &mut random)?;
    score.begin("the largest capacity, shared by 16 worlds");
    // One may have all that the floors of the others leave: half of it.
    let each = LARGEST / 32;
    let mut limits = vec![[each, each]; WORLDS];
    limits[0] = [each, M];
    let mut s = Sequence::new(vec![Plan { capacity: LARGEST as usize, limits }]);
    let most = LARGEST - 15 * each;
    for count in [most + 1, most] {
        s.call(score, Call::Build { to: HERE, runs: runs[..count as usize].to_vec() })?;
    }
    for world in 1..WORLDS as u64 {
        let to = Place { store: 0, world };
        let bytes = reference::encode(EDITIONS[world as usize % 2], &runs[..each as usize]);
        s.call(score, Call::Load { to, bytes })?;
        s.call(score, Call::Set { at: to, range: (Bound::Included(M), Bound::Unbounded), value: true })?;
    }
    s.call(score, Call::Set { at: HERE, range: (Bound::Included(M), Bound::Unbounded), value: true })?;
    few_draws(score, &mut s, &mut random)?;
    score.begin("the deepest trees");
    let runs = &runs[..reference::least(22)[0] as usize];
    for left in [true, false] {
        for offset in [0, 1 << 63, random.number()] {
            let capacity = runs.len() + 1;
            let world = Draft { physical: runs.to_vec(), offset, limit: [0, capacity as u64] };
            let words = reference::craft(capacity, &[world], Shape::Deepest { left }, &mut random);
            let mut s = Sequence::alone(&[1, LARGEST as usize, 3]);
            s.call(score, Call::Lend { at: 0, words })?;
            s.call(score, Call::Shifted { to: second, a: HERE, distance: 7, left })?;
            s.call(score, Call::Combine { to: second, op: Operation::Or, a: HERE, b: HERE })?;
            s.call(score, Call::Equal { a: HERE, b: second })?;
            s.call(score, Call::Not { to: second, a: HERE })?;
            for edition in [1, 2] {
                s.call(score, Call::Write { at: HERE, edition, room: 6 + 16 * LARGEST as usize })?;
            }
            few_draws(score, &mut s, &mut random)?;
            // Runs taken from the shallow side, so that the balance is mended all the way up.
            for i in 0..20 {
                let held = s.sides.stores()[0].runs(0);
                let [start, end] = held[if left { held.len() - 1 - 3 * i } else { 3 * i }];
                let range = (Bound::Included(start), Bound::Included(end));
                s.call(score, Call::Set { at: HERE, range, value: false })?;
            }
            few_draws(score, &mut s, &mut random)?;
        }
    }
    Ok(())
}

// Some reports of a large world: none that lists all of it.
fn few_draws(score: &mut Score, s: &mut Sequence, random: &mut Random) -> Outcome {
    for kind in [Kind::RunAt, Kind::Find, Kind::Tally, Kind::Select, Kind::Gap, Kind::Draw] {
        for _ in 0..4 {
            let call = chance::call(random, s.sides.stores(), kind, HERE);
            s.call(score, call)?;
        }
    }
    Ok(())
}

// How many of a frame's records are made of edges at once.
const TOGETHER: usize = 50;

/// Lists of calls at once: records of every kind with every kind of bound at the ends of the positions, then histories of frames, all of
/// them over worlds that are opened and some that are not.
pub fn frames(score: &mut Score, options: Options) -> Outcome {
    score.begin("frames: records at the edges");
    let mut random = Random::new(options.seed ^ 0xF4);
    let kinds = [0, 1, 2, 3, 4, M];
    let mut edges = Vec::new();
    let mut turn = 0;
    for number in (0..=records::LAST + 1).chain([HALF + 2, M]) {
        for lower in kinds {
            for upper in kinds {
                for from in ENDS {
                    for upto in ENDS {
                        for [value, k] in [[0, 0], [1, M], [2, 1], [M, HALF]] {
                            turn += 1;
                            if turn % options.stride == 0 {
                                let world = random.one_of(&[0, 0, 1, 2, turn]);
                                edges.push([number, lower, from, upper, upto, value, k, world]);
                            }
                        }
                    }
                }
            }
        }
    }
    // In any order, so that changes and reports meet.
    for i in 1..edges.len() {
        edges.swap(i, random.below(i as u64 + 1) as usize);
    }
    for (i, some) in edges.chunks(TOGETHER).enumerate() {
        let mut s = Sequence::new(vec![chance::plan(&mut random, 1 + i % 5)]);
        grow(score, &mut s, &mut random, 0, 4)?;
        let calls = some.as_flattened().to_vec();
        s.call(score, Call::Frame { at: 0, room: calls.len(), calls })?;
    }
    score.begin("frames: random lists, up to 50 calls and 1000");
    let until = score.compared + options.calls / 4;
    let capacities = [1, 2, 3, 4, 8, 16, 64, 200, 1000];
    while score.compared < until {
        let capacity = random.one_of(&capacities);
        let mut s = Sequence::new(vec![chance::plan(&mut random, capacity)]);
        for _ in 0..20 {
            let count = if random.once_in(100) { 1000 } else { random.below(51) };
            play(score, &mut s, &mut random, count)?;
        }
        // In a damaged pool, and in one with a word too many, no call is made.
        let word = random.below(s.sides.words(0).len() as u64) as usize;
        let value = word_beside(&mut random, s.sides.words(0), word);
        s.call(score, Call::Poke { at: 0, word, value })?;
        play(score, &mut s, &mut random, 20)?;
        let words = vec![0; s.sides.words(0).len() + 1];
        s.call(score, Call::Lend { at: 0, words })?;
        play(score, &mut s, &mut random, 20)?;
    }
    Ok(())
}

// A frame of so many calls by chance.
fn play(score: &mut Score, s: &mut Sequence, random: &mut Random, count: u64) -> Outcome {
    let frame = chance::frame(random, s.sides.stores(), 0, count as usize);
    s.call(score, frame)
}

/// Long random sequences of all calls, at capacities from 1 to 1000, with one world and up to 16.
pub fn random(score: &mut Score, options: Options) -> Outcome {
    score.begin("random sequences");
    let mut random = Random::new(options.seed);
    let capacities = [1, 2, 3, 4, 5, 6, 8, 8, 12, 16, 24, 32, 64, 200, 1000];
    let until = score.compared + options.calls;
    while score.compared < until {
        let plans = [0; 3].map(|_| {
            let capacity = random.one_of(&capacities);
            chance::plan(&mut random, capacity)
        });
        // The larger the pools, the longer they take to fill, and each call takes longer too.
        let calls = (until - score.compared).min(2000);
        wander(score, &mut random, plans.to_vec(), calls)?;
    }
    Ok(())
}
