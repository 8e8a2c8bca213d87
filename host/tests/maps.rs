//! Maps through the safe calls and against a plain reading. Spare bits: every length from 1 to 17 with every last byte. The two forms,
//! by words and by single bytes: windows of every length from 1 to 200 over many sets.

use vizturel::differential::random::Random;
use vizturel::differential::reference::{Draft, Run, Shape, craft, encode, logical};
use vizturel::{Answer, Edition, Limits, PoolBuf, Refusal, Set, SetBuf, World, clear_map};

const M: u64 = u64::MAX;

// What document 01's reading, which ignored spare bits, made of a window: how many positions changed, and the values of the window.
fn read_plainly(before: &SetBuf, base: u64, n: u64, map: &[u8]) -> (u128, Vec<bool>) {
    let bit = |i: u64| map[(i / 8) as usize] >> (i % 8) & 1 == 1;
    let changed = (0..n).filter(|&i| before.get(base + i) != Ok(bit(i))).count();
    (changed as u128, (0..n).map(bit).collect())
}

// The spare bits that are one, and the map without them.
fn cleared_plainly(n: u64, map: &[u8]) -> (u64, Vec<u8>) {
    let mut left = map.to_vec();
    let spare = (n % 8 > 0).then(|| 0xFF_u8 << (n % 8)).unwrap_or(0);
    let last = left.last_mut().expect("a map has a byte");
    let count = (*last & spare).count_ones();
    *last &= !spare;
    (count.into(), left)
}

fn window<S: AsRef<[u64]>>(set: &World<S>, base: u64, n: u64) -> Vec<bool> {
    (0..n).map(|i| set.get(base + i).unwrap()).collect()
}

#[test]
fn every_last_byte_of_every_length() {
    for n in 1..=17_u64 {
        let due = n.div_ceil(8) as usize;
        for base in [0, 5, M - (n - 1)] {
            // Some of the window is held, and something on either side of it where there is room.
            let mut before = SetBuf::with_capacity(16).unwrap();
            before.set(base.saturating_sub(3)..=base, true).unwrap();
            before.set(base + n / 2..=base.saturating_add(n + 2), true).unwrap();
            let outside = |set: &SetBuf| {
                let below = set.tally(..base, true).unwrap().positions;
                below + (base + (n - 1)).checked_add(1).map_or(0, |from| set.tally(from.., true).unwrap().positions)
            };
            for last in 0..=255_u8 {
                let mut map = vec![0xA5; due];
                map[due - 1] = last;
                let (changed, values) = read_plainly(&before, base, n, &map);
                let (stray, left) = cleared_plainly(n, &map);

                let mut set = before.clone();
                let read = set.read_map(base, n, &map);
                if stray > 0 {
                    assert_eq!(read, Err(Refusal::StrayBit), "{n} {last:#x}");
                    assert_eq!(set.words(), before.words(), "{n} {last:#x}: refused, and changed words");
                } else {
                    assert_eq!(read, Ok(changed), "{n} {last:#x}");
                    assert_eq!(window(&set, base, n), values, "{n} {last:#x}");
                }

                assert_eq!(clear_map(base, n, &mut map), Ok(stray), "{n} {last:#x}");
                assert_eq!(map, left, "{n} {last:#x}");
                assert_eq!(clear_map(base, n, &mut map), Ok(0), "{n} {last:#x}: cleared twice");
                assert_eq!(map, left, "{n} {last:#x}: cleared twice");

                // The cleared map reads as the old one did.
                let mut set = before.clone();
                assert_eq!(set.read_map(base, n, &map), Ok(changed), "{n} {last:#x}");
                assert_eq!(window(&set, base, n), values, "{n} {last:#x}");
                assert_eq!(outside(&set), outside(&before), "{n} {last:#x}");

                // A written map is as it should be.
                let mut written = vec![0xEE; due];
                assert_eq!(set.write_map(base, n, &mut written).unwrap(), &left[..], "{n} {last:#x}");
                assert_eq!(clear_map(base, n, &mut written), Ok(0), "{n} {last:#x}");
                assert_eq!(written, left, "{n} {last:#x}");
            }
        }
    }
}

#[test]
fn clearing_is_refused_with_6_alone() {
    for (base, n, length) in [(0, 0, 0), (0, 0, 1), (0, 7, 0), (0, 7, 2), (0, 9, 1), (M, 2, 1), (0, 524_289, 65_537)] {
        let mut map = vec![0xFF; length];
        assert_eq!(clear_map(base, n, &mut map), Err(Refusal::Window), "{base} {n} {length}");
        assert!(map.iter().all(|&byte| byte == 0xFF), "{base} {n} {length}: refused, and changed bytes");
    }
    let mut map = vec![0xFF; 65_536];
    assert_eq!(clear_map(M - 524_286, 524_287, &mut map), Ok(1));
    assert_eq!(map[65_535], 0x7F);
}

#[test]
fn ten_comes_after_6_and_before_8() {
    let mut set = SetBuf::with_capacity(1).unwrap();
    set.build(&[[2, 7]]).unwrap();
    assert_eq!(set.read_map(0, 7, &[0xD5, 0]), Err(Refusal::Window));
    assert_eq!(set.read_map(0, 7, &[0xD5]), Err(Refusal::StrayBit));
    assert_eq!(set.read_map(0, 7, &[0x55]), Err(Refusal::Capacity));
    assert_eq!(set.world_mut(1).read_map(0, 7, &[0xD5, 0]), Err(Refusal::WorldUnopened));
    set.words_mut()[7] = 1;
    assert_eq!(set.read_map(0, 7, &[0xD5]), Err(Refusal::Unsound));
    assert_eq!(Set::from_words([0; 24]).read_map(0, 7, &[0xD5]), Err(Refusal::StoreLength));
}

// ---- both forms

// Where windows begin: on and off the borders of bytes and words, across 2^32, and so that the longest ends at M.
const BASES: [u64; 6] = [0, 1, 7, 63, (1 << 32) - 3, M - 199];
const LONGEST: u64 = 200;
const STALE: u8 = 0xEE;

// A world of a pool, the runs that it holds, and how many the pool has room for.
struct Held {
    pool: PoolBuf,
    world: u64,
    runs: Vec<Run>,
    room: usize,
}

impl Held {
    fn of(pool: PoolBuf, world: u64, runs: Vec<Run>) -> Held {
        let others = (0..pool.words()[0]).filter(|&other| other != world);
        let taken: u64 = others.map(|other| pool.world(other).tally(.., true).unwrap().runs).sum();
        let capacity = pool.words().len() / 8 - 49;
        Held { pool, world, runs, room: capacity - taken as usize }
    }
}

type Write = fn(&Held, u64, u64, &mut [u8]) -> Answer<usize>;
type Read = fn(&mut PoolBuf, u64, u64, u64, &[u8]) -> Answer<u128>;

const WRITES: [Write; 2] = [
    |held, base, n, out| held.pool.world(held.world).write_map(base, n, out).map(|map| map.len()),
    |held, base, n, out| held.pool.world(held.world).write_map_by_bytes(base, n, out).map(|map| map.len()),
];

const READS: [Read; 2] = [
    |pool, world, base, n, map| pool.world_mut(world).read_map(base, n, map),
    |pool, world, base, n, map| pool.world_mut(world).read_map_by_bytes(base, n, map),
];

// The runs of a pattern of 272 positions, laid from 0 on, across 2^32 and up to M.
fn laid(pattern: impl Fn(u64) -> bool) -> Vec<Run> {
    let mut runs: Vec<Run> = Vec::new();
    for from in [0, (1 << 32) - 13, M - 271] {
        for x in (0..272).filter(|&i| pattern(i)).map(|i| from + i) {
            match runs.last_mut() {
                Some(last) if last[1] + 1 == x => last[1] = x,
                _ => runs.push([x, x]),
            }
        }
    }
    runs
}

// A run that begins at place k of a word and others whose length goes by k: over all k below 64 runs begin and end at every place.
fn edges(k: u64) -> Vec<Run> {
    laid(|i| (k..=64 + (5 * k + 3) % 64).contains(&i) || i >= 134 && (i - 134 + k) % 64 <= k % 40)
}

// Runs and gaps of up to so many positions.
fn scattered(seed: u64, most: u64) -> Vec<Run> {
    let mut random = Random::new(seed);
    let mut values = Vec::new();
    while values.len() < 272 {
        let value = values.last().is_none_or(|last: &bool| !last);
        values.extend(vec![value; 1 + random.below(most) as usize]);
    }
    laid(|i| values[i as usize])
}

// The middle one of so many worlds, which holds the runs. Position `offset` is kept at physical position 0. Nodes lie in no order, those
// of other worlds and free ones between them.
fn held(runs: Vec<Run>, offset: u64, worlds: usize) -> Held {
    const FAR: u64 = 1 << 40;
    let capacity = worlds * (runs.len() + 6);
    let mut pool = PoolBuf::with_capacity(capacity, &vec![Limits::NONE; worlds]).unwrap();
    let world = worlds as u64 / 2;
    let mut order = runs.clone();
    let mut random = Random::new(offset ^ runs.len() as u64);
    for i in 1..order.len() {
        order.swap(i, random.below(i as u64 + 1) as usize);
    }
    // An empty world has no offset, so a far position is held meanwhile.
    pool.world_mut(world).set(FAR..=FAR, true).unwrap();
    let (distance, left) = if offset < FAR { (offset, true) } else { (offset.wrapping_neg(), false) };
    pool.world_mut(world).shift(distance, left).unwrap();
    for (i, &[start, end]) in order.iter().enumerate() {
        if i < 4 {
            let away = FAR / 2 + 2 * i as u64;
            pool.world_mut(world).set(away..=away, true).unwrap();
        }
        pool.world_mut(world).set(start..=end, true).unwrap();
        for other in (0..worlds as u64).filter(|&other| other != world) {
            let by = 3 + other;
            pool.world_mut(other).set(start.saturating_add(by)..=end.saturating_add(by), true).unwrap();
        }
    }
    pool.world_mut(world).set(FAR / 2..FAR * 2, runs.first() == Some(&[0, M])).unwrap();
    if !runs.is_empty() {
        assert_eq!(pool.words()[8 * (1 + world as usize) + 1], offset, "the offset that was meant");
    }
    Held::of(pool, world, runs)
}

// The middle one of three worlds of a pool that no call made: any node may be in use, and the last one is the world's.
fn crafted(runs: Vec<Run>, offset: u64) -> Held {
    let others = [runs[1..].to_vec(), runs[..runs.len() - 1].to_vec()];
    let capacity = 3 * runs.len() + 4;
    let draft = |runs: &[Run], offset: u64| {
        let physical = logical(runs, offset.wrapping_neg());
        Draft { physical, offset, limit: [0, M] }
    };
    let drafts = [draft(&others[0], 9), draft(&runs, offset), draft(&others[1], offset)];
    let mut pools = (0..).map(|seed| craft(capacity, &drafts, Shape::Even, &mut Random::new(seed)));
    let words = pools.find(|words| words.ends_with(&[1])).expect("some seed will do");
    Held::of(PoolBuf::from_words(words), 1, runs)
}

// Sets of every kind: offsets place physical position 0 within windows at either end and across 2^32.
fn sets() -> Vec<Held> {
    let offsets = [1, 30, 100, 190, (1 << 32) + 60, M, M - 99, M - 149];
    let mut all = vec![held(Vec::new(), 0, 1), held(vec![[0, M]], 0, 1), held(vec![[0, M]], 70, 1)];
    all.extend((0..64).map(|k| held(edges(k), 0, 1)));
    all.extend([2, 3].map(|n| held(laid(|i| i % n == 0), 0, 1)));
    all.extend((1..=6).map(|seed| held(scattered(seed, 16 * seed), 0, 1)));
    all.extend(offsets.map(|offset| held(scattered(offset, 80), offset, 1)));
    all.extend([0, 45, M - 120].map(|offset| held(scattered(offset + 7, 50), offset, 3)));
    all.push(held(scattered(99, 90), 77, 16));
    all.extend([0, 55, M - 30].map(|offset| crafted(scattered(offset ^ 5, 60), offset)));
    all
}

// The values of the longest window from base on.
fn values(runs: &[Run], base: u64) -> Vec<bool> {
    (0..LONGEST).map(|i| runs.iter().any(|[start, end]| (start..=end).contains(&&(base + i)))).collect()
}

fn map_of(values: &[bool]) -> Vec<u8> {
    let mut map = vec![0; values.len().div_ceil(8)];
    for (i, _) in values.iter().enumerate().filter(|(_, held)| **held) {
        map[i / 8] |= 1 << (i % 8);
    }
    map
}

// The runs after the window has the values.
fn runs_after(runs: &[Run], base: u64, values: &[bool]) -> Vec<Run> {
    let last = base + (values.len() as u64 - 1);
    let below = runs.iter().filter(|[start, _]| *start < base).map(|&[start, end]| [start, end.min(base - 1)]);
    let above = runs.iter().filter(|[_, end]| *end > last).map(|&[start, end]| [start.max(last + 1), end]);
    let inside = values.iter().zip(base..=last).filter(|(held, _)| **held).map(|(_, x)| [x, x]);
    let mut joined: Vec<Run> = Vec::new();
    for [start, end] in below.chain(inside).chain(above) {
        match joined.last_mut() {
            Some(before) if before[1] + 1 == start => before[1] = end,
            _ => joined.push([start, end]),
        }
    }
    joined
}

#[test]
fn both_forms_write_every_window() {
    for (i, set) in sets().iter().enumerate() {
        for base in BASES {
            let values = values(&set.runs, base);
            for n in 1..=LONGEST {
                let right = map_of(&values[..n as usize]);
                let due = right.len();
                for (form, write) in WRITES.iter().enumerate() {
                    let at = || format!("set {i}, window {base} {n}, form {form}");
                    // A slice that begins anywhere in a word, with room after the map.
                    let mut out = [STALE; 64];
                    let from = (n % 8) as usize;
                    assert_eq!(write(set, base, n, &mut out[from..from + due + 17]), Ok(due), "{}", at());
                    assert!(
                        out[from..from + due] == right[..],
                        "{}: {:x?}, not {right:x?}",
                        at(),
                        &out[from..from + due]
                    );
                    assert!(
                        out[..from].iter().chain(&out[from + due..]).all(|b| *b == STALE),
                        "{}: wrote beside it",
                        at()
                    );
                    // One byte less than is due.
                    let mut out = [STALE; 64];
                    assert_eq!(write(set, base, n, &mut out[..due - 1]), Err(Refusal::OutputShort), "{}", at());
                    assert!(out == [STALE; 64], "{}: refused, and wrote", at());
                }
            }
        }
    }
}

#[test]
fn both_forms_read_every_window() {
    // Whose maps are read, by turns: of few runs, of as many as can be, of none.
    let others = [scattered(11, 90), laid(|i| i % 2 == 0), edges(9), scattered(12, 20), vec![[0, M]], Vec::new()];
    let (mut done, mut full) = (0, 0);
    // A few sets of each kind.
    for (i, set) in sets().iter().enumerate().filter(|(i, _)| *i < 3 || *i > 66 || i % 16 == 5) {
        for base in BASES {
            let [before, wanted] = [&set.runs, &others[i % others.len()]].map(|runs| values(runs, base));
            for n in 1..=LONGEST {
                let (before, wanted) = (&before[..n as usize], &wanted[..n as usize]);
                let map = map_of(wanted);
                let after = runs_after(&set.runs, base, wanted);
                let changed = before.iter().zip(wanted).filter(|(b, w)| b != w).count() as u128;
                let right = if after.len() > set.room { Err(Refusal::Capacity) } else { Ok(changed) };
                let read = READS.map(|read| {
                    let mut pool = set.pool.clone();
                    (read(&mut pool, set.world, base, n, &map), pool)
                });
                for (form, (told, pool)) in read.iter().enumerate() {
                    let at = || format!("set {i}, window {base} {n}, form {form}");
                    assert_eq!(*told, right, "{}", at());
                    if right.is_err() {
                        assert!(pool.words() == set.pool.words(), "{}: refused, and changed words", at());
                        continue;
                    }
                    let due = encode(Edition::Rows, &after);
                    let mut out = vec![STALE; due.len()];
                    let written = pool.world(set.world).write(Edition::Rows, &mut out);
                    assert!(written.is_ok_and(|bytes| bytes == &due[..]), "{}: other positions", at());
                    for other in (0..pool.words()[0]).filter(|other| *other != set.world) {
                        assert_eq!(pool.world(other).eq(&set.pool.world(other)), Ok(true), "{}: world {other}", at());
                    }
                }
                let [(_, a), (_, b)] = &read;
                let alike = a.world(set.world).eq(&b.world(set.world));
                assert_eq!(alike, Ok(true), "set {i}, window {base} {n}: the forms left different positions");
                *(if right.is_ok() { &mut done } else { &mut full }) += 1;
            }
        }
    }
    assert!(done > 20_000 && full > 3_000, "{done} maps were read, and {full} had too many runs");
}

#[test]
fn both_forms_refuse_alike() {
    let set = held(scattered(3, 40), 30, 3);
    let mut pool = set.pool.clone();
    let words = pool.words().to_vec();
    let refused = |pool: &mut PoolBuf, world: u64, base: u64, n: u64, map: &[u8], right: Refusal| {
        for (form, read) in READS.iter().enumerate() {
            assert_eq!(read(pool, world, base, n, map), Err(right), "form {form}, window {base} {n}");
        }
    };
    // Spare bits, one by one, and maps that are too short or too long.
    for n in 1..=LONGEST {
        let mut map = map_of(&vec![true; n as usize]);
        refused(&mut pool, set.world, 5, n, &map[1..], Refusal::Window);
        for bit in n % 8..if n % 8 == 0 { 0 } else { 8 } {
            *map.last_mut().unwrap() ^= 1 << bit;
            refused(&mut pool, set.world, 5, n, &map, Refusal::StrayBit);
            *map.last_mut().unwrap() ^= 1 << bit;
        }
        map.push(0);
        refused(&mut pool, set.world, 5, n, &map, Refusal::Window);
    }
    // Windows that are none, and the order of the refusals.
    for (base, n) in [(0, 0), (0, 524_289), (M, 2), (M - 198, 200), (M, M), (0, M)] {
        refused(&mut pool, set.world, base, n, &[0xFF; 25], Refusal::Window);
        for (form, write) in WRITES.iter().enumerate() {
            let mut out = [STALE; 25];
            assert_eq!(write(&set, base, n, &mut out), Err(Refusal::Window), "form {form}, window {base} {n}");
            assert_eq!(out, [STALE; 25], "form {form}, window {base} {n}: refused, and wrote");
        }
    }
    assert!(pool.words() == words, "refused, and changed words");
    refused(&mut pool, 3, 0, 0, &[], Refusal::WorldUnopened);
    pool.words_mut()[7] = 1;
    refused(&mut pool, 3, 0, 0, &[], Refusal::Unsound);
    refused(&mut PoolBuf::from_words(vec![0; 24]), 3, 0, 0, &[], Refusal::StoreLength);
    let lent = |pool| Held { pool, world: 3, runs: Vec::new(), room: 0 };
    let wrong = PoolBuf::from_words(vec![0; 24]);
    for (set, right) in
        [(lent(set.pool), Refusal::WorldUnopened), (lent(pool), Refusal::Unsound), (lent(wrong), Refusal::StoreLength)]
    {
        for write in WRITES {
            assert_eq!(write(&set, 0, 0, &mut []), Err(right));
        }
    }
}

// The longest window, at its end just not whole words and bytes, and so that it ends at M.
#[test]
fn both_forms_of_the_longest_window() {
    const LENGTH: u64 = 524_288;
    let mut random = Random::new(4);
    for base in [0, (1 << 40) + 5, M - (LENGTH - 1)] {
        let mut sides = [(0, 1_100), (1, 1_100)].map(|(from, room)| {
            let mut set = SetBuf::with_capacity(room).unwrap();
            let mut values = vec![false; LENGTH as usize];
            let mut runs = Vec::new();
            let mut at = from;
            while at < LENGTH {
                let end = (at + random.below(500)).min(LENGTH - 1);
                values[at as usize..=end as usize].fill(true);
                runs.push([base + at, base + end]);
                at = end + 2 + random.below(600);
            }
            set.build(&runs).unwrap();
            (set, values)
        });
        for n in [LENGTH, LENGTH - 1, LENGTH - 56, LENGTH - 63, LENGTH - 64] {
            let [(a, before), (_, wanted)] = &mut sides;
            let [right, map] = [&*before, &*wanted].map(|values| map_of(&values[..n as usize]));
            let mut out = [vec![STALE; 65_540], vec![STALE; 65_540]];
            let [by_words, by_bytes] = &mut out;
            assert!(a.write_map(base, n, by_words).is_ok_and(|out| out == &right[..]), "{base} {n}");
            assert!(a.write_map_by_bytes(base, n, by_bytes).is_ok_and(|out| out == &right[..]), "{base} {n}");
            assert!(by_words == by_bytes, "{base} {n}: wrote past the map");
            let [mut by_words, mut by_bytes] = [a.clone(), a.clone()];
            let changed = before.iter().zip(&*wanted).take(n as usize).filter(|(b, w)| b != w).count() as u128;
            assert_eq!(by_words.read_map(base, n, &map), Ok(changed), "{base} {n}");
            assert_eq!(by_bytes.read_map_by_bytes(base, n, &map), Ok(changed), "{base} {n}");
            assert_eq!(by_words.eq(&by_bytes), Ok(true), "{base} {n}");
            assert!(by_words.write_map(base, n, &mut out[0]).is_ok_and(|out| out == &map[..]), "{base} {n}");
        }
    }
}
