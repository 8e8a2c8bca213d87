//! Mending written sets: every list of up to three runs of some ends against plain cells; lists at and beyond what the library takes at once;
//! what a refusal leaves; and sets that are right already.

use vizturel::differential::EDITIONS;
use vizturel::differential::random::Random;
use vizturel::differential::reference::{Run, encode, fates, united};
use vizturel::{Answer, Edition, Fate, Limits, Mended, PoolBuf, Refusal, SetBuf};

const M: u64 = u64::MAX;
const STALE: u8 = 0xEE;

// The positions as cells, each given by its first and its last: single ones at both ends, and all between them as one.
const CELLS: [Run; 8] = [[0, 0], [1, 1], [2, 2], [3, 3], [4, 4], [5, M - 2], [M - 1, M - 1], [M, M]];
// The cells that a run may begin or end with.
const ENDS: [usize; 7] = [0, 1, 2, 3, 4, 6, 7];

// A run by the cells that it begins and ends with: its cells as bits, none where it begins above its end.
fn bits([first, last]: [usize; 2]) -> u8 {
    (0..8).filter(|cell| (first..=last).contains(cell)).fold(0, |all, cell| all | 1 << cell)
}

// The cells of the run of a set around a cell that it has.
fn around(set: u8, cell: usize) -> u8 {
    let held = |cell: &usize| set >> cell & 1 == 1;
    let below = (0..cell).rev().take_while(held).count();
    let above = (cell..8).take_while(held).count();
    bits([cell - below, cell + above - 1])
}

// What is to become of runs of cells: the runs of all their cells, and the fate of each.
fn due(runs: &[[usize; 2]]) -> (Vec<Run>, Vec<Fate>) {
    let set = runs.iter().fold(0, |all, &run| all | bits(run));
    let mut outcome = Vec::new();
    let mut cell = 0;
    while cell < 8 {
        let run = if set >> cell & 1 == 1 { around(set, cell) } else { 0 };
        let count = run.count_ones() as usize;
        if count > 0 {
            outcome.push([CELLS[cell][0], CELLS[cell + count - 1][1]]);
        }
        cell += count.max(1);
    }
    let fate = |(i, &run): (usize, &[usize; 2])| {
        if bits(run) == 0 {
            return Fate::Dropped;
        }
        let mine = around(set, run[0]);
        let shared = runs.iter().enumerate().any(|(j, &other)| j != i && bits(other) & mine != 0);
        if shared { Fate::Joined } else { Fate::Kept }
    };
    (outcome, runs.iter().enumerate().map(fate).collect())
}

// Mends runs in a set of so many runs, with slices that are longer than is due, and compares all of it with what is due.
fn compare(set: &mut SetBuf, edition: Edition, runs: &[Run], outcome: &[Run], due: &[Fate]) {
    let bytes = encode(edition, runs);
    let (mut out, mut report) = (vec![STALE; bytes.len() + 3], vec![Fate::Dropped; runs.len() + 2]);
    report[runs.len()..].fill(Fate::Joined);
    let Mended { set: written, fates } = set.mend(&bytes, &mut out, &mut report).unwrap();
    let written_set = encode(edition, outcome);
    assert_eq!((&*written, &*fates), (&written_set[..], due), "{runs:?}");
    assert!(out[written_set.len()..].iter().all(|&byte| byte == STALE));
    assert_eq!(report[runs.len()..], [Fate::Joined; 2]);
    let mut again = vec![0; written_set.len()];
    assert_eq!(set.write(edition, &mut again).unwrap(), written_set, "{runs:?}");
}

// What mending into slices of so much room tells; it is to leave both, and the words.
fn refused(set: &mut SetBuf, bytes: &[u8], rooms: [usize; 2]) -> Option<Refusal> {
    let (mut out, mut report) = (vec![STALE; rooms[0]], vec![Fate::Joined; rooms[1]]);
    let words = set.words().to_vec();
    let told = set.mend(bytes, &mut out, &mut report).map(|_| ()).err();
    if told.is_some() {
        assert!(out.iter().all(|&byte| byte == STALE), "refused, and changed bytes");
        assert!(report.iter().all(|&fate| fate == Fate::Joined), "refused, and changed the report");
        assert_eq!(set.words(), words, "refused, and changed words");
    }
    told
}

#[test]
fn every_list_of_up_to_three_runs() {
    let every: Vec<[usize; 2]> = ENDS.iter().flat_map(|&first| ENDS.map(|last| [first, last])).collect();
    let mut set = SetBuf::with_capacity(3).unwrap();
    let mut check = |runs: &[[usize; 2]], edition: Edition| {
        let (outcome, fates) = due(runs);
        let runs: Vec<Run> = runs.iter().map(|&[first, last]| [CELLS[first][0], CELLS[last][1]]).collect();
        compare(&mut set, edition, &runs, &outcome, &fates);
    };
    for edition in EDITIONS {
        check(&[], edition);
        for &a in &every {
            check(&[a], edition);
            every.iter().for_each(|&b| check(&[a, b], edition));
        }
    }
    let mut count = 0;
    for &a in &every {
        for &b in &every {
            for &c in &every {
                count += 1;
                check(&[a, b, c], EDITIONS[count % 2]);
            }
        }
    }
}

#[test]
fn lists_longer_than_are_taken_at_once() {
    let mut random = Random::new(9);
    let mut set = SetBuf::with_capacity(4_000).unwrap();
    for count in [511, 512, 513, 1023, 1024, 1025, 1537, 4_000] {
        // Anywhere below so many times the count.
        let spread = |times: u64, random: &mut Random| -> Vec<Run> {
            let any = |_| (random.below(times * count), random.below(6));
            (0..count).map(any).map(|(start, more)| [start, start + more]).collect()
        };
        let lists = [
            spread(1, &mut random),
            spread(3, &mut random),
            spread(100, &mut random),
            // All of one start, all in the first, each touching the next, and falling up to M.
            (0..count).map(|i| [7, 7 + i % 9]).collect(),
            (0..count).map(|i| [i, 2 * count]).collect(),
            (0..count).map(|i| [3 * i, 3 * i + 2]).collect(),
            (0..count).map(|i| [M - 2 * i, M - 2 * i]).collect(),
            vec![[M, M]; count as usize],
            // Every second one is dropped.
            (0..count).map(|i| [5 * i + 1, 5 * i + i % 2]).collect(),
        ];
        for (turn, mut runs) in lists.into_iter().enumerate() {
            for edition in EDITIONS {
                let outcome = united(&runs);
                let due: Vec<Fate> = fates(&runs, &outcome)
                    .into_iter()
                    .map(|byte| [Fate::Dropped, Fate::Joined, Fate::Kept][byte as usize])
                    .collect();
                compare(&mut set, edition, &runs, &outcome, &due);
                if turn % 2 == 0 {
                    random.shuffle(&mut runs);
                } else {
                    runs.reverse();
                }
            }
        }
    }
}

#[test]
fn a_set_that_is_right_comes_back() {
    let mut random = Random::new(10);
    for count in [0, 1, 2, 7, 600, 2_000] {
        let runs: Vec<Run> = (0..count).map(|i| [i << 48, (i << 48) + random.below(1 << 47)]).collect();
        let mut set = SetBuf::with_capacity(2_000).unwrap();
        for edition in EDITIONS {
            compare(&mut set, edition, &runs, &runs, &vec![Fate::Kept; runs.len()]);
        }
    }
}

#[test]
fn refusals_stand_in_their_order() {
    let mut set = SetBuf::with_capacity(2).unwrap();
    set.set(5..9, true).unwrap();
    // Three runs, of which two touch.
    let fits: &[Run] = &[[8, 9], [2, 3], [4, 5]];
    let too_many: &[Run] = &[[8, 9], [2, 3], [5, 6]];
    for edition in EDITIONS {
        let bytes = encode(edition, fits);
        for rooms in [[0, 0], [64, 64]] {
            for length in 0..5 {
                assert_eq!(refused(&mut set, &bytes[..length], rooms), Some(Refusal::SetLength));
            }
            for version in (0..=255).filter(|version| ![1, 2].contains(version)) {
                let other = [&[version], &bytes[1..]].concat();
                assert_eq!(refused(&mut set, &other, rooms), Some(Refusal::SetVersion));
                assert_eq!(refused(&mut set, &other[..other.len() - 1], rooms), Some(Refusal::SetVersion));
                assert_eq!(refused(&mut set, &other[..4], rooms), Some(Refusal::SetLength));
            }
            for length in 5..bytes.len() {
                assert_eq!(refused(&mut set, &bytes[..length], rooms), Some(Refusal::SetLength));
            }
            assert_eq!(refused(&mut set, &encode(edition, too_many), rooms), Some(Refusal::Capacity));
        }
        // 37 bytes and 3 are due.
        for rooms in [[0, 0], [36, 3], [36, 64], [37, 2], [64, 2], [64, 0], [0, 64]] {
            assert_eq!(refused(&mut set, &bytes, rooms), Some(Refusal::OutputShort), "{rooms:?}");
        }
        assert_eq!(refused(&mut set, &bytes, [37, 3]), None);
        set.set(.., false).unwrap();
        set.set(5..9, true).unwrap();
    }
    // No run is left: the header alone is due, and a byte for each run.
    for edition in EDITIONS {
        let bytes = encode(edition, &[[4, 3], [9, 0]]);
        assert_eq!(refused(&mut set, &bytes, [4, 2]), Some(Refusal::OutputShort));
        assert_eq!(refused(&mut set, &bytes, [5, 1]), Some(Refusal::OutputShort));
        compare(&mut set, edition, &[[4, 3], [9, 0]], &[], &[Fate::Dropped; 2]);
    }
    // 1, 7 and 12 come before all others.
    let wrong = [3];
    let mut short = SetBuf::from_words(vec![0; 399]);
    assert_eq!(refused(&mut short, &wrong, [0, 0]), Some(Refusal::StoreLength));
    let mut unsound = SetBuf::from_words(spoiled(set.words()));
    assert_eq!(refused(&mut unsound, &wrong, [0, 0]), Some(Refusal::Unsound));
    let mut pool = PoolBuf::with_capacity(2, &[Limits::NONE]).unwrap();
    assert_eq!(pool.world_mut(1).mend(&wrong, &mut [], &mut []), Err(Refusal::WorldUnopened));
}

// The words of a pool, with a header word that no sound one has.
fn spoiled(words: &[u64]) -> Vec<u64> {
    let mut words = words.to_vec();
    words[7] = 1;
    words
}

#[test]
fn a_world_is_mended_within_its_limits_and_its_neighbour_stays() {
    let limits = [Limits { floor: 1, ceiling: 2 }, Limits { floor: 0, ceiling: 8 }];
    let mut pool = PoolBuf::with_capacity(4, &limits).unwrap();
    pool.world_mut(1).build(&[[0, 0], [2, 2]]).unwrap();
    let (mut out, mut report) = ([STALE; 64], [Fate::Dropped; 4]);
    // Three runs are above the ceiling, but not above what is left of the capacity.
    let three = encode(Edition::Columns, &[[8, 9], [5, 6], [2, 3]]);
    assert_eq!(pool.world_mut(0).mend(&three, &mut out, &mut report), Err(Refusal::Capacity));
    let two = encode(Edition::Columns, &[[8, 9], [5, 7], [2, 3]]);
    let mut world = pool.world_mut(0);
    let mended = world.mend(&two, &mut out, &mut report).unwrap();
    assert_eq!(mended.fates, [Fate::Joined, Fate::Joined, Fate::Kept]);
    assert_eq!(mended.set, encode(Edition::Columns, &[[2, 3], [5, 9]]));
    assert!(pool.world(1).ranges(.., true).unwrap().eq([0..=0, 2..=2]));
}

// The example that the documentation of mending shows.
#[test]
fn the_menders_example() -> Answer<()> {
    let mut slots = SetBuf::with_capacity(2)?;
    let runs = [[8_u64, 9], [2, 3], [4, 5], [7, 6]];
    let mut bytes = vec![1, 0, 0, 0, runs.len() as u8];
    bytes.extend(runs.as_flattened().iter().flat_map(|x| x.to_be_bytes()));
    assert_eq!(slots.load(&bytes), Err(Refusal::RunOrder));
    let (mut out, mut report) = (vec![0; bytes.len()], [Fate::Dropped; 4]);
    let mended = slots.mend(&bytes, &mut out, &mut report)?;
    assert_eq!(mended.fates, [Fate::Kept, Fate::Joined, Fate::Joined, Fate::Dropped]);
    assert!(slots.ranges(.., true)?.eq([2..=5, 8..=9]));
    assert_eq!(mended.set, slots.write(Edition::Rows, &mut [0; 64])?);
    Ok(())
}
