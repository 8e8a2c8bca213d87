//! Worlds in one pool, through the safe calls: limits, refusals 8, 11 and 12, and that a world leaves the others alone.

use vizturel::differential::EDITIONS;
use vizturel::{Answer, Limits, Operation, Pool, PoolBuf, Refusal, Tally, room, words};

const M: u64 = u64::MAX;

fn limits<const N: usize>(each: [(u64, u64); N]) -> [Limits; N] {
    each.map(|(floor, ceiling)| Limits { floor, ceiling })
}

// Three worlds that share eight runs: one is sure of two, one may have at most three, one has what is left.
fn shared() -> PoolBuf {
    PoolBuf::with_capacity(8, &limits([(2, 4), (0, 3), (0, M)])).unwrap()
}

// Sets single positions, two apart, until a run is refused: how many there are.
fn grow(pool: &mut PoolBuf, world: u64) -> u64 {
    for x in 0.. {
        match pool.world_mut(world).set(2 * x..=2 * x, true) {
            Ok(_) => {}
            Err(refusal) => {
                assert_eq!(refusal, Refusal::Capacity);
                return x;
            }
        }
    }
    unreachable!("a pool has no room for so many runs")
}

fn runs(pool: &PoolBuf, world: u64) -> Answer<u64> {
    Ok(pool.world(world).tally(.., true)?.runs)
}

#[test]
fn a_pool_is_made_with_limits_that_it_can_keep() {
    let made = |limits: &[Limits]| PoolBuf::with_capacity(8, limits).map(|_| ());
    assert_eq!(made(&[]), Err(Refusal::WorldLimits));
    assert_eq!(made(&[Limits::NONE; 16]), Ok(()));
    assert_eq!(made(&[Limits::NONE; 17]), Err(Refusal::WorldLimits));
    assert_eq!(made(&limits([(3, 2)])), Err(Refusal::WorldLimits));
    assert_eq!(made(&limits([(4, 4), (4, M)])), Ok(()));
    assert_eq!(made(&limits([(4, 4), (5, M)])), Err(Refusal::WorldLimits));
    // The sum of floors does not wrap.
    assert_eq!(made(&limits([(M, M), (2, M)])), Err(Refusal::WorldLimits));
    // 1 comes first, and a refused making changes no word.
    let mut lent = room(8);
    lent.fill(7);
    assert_eq!(Pool::new(&mut lent[1..], &[]).err(), Some(Refusal::StoreLength));
    assert_eq!(Pool::new(&mut lent[..], &[]).err(), Some(Refusal::WorldLimits));
    assert!(lent.iter().all(|&word| word == 7) && lent.len() == words(8));
    assert_eq!(Pool::new(&mut lent[..], &[Limits::NONE]).unwrap().world(0).tally(.., true), Ok(Tally::default()));
}

#[test]
fn a_world_takes_what_no_floor_keeps() {
    // By the ceilings, and by the sum with the floor of a world that has nothing.
    assert_eq!([0, 1, 2].map(|world| grow(&mut shared(), world)), [4, 3, 6]);
    let mut pool = shared();
    assert_eq!(grow(&mut pool, 2), 6);
    // Its floor is left to the first world, whatever the others hold, and nothing to the second.
    assert_eq!((grow(&mut pool, 0), grow(&mut pool, 1)), (2, 0));
    // What one world gives up, the others may have.
    pool.world_mut(2).build(&[]).unwrap();
    assert_eq!((grow(&mut pool, 1), grow(&mut pool, 0), grow(&mut pool, 2)), (3, 4, 1));
    assert_eq!([0, 1, 2].map(|world| runs(&pool, world)), [Ok(4), Ok(3), Ok(1)]);
}

#[test]
fn a_refused_change_leaves_every_word() {
    let mut pool = shared();
    grow(&mut pool, 2);
    let before = pool.words().to_vec();
    let mut first = pool.world_mut(1);
    assert_eq!(first.set(..5, true), Err(Refusal::Capacity));
    assert_eq!(first.flip(7..), Err(Refusal::Capacity));
    assert_eq!(first.build(&[[1, 1]]), Err(Refusal::Capacity));
    assert_eq!(first.read_map(0, 8, &[1]), Err(Refusal::Capacity));
    assert_eq!(pool.words(), before);
}

#[test]
fn a_world_leaves_the_others_alone() {
    let mut pool = shared();
    pool.world_mut(0).set(2..8, true).unwrap();
    pool.world_mut(2).set(5.., true).unwrap();
    // A world is overwritten from its neighbours by a copy of the pool.
    let copy = pool.clone();
    pool.world_mut(1).combine(Operation::Xor, &copy.world(0), &copy.world(2)).unwrap();
    let listed: Vec<_> = pool.world(1).ranges(.., true).unwrap().collect();
    assert_eq!(listed, [2..=4, 8..=M]);
    pool.world_mut(1).shift(M, true).unwrap();
    pool.world_mut(1).shift(1, true).unwrap();
    for world in [0, 2] {
        assert_eq!(pool.world(world).eq(&copy.world(world)), Ok(true));
    }
    assert_eq!(pool.world(0).eq(&pool.world(2)), Ok(false));
    assert_eq!(pool.world(1).tally(.., true), Ok(Tally::default()));

    // A written set goes into any world that has room for it.
    let mut out = [0; 64];
    for edition in EDITIONS {
        let written = pool.world(0).write(edition, &mut out).unwrap();
        pool.world_mut(1).load(written).unwrap();
        assert_eq!(pool.world(0).eq(&pool.world(1)), Ok(true));
        pool.world_mut(1).build(&[]).unwrap();
    }
}

#[test]
fn twelve_comes_after_1_and_7_and_before_all_others() {
    let mut pool = shared();
    let mut other = shared();
    for number in [3, 15, 16, 1 << 32, M] {
        assert_eq!(pool.world(number).get(0), Err(Refusal::WorldUnopened));
        assert_eq!(pool.world(number).gap(.., 0), Err(Refusal::WorldUnopened));
        assert_eq!(pool.world_mut(number).load(&[]), Err(Refusal::WorldUnopened));
        assert_eq!(pool.world_mut(0).not(&other.world(number)), Err(Refusal::WorldUnopened));
        assert_eq!(pool.world_mut(number).not(&other.world(0)), Err(Refusal::WorldUnopened));
        assert_eq!(pool.world(0).eq(&other.world(number)), Err(Refusal::WorldUnopened));
        assert_eq!(pool.world_mut(0).not(&Pool::from_words([0; 24]).world(0)), Err(Refusal::StoreLength));
    }
    // Word 7 of the header is 0 in every sound pool.
    other.words_mut()[7] = 1;
    assert_eq!(other.world(3).get(0), Err(Refusal::Unsound));
    assert_eq!(other.world_mut(3).load(&[]), Err(Refusal::Unsound));
    assert_eq!(pool.world_mut(3).shifted(&other.world(0), 1, true), Err(Refusal::Unsound));
    assert_eq!(other.world_mut(0).shifted(&pool.world(3), 1, true), Err(Refusal::Unsound));
}
