//! What the oracle answers, and what the refusals' order picks.

use std::ops::{Bound, RangeInclusive};

use super::calls::{Call, Place, Range, SPARE, STALE, STALE_WORD, Told, ends_of, from_back, is_reversed};
use super::records;
use super::reference::{self, Limit, Look, Run, World};
use crate::oracle::IntervalBitSet;
use crate::{Answer, HEIGHT, Listing, Operation, Rect, Refusal, SIDE, Tally};

// The oracle's positions are usize.
const _: () = assert!(usize::BITS == 64);

/// What the oracle knows of a store.
#[derive(Clone)]
pub enum Store {
    WrongLength,
    Unsound { capacity: usize },
    Sound(Pool),
}

/// A sound pool: a set for each world, what their runs and floors take of the capacity together, and the worlds as they are to be read.
#[derive(Clone)]
pub struct Pool {
    capacity: usize,
    sets: Vec<IntervalBitSet>,
    pub taken: u128,
    pub worlds: Vec<World>,
}

impl Store {
    pub fn of(words: &[u64]) -> Store {
        let Some(capacity) = reference::capacity(words.len()) else {
            return Store::WrongLength;
        };
        match reference::look(words) {
            Look::Holds(worlds) => Store::Sound(Pool::of(capacity, worlds)),
            _ => Store::Unsound { capacity },
        }
    }

    /// How many worlds are opened.
    pub fn opened(&self) -> u64 {
        self.sound().map_or(0, |pool| pool.worlds.len() as u64)
    }

    /// The runs of a world; none where it is not opened.
    pub fn runs(&self, world: u64) -> &[Run] {
        let worlds = self.sound().map_or(&[][..], |pool| &pool.worlds);
        usize::try_from(world).ok().and_then(|i| worlds.get(i)).map_or(&[], |w| &w.runs)
    }

    /// The capacity, or refusal 1.
    pub fn capacity(&self) -> Answer<usize> {
        match *self {
            Store::WrongLength => Err(Refusal::StoreLength),
            Store::Unsound { capacity } | Store::Sound(Pool { capacity, .. }) => Ok(capacity),
        }
    }

    fn sound(&self) -> Answer<&Pool> {
        match self {
            Store::Sound(pool) => Ok(pool),
            _ => Err(Refusal::Unsound),
        }
    }

    // Makes a pool of empty worlds.
    fn make(&mut self, limits: &[Limit]) -> Answer<Told> {
        let capacity = self.capacity()?;
        if !reference::may_open(capacity, limits) {
            return Err(Refusal::WorldLimits);
        }
        let worlds = limits.iter().map(|&limit| World { runs: Vec::new(), limit }).collect();
        *self = Store::Sound(Pool::of(capacity, worlds));
        Ok(Told::Done)
    }
}

impl Pool {
    fn of(capacity: usize, worlds: Vec<World>) -> Pool {
        let sets = worlds.iter().map(|w| oracle_of(&w.runs)).collect();
        Pool { capacity, sets, taken: reference::taken(&worlds), worlds }
    }

    // What is taken where a world has that many runs: refused where they are above its ceiling, or that is above the capacity.
    fn taken_with(&self, world: usize, runs: usize) -> Answer<u128> {
        let World { runs: were, limit } = &self.worlds[world];
        let taken = self.taken - reference::takes(*limit, were.len()) + reference::takes(*limit, runs);
        if runs as u64 > limit[1] || taken > self.capacity as u128 {
            return Err(Refusal::Capacity);
        }
        Ok(taken)
    }

    fn hold(&mut self, world: usize, set: IntervalBitSet) -> Answer<Told> {
        let runs = runs_of(&set);
        self.taken = self.taken_with(world, runs.len())?;
        self.worlds[world].runs = runs;
        self.sets[world] = set;
        Ok(Told::Done)
    }

    // A change in place, which adds at most that many runs. The set is copied only where the limits may forbid it.
    fn change(&mut self, world: usize, more: usize, change: impl FnOnce(&mut IntervalBitSet) -> Told) -> Answer<Told> {
        if self.taken_with(world, self.worlds[world].runs.len() + more).is_err() {
            let mut copy = self.sets[world].clone();
            let told = change(&mut copy);
            self.hold(world, copy)?;
            return Ok(told);
        }
        let told = change(&mut self.sets[world]);
        let runs = runs_of(&self.sets[world]);
        self.taken = self.taken_with(world, runs.len()).expect("a change added more runs than was said");
        self.worlds[world].runs = runs;
        Ok(told)
    }
}

/// The runs that the oracle holds.
fn runs_of(set: &IntervalBitSet) -> Vec<Run> {
    set.ranges(.., true).map(|r| [*r.start() as u64, *r.end() as u64]).collect()
}

fn oracle_of(runs: &[Run]) -> IntervalBitSet {
    let mut set = IntervalBitSet::new();
    for &[s, e] in runs {
        set.set(s as usize..=e as usize, true);
    }
    set
}

fn bounds(range: Range) -> (Bound<usize>, Bound<usize>) {
    (range.0.map(|x| x as usize), range.1.map(|x| x as usize))
}

fn wide(run: RangeInclusive<usize>) -> RangeInclusive<u64> {
    *run.start() as u64..=*run.end() as u64
}

// The ended listing.
fn ended(value: bool) -> Listing {
    Listing { first: 1, last: 0, value }
}

// What is left of a listing after a draw.
fn moved(listing: Listing, back: bool, drawn: &Option<RangeInclusive<u64>>) -> Listing {
    let Listing { first, last, value } = listing;
    match drawn {
        Some(run) if !back && *run.end() < last => Listing { first: run.end() + 1, last, value },
        Some(run) if back && *run.start() > first => Listing { first, last: run.start() - 1, value },
        _ => ended(value),
    }
}

// How many bytes or words are due, and a slice that has them in front; or refusal 2.
fn front<T: Clone>(room: usize, due: Vec<T>, stale: T) -> Answer<(usize, Vec<T>)> {
    if room < due.len() {
        return Err(Refusal::OutputShort);
    }
    let filled = due.len();
    let mut all = due;
    all.resize(room, stale);
    Ok((filled, all))
}

fn slice(room: usize, due: Vec<u8>) -> Answer<Told> {
    front(room, due, STALE).map(|(filled, all)| Told::Slice(filled, all))
}

// Sets ranges one by one until there are more runs than the capacity: the places of the ranges that are the first in a run then, rising. None
// where there never are so many.
fn why_full(capacity: usize, list: &[Range]) -> Option<Vec<u64>> {
    let mut set = IntervalBitSet::new();
    let refused = list.iter().position(|&range| {
        set.set(bounds(range), true);
        set.count_ranges(.., true) > capacity
    })?;
    // Every range that has a position lies in one of the runs: that in which its first position is.
    let runs = runs_of(&set);
    let mut first = vec![None; runs.len()];
    for (place, &range) in (0..).zip(&list[..=refused]) {
        if let Some([start, _]) = ends_of(range) {
            first[runs.partition_point(|&[_, end]| end < start)].get_or_insert(place);
        }
    }
    let mut places: Vec<u64> = first.into_iter().map(|place| place.expect("each run is of some range")).collect();
    places.sort_unstable();
    Some(places)
}

// The rows of a rectangle of the plane, each a range of positions.
fn rows(rect: Rect) -> impl Iterator<Item = RangeInclusive<usize>> {
    (rect.top..=rect.bottom).map(move |row| (row * SIDE + rect.left) as usize..=(row * SIDE + rect.right) as usize)
}

/// Several stores.
#[derive(Clone)]
pub struct Expected {
    pub stores: Vec<Store>,
}

impl Expected {
    /// What a call tells.
    pub fn answer(&mut self, call: &Call) -> Told {
        self.result(call).unwrap_or_else(Told::Refused)
    }

    // Refuses worlds that cannot be read: 1 for any store, then 7 for any, then 12 for any world.
    fn read(&self, places: &[Place]) -> Answer<()> {
        let stores = || places.iter().map(|at| &self.stores[at.store]);
        stores().try_for_each(|store| store.capacity().map(|_| ()))?;
        stores().try_for_each(|store| store.sound().map(|_| ()))?;
        match places.iter().all(|at| at.world < self.stores[at.store].opened()) {
            true => Ok(()),
            false => Err(Refusal::WorldUnopened),
        }
    }

    // The set of a world that is read.
    fn set(&self, at: Place) -> Answer<&IntervalBitSet> {
        self.read(&[at])?;
        Ok(&self.stores[at.store].sound()?.sets[at.world as usize])
    }

    // The pool of a world that was read, to be changed there.
    fn pool(&mut self, at: Place) -> (&mut Pool, usize) {
        match &mut self.stores[at.store] {
            Store::Sound(pool) => (pool, at.world as usize),
            _ => unreachable!("it was read"),
        }
    }

    fn hold(&mut self, to: Place, set: IntervalBitSet) -> Answer<Told> {
        let (pool, world) = self.pool(to);
        pool.hold(world, set)
    }

    fn change(&mut self, at: Place, more: usize, change: impl FnOnce(&mut IntervalBitSet) -> Told) -> Answer<Told> {
        self.read(&[at])?;
        let (pool, world) = self.pool(at);
        pool.change(world, more, change)
    }

    // A call on a range that is refused where it is reversed.
    fn strict(&mut self, at: Place, range: Range, call: Call) -> Answer<Told> {
        self.read(&[at])?;
        if is_reversed(range) {
            return Err(Refusal::RangeReversed);
        }
        self.result(&call)
    }

    // The oracle refuses nothing: the order of refusals is 1, 11, 7, 12, 13, 16, 9, 14, 15, 6, 10, 3, 4, 3, 5, 8, 2.
    fn result(&mut self, call: &Call) -> Answer<Told> {
        match *call {
            Call::Lend { at, ref words } => {
                self.stores[at] = Store::of(words);
                Ok(Told::Done)
            }
            // The words are not known here, but none are sound with that one.
            Call::Poke { at, word, value } => {
                assert!(word == SPARE && value != 0, "what other words mean is not known");
                if let Ok(capacity) = self.stores[at].capacity() {
                    self.stores[at] = Store::Unsound { capacity };
                }
                Ok(Told::Done)
            }
            Call::New { to, ref limits } => self.stores[to].make(limits.as_chunks().0),
            Call::Set { at, range, value } => self.change(at, 1, |p| Told::Count(p.set(bounds(range), value))),
            Call::Flip { at, range } => self.change(at, 1, |p| {
                p.flip(bounds(range));
                Told::Done
            }),
            Call::Shift { at, distance, left } => self.change(at, 0, |p| {
                if left {
                    *p <<= distance as usize;
                } else {
                    *p >>= distance as usize;
                }
                Told::Done
            }),
            Call::Get { at, x } => Ok(Told::Value(self.set(at)?.get(x as usize))),
            Call::RunAt { at, x } => Ok(Told::Run(wide(self.set(at)?.run_at(x as usize)))),
            Call::Find { at, range, value } => {
                Ok(Told::Position(self.set(at)?.find(bounds(range), value).map(|x| x as u64)))
            }
            // The oracle has each half as a call of its own.
            Call::Tally { at, range, value } => {
                let p = self.set(at)?;
                let runs = p.count_ranges(bounds(range), value) as u64;
                Ok(Told::Tally(Tally { positions: p.count(bounds(range), value), runs }))
            }
            // A strict call is the other one, where the range is not reversed.
            Call::SetStrict { at, range, value } => self.strict(at, range, Call::Set { at, range, value }),
            Call::FlipStrict { at, range } => self.strict(at, range, Call::Flip { at, range }),
            Call::TallyStrict { at, range, value } => self.strict(at, range, Call::Tally { at, range, value }),
            Call::Select { at, range, value, k } => {
                let found = self.set(at)?.select(bounds(range), value, k.into());
                Ok(Told::Position(found.map(|x| x as u64)))
            }
            Call::Gap { at, range, n } => {
                let p = self.set(at)?;
                if n == 0 {
                    return Err(Refusal::GapLength);
                }
                // The oracle has no such call: the lowest gap starts with the first of its free runs that is long enough.
                let mut free = p.ranges(bounds(range), false).map(wide);
                Ok(Told::Position(free.find(|run| run.end() - run.start() >= n - 1).map(|run| *run.start())))
            }
            Call::Ranges { at, range, value, backs } => {
                let mut all = self.set(at)?.ranges(bounds(range), value);
                let made = ends_of(range).map_or(ended(value), |[first, last]| Listing { first, last, value });
                let mut listing = made;
                let mut draws = Vec::new();
                loop {
                    let back = from_back(backs, draws.len());
                    let run = if back { all.next_back() } else { all.next() }.map(wide);
                    listing = moved(listing, back, &run);
                    draws.push((run.clone(), listing));
                    if run.is_none() {
                        return Ok(Told::Draws(made, draws));
                    }
                }
            }
            Call::Draw { at, listing, back } => {
                let Listing { first, last, value } = listing;
                let mut all = self.set(at)?.ranges(first as usize..=last as usize, value);
                let run = if back { all.next_back() } else { all.next() }.map(wide);
                let left = moved(listing, back, &run);
                Ok(Told::Drawn(run, left))
            }
            Call::Fill { at, base, n } => {
                let p = self.set(at)?;
                if !reference::is_window(base, n) {
                    return Err(Refusal::Window);
                }
                let held = p.count(base as usize..=(base + (n - 1)) as usize, true);
                Ok(Told::Number((1000 * held).div_ceil(u128::from(n)) as u64))
            }
            // The oracle has no rectangles: row by row. Each row adds a run at most.
            Call::SetRect { at, rect, value } => {
                self.read(&[at])?;
                if !reference::is_rect(rect) {
                    return Err(Refusal::OffPlane);
                }
                let more = (rect.bottom - rect.top) as usize + 1;
                self.change(at, more, |p| Told::Count(rows(rect).map(|row| p.set(row, value)).sum()))
            }
            Call::CountRect { at, rect } => {
                let p = self.set(at)?;
                if !reference::is_rect(rect) {
                    return Err(Refusal::OffPlane);
                }
                Ok(Told::Number(rows(rect).map(|row| p.count(row, true) as u64).sum()))
            }
            Call::Survey { at, row, column, k, room } => {
                let p = self.set(at)?;
                if !reference::is_square(row, column, k) {
                    return Err(Refusal::OffPlane);
                }
                let due = reference::survey(row, column, k, |x| p.get(x as usize));
                front(room, due, STALE_WORD).map(|(filled, all)| Told::Words(filled, all))
            }
            Call::Combine { to, op, a, b } => {
                self.read(&[to, a, b])?;
                let (x, y) = (self.set(a)?, self.set(b)?);
                let joined = match op {
                    Operation::And => x & y,
                    Operation::Or => x | y,
                    Operation::Xor => x ^ y,
                };
                self.hold(to, joined)
            }
            Call::Not { to, a } => {
                self.read(&[to, a])?;
                let other = !self.set(a)?;
                self.hold(to, other)
            }
            Call::Shifted { to, a, distance, left } => {
                self.read(&[to, a])?;
                let p = self.set(a)?;
                let turned = if left { p << distance as usize } else { p >> distance as usize };
                self.hold(to, turned)
            }
            Call::Equal { a, b } => {
                self.read(&[a, b])?;
                Ok(Told::Value(self.set(a)? == self.set(b)?))
            }
            Call::Load { to, ref bytes } => {
                self.read(&[to])?;
                let (_, runs) = reference::decode(bytes)?;
                self.hold(to, oracle_of(&runs))
            }
            // Every run that is not dropped is set, in the order read.
            Call::Mend { to, ref bytes, rooms: [room, report] } => {
                self.read(&[to])?;
                let (edition, told) = reference::parse(bytes)?;
                let undropped: Vec<Run> = told.iter().copied().filter(|[start, end]| start <= end).collect();
                let outcome = oracle_of(&undropped);
                let runs = runs_of(&outcome);
                let (pool, world) = self.pool(to);
                pool.taken_with(world, runs.len())?;
                let set = front(room, reference::encode(edition, &runs), STALE)?;
                let fates = front(report, reference::fates(&told, &runs), STALE)?;
                pool.hold(world, outcome)?;
                Ok(Told::Slices([set, fates]))
            }
            Call::Build { to, ref runs } => {
                self.read(&[to])?;
                if !reference::in_order(runs) {
                    return Err(Refusal::RunOrder);
                }
                self.hold(to, oracle_of(runs))
            }
            Call::ReadMap { at, base, n, ref map } => {
                self.read(&[at])?;
                if !reference::is_map(base, n, map) {
                    return Err(Refusal::Window);
                }
                if reference::has_stray_bit(n, map) {
                    return Err(Refusal::StrayBit);
                }
                // A stretch of n positions has at most n / 2 + 1 runs.
                self.change(at, n as usize / 2 + 1, |p| {
                    let mut changed = 0;
                    let mut i = 0;
                    while i < n {
                        let value = reference::bit(map, i);
                        let start = i;
                        while i < n && reference::bit(map, i) == value {
                            i += 1;
                        }
                        changed += p.set((base + start) as usize..=(base + (i - 1)) as usize, value);
                    }
                    Told::Count(changed)
                })
            }
            Call::ClearMap { base, n, ref map } => {
                if !reference::is_map(base, n, map) {
                    return Err(Refusal::Window);
                }
                let mut cleared = map.clone();
                Ok(Told::Cleared(reference::clear(n, &mut cleared), cleared))
            }
            Call::Convert { ref bytes, room } => slice(room, reference::converted(bytes)?),
            // The oracle tells nothing of its tree. The store is only measured: whether it is sound does not matter.
            Call::Deepest { at, height, room } => {
                let capacity = self.stores[at].capacity()?;
                if !(1..=HEIGHT).contains(&height) {
                    return Err(Refusal::TreeHeight);
                }
                if reference::least(height as u32)[0] > capacity as u64 {
                    return Err(Refusal::Capacity);
                }
                let due = reference::deepest(height as u32).into_flattened();
                front(room, due, STALE_WORD).map(|(filled, all)| Told::Words(filled, all))
            }
            // The store is only measured here, too.
            Call::WhyFull { at, ref ranges, room } => {
                let capacity = self.stores[at].capacity()?;
                let due = why_full(capacity, &records::ranges_of(ranges)).ok_or(Refusal::NotRefused)?;
                front(room, due, STALE_WORD).map(|(filled, all)| Told::Words(filled, all))
            }
            // The oracle's ranges, encoded apart from the library.
            Call::Write { at, edition, room } => {
                self.read(&[at])?;
                slice(room, reference::encode(reference::edition(edition), self.stores[at.store].runs(at.world)))
            }
            Call::WriteMap { at, base, n, room } => {
                let p = self.set(at)?;
                if !reference::is_window(base, n) {
                    return Err(Refusal::Window);
                }
                let mut due = vec![0; n.div_ceil(8) as usize];
                for run in p.ranges(base as usize..=(base + (n - 1)) as usize, true) {
                    for i in run.start() - base as usize..=run.end() - base as usize {
                        due[i / 8] |= 1 << (i % 8);
                    }
                }
                slice(room, due)
            }
            // The whole is refused for the pool alone: a world that is not opened is told in its record's answer.
            Call::Frame { at, ref calls, room } => {
                self.stores[at].capacity()?;
                self.stores[at].sound()?;
                let (asked, _) = calls.as_chunks();
                if room < records::WORDS * asked.len() {
                    return Err(Refusal::OutputShort);
                }
                let told = |&record| records::answer_of(&self.answer(&records::call_of(at, record)));
                let rest = vec![STALE_WORD; room - records::WORDS * asked.len()];
                Ok(Told::Answers(asked.iter().map(told).collect(), rest))
            }
        }
    }
}
