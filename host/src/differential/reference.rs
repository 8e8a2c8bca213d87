//! What the scope document and the change requests say of words and bytes, written down plainly and apart from the library: which words
//! are a sound pool and what its worlds hold, written sets, and pools of any arrangement to try the library on.
//!
//! Words 0 to 7 are the header (worlds opened, free head, six zeros), eight words for each of 16 worlds follow (root, offset, ones,
//! physical runs, first, last, floor, ceiling; zeros if unopened), then node n, from 1 to C + 32: start, end, left, right, height, runs
//! and ones of its subtree, the number of its world. A free node has the next free one in its left word, zeros elsewhere.

use std::collections::VecDeque;

use super::calls::{Range, ends_of};
use super::random::Random;
use crate::{Edition, Rect, Refusal, SIDE};

/// A run: start and end, both in it.
pub type Run = [u64; 2];

/// How many runs a world may count on, and how many it may have: its floor and its ceiling.
pub type Limit = [u64; 2];

/// The most worlds of a pool.
pub const WORLDS: usize = 16;

/// A world that was opened.
#[derive(Clone, Debug, PartialEq)]
pub struct World {
    pub runs: Vec<Run>,
    pub limit: Limit,
}

/// What words are.
#[derive(Debug, PartialEq)]
pub enum Look {
    WrongLength,
    Unsound,
    Holds(Vec<World>),
}

/// The capacity of a pool of that many words, if there is one.
pub fn capacity(words: usize) -> Option<usize> {
    let c = (words / 8).checked_sub(49)?;
    (words.is_multiple_of(8) && (1..=65_536).contains(&c)).then_some(c)
}

/// What a world with that many runs takes of the capacity: as many, and no fewer than its floor.
pub fn takes([floor, _]: Limit, runs: usize) -> u128 {
    u128::from(floor).max(runs as u128)
}

/// What worlds take together.
pub fn taken(worlds: &[World]) -> u128 {
    worlds.iter().map(|w| takes(w.limit, w.runs.len())).sum()
}

/// Whether a pool may be made with such worlds: from 1 to 16, no floor above its ceiling, the floors together at most the capacity.
pub fn may_open(capacity: usize, limits: &[Limit]) -> bool {
    let floors: u128 = limits.iter().map(|&limit| takes(limit, 0)).sum();
    (1..=WORLDS).contains(&limits.len())
        && limits.iter().all(|[floor, ceiling]| floor <= ceiling)
        && floors <= capacity as u128
}

/// Where the record of world i begins.
pub fn record_at(i: usize) -> usize {
    8 * (1 + i)
}

/// Where node n begins.
pub fn node_at(n: usize) -> usize {
    8 * (WORLDS + n)
}

// What a subtree is found to be.
#[derive(Default)]
struct Sums {
    height: u64,
    runs: u64,
    ones: u64,
}

// A tree of at most 65,568 nodes that keeps the balance is far from this deep.
const DEEPEST: usize = 64;

fn walk(words: &[u64], world: u64, link: u64, depth: usize, met: &mut [bool], runs: &mut Vec<Run>) -> Option<Sums> {
    if link == 0 {
        return Some(Sums::default());
    }
    let n = usize::try_from(link).ok().filter(|&n| n < met.len() && !met[n] && depth < DEEPEST)?;
    met[n] = true;
    let node = &words[node_at(n)..node_at(n + 1)];
    let left = walk(words, world, node[2], depth + 1, met, runs)?;
    let (start, end) = (node[0], node[1]);
    let after_last = runs.last().is_none_or(|&[_, last]| last.checked_add(2).is_some_and(|x| start >= x));
    if start > end || !after_last {
        return None;
    }
    runs.push([start, end]);
    let right = walk(words, world, node[3], depth + 1, met, runs)?;
    let sums = Sums {
        height: 1 + left.height.max(right.height),
        runs: 1 + left.runs + right.runs,
        ones: (end - start).wrapping_add(1).wrapping_add(left.ones).wrapping_add(right.ones),
    };
    let told = [node[4], node[5], node[6], node[7]];
    (left.height.abs_diff(right.height) <= 1 && told == [sums.height, sums.runs, sums.ones, world]).then_some(sums)
}

/// Physical runs as logical ones: turned by the offset, cut at 0 and joined where they touch.
pub fn logical(runs: &[Run], offset: u64) -> Vec<Run> {
    let mut pieces = Vec::new();
    for &[start, end] in runs {
        let (s, e) = (start.wrapping_add(offset), end.wrapping_add(offset));
        if s <= e {
            pieces.push([s, e]);
        } else {
            pieces.extend([[s, u64::MAX], [0, e]]);
        }
    }
    pieces.sort_unstable();
    let mut joined: Vec<Run> = Vec::new();
    for [s, e] in pieces {
        match joined.last_mut() {
            Some(last) if last[1].checked_add(1) == Some(s) => last[1] = e,
            _ => joined.push([s, e]),
        }
    }
    joined
}

/// Whether words are a sound pool, and what its worlds hold.
pub fn look(words: &[u64]) -> Look {
    let Some(capacity) = capacity(words.len()) else {
        return Look::WrongLength;
    };
    sound(words, capacity).map_or(Look::Unsound, Look::Holds)
}

fn sound(words: &[u64], capacity: usize) -> Option<Vec<World>> {
    let &[opened, free, ref spare @ ..] = words.first_chunk::<8>()?;
    let opened = usize::try_from(opened).ok().filter(|n| (1..=WORLDS).contains(n))?;
    let zeros = |words: &[u64]| words.iter().all(|&word| word == 0);
    if !zeros(spare) || !zeros(&words[record_at(opened)..record_at(WORLDS)]) {
        return None;
    }
    // Node 0 is none.
    let mut met = vec![false; capacity + 33];
    met[0] = true;
    let worlds = (0..opened).map(|i| world(words, i, &mut met)).collect::<Option<Vec<World>>>()?;
    free_chain(words, free, &mut met)?;
    (met.iter().all(|&m| m) && taken(&worlds) <= capacity as u128).then_some(worlds)
}

// A world whose tree, record and limits are right.
fn world(words: &[u64], i: usize, met: &mut [bool]) -> Option<World> {
    let &[root, offset, ones, count, first, last, floor, ceiling] = words[record_at(i)..].first_chunk::<8>()?;
    let mut physical = Vec::new();
    let sums = walk(words, i as u64, root, 0, met, &mut physical)?;
    let runs = logical(&physical, offset);
    let ends = [runs.first().map_or(0, |r| r[0]), runs.last().map_or(0, |r| r[1])];
    let agrees = [ones, count, first, last] == [sums.ones, sums.runs, ends[0], ends[1]];
    let turned = offset != 0 && runs.is_empty();
    let limited = floor <= ceiling && runs.len() as u64 <= ceiling;
    (agrees && !turned && limited).then_some(World { runs, limit: [floor, ceiling] })
}

// Meets each free node, all words of which are 0 but the link to the next.
fn free_chain(words: &[u64], first: u64, met: &mut [bool]) -> Option<()> {
    let mut free = first;
    while free != 0 {
        let n = usize::try_from(free).ok().filter(|&n| n < met.len() && !met[n])?;
        met[n] = true;
        let node = &words[node_at(n)..node_at(n + 1)];
        free = node[2];
        if (0..8).any(|i| i != 2 && node[i] != 0) {
            return None;
        }
    }
    Some(())
}

/// Whether a run list rises without touching.
pub fn in_order(runs: &[Run]) -> bool {
    runs.iter().all(|&[s, e]| s <= e)
        && runs.windows(2).all(|w| w[0][1].checked_add(2).is_some_and(|least| least <= w[1][0]))
}

/// What lies between runs in a range.
pub fn free_runs(runs: &[Run], range: Range) -> Vec<Run> {
    let Some([first, last]) = ends_of(range) else {
        return Vec::new();
    };
    let mut free = Vec::new();
    // One past a run's end may be 2^64.
    let mut from = u128::from(first);
    for &[start, end] in runs.iter().take_while(|[start, _]| *start <= last) {
        if u128::from(start) > from {
            free.push([from as u64, start - 1]);
        }
        from = from.max(u128::from(end) + 1);
    }
    if from <= u128::from(last) {
        free.push([from as u64, last]);
    }
    free
}

/// The edition that a number stands for where a set is written: 2 for columns, any other for rows.
pub fn edition(number: u64) -> Edition {
    if number == 2 { Edition::Columns } else { Edition::Rows }
}

// Byte j of a run's sixteen.
fn byte(run: &Run, j: usize) -> u8 {
    run[j / 8].to_be_bytes()[j % 8]
}

/// The written set of runs, byte by byte.
pub fn encode(edition: Edition, runs: &[Run]) -> Vec<u8> {
    let mut bytes = vec![edition as u8];
    bytes.extend((runs.len() as u32).to_be_bytes());
    match edition {
        Edition::Rows => bytes.extend(runs.iter().flat_map(|run| (0..16).map(|j| byte(run, j)))),
        Edition::Columns => bytes.extend((0..16).flat_map(|j| runs.iter().map(move |run| byte(run, j)))),
    }
    bytes
}

/// The edition and the runs of a written set, in whatever order they stand.
pub fn parse(bytes: &[u8]) -> Result<(Edition, Vec<Run>), Refusal> {
    let Some((&[version, a, b, c, d], rest)) = bytes.split_first_chunk::<5>() else {
        return Err(Refusal::SetLength);
    };
    let edition = match version {
        1 => Edition::Rows,
        2 => Edition::Columns,
        _ => return Err(Refusal::SetVersion),
    };
    let count = u32::from_be_bytes([a, b, c, d]) as usize;
    if rest.len() != 16 * count {
        return Err(Refusal::SetLength);
    }
    let place = |i: usize, j: usize| if edition == Edition::Rows { 16 * i + j } else { count * j + i };
    let number = |i: usize, from: usize| (from..from + 8).fold(0, |n, j| n << 8 | u64::from(rest[place(i, j)]));
    Ok((edition, (0..count).map(|i| [number(i, 0), number(i, 8)]).collect()))
}

/// The same of one whose runs rise without touching.
pub fn decode(bytes: &[u8]) -> Result<(Edition, Vec<Run>), Refusal> {
    let (edition, runs) = parse(bytes)?;
    if in_order(&runs) { Ok((edition, runs)) } else { Err(Refusal::RunOrder) }
}

/// The runs of all positions that a list of runs in any order has.
pub fn united(runs: &[Run]) -> Vec<Run> {
    let mut all: Vec<Run> = runs.iter().copied().filter(|[start, end]| start <= end).collect();
    all.sort_unstable();
    let mut united: Vec<Run> = Vec::new();
    for [start, end] in all {
        match united.last_mut() {
            Some(last) if start <= last[1].saturating_add(1) => last[1] = last[1].max(end),
            _ => united.push([start, end]),
        }
    }
    united
}

/// What became of each run of a list whose positions are those of the outcome's runs: 0 dropped, its start is above its end; 1 joined, its
/// run of the outcome has another one in it; 2 kept.
pub fn fates(runs: &[Run], outcome: &[Run]) -> Vec<u8> {
    // Which run of the outcome has a position.
    let place = |x: u64| outcome.partition_point(|&[_, end]| end < x);
    let mut within = vec![0; outcome.len()];
    runs.iter().filter(|[start, end]| start <= end).for_each(|&[start, _]| within[place(start)] += 1);
    let fate = |&[start, end]: &Run| match () {
        _ if start > end => 0,
        _ if within[place(start)] > 1 => 1,
        _ => 2,
    };
    runs.iter().map(fate).collect()
}

/// A written set in the other edition.
pub fn converted(bytes: &[u8]) -> Result<Vec<u8>, Refusal> {
    let (edition, runs) = decode(bytes)?;
    let other = if edition == Edition::Rows { Edition::Columns } else { Edition::Rows };
    Ok(encode(other, &runs))
}

/// Whether a window is one.
pub fn is_window(base: u64, n: u64) -> bool {
    (1..=524_288).contains(&n) && u128::from(base) + u128::from(n) <= 1 << 64
}

/// Whether bytes are as many as a window's map has.
pub fn is_map(base: u64, n: u64, map: &[u8]) -> bool {
    is_window(base, n) && map.len() as u64 == n.div_ceil(8)
}

/// Bit i of a map: position i of its window, if there is one.
pub fn bit(map: &[u8], i: u64) -> bool {
    map[(i / 8) as usize] >> (i % 8) & 1 == 1
}

/// Zeroes the spare bits of a map, those past the n positions of its window, one by one, and tells how many were one.
pub fn clear(n: u64, map: &mut [u8]) -> u64 {
    let mut count = 0;
    for i in n..8 * map.len() as u64 {
        count += u64::from(bit(map, i));
        map[(i / 8) as usize] &= !(1 << (i % 8));
    }
    count
}

/// Whether a spare bit of a map is one.
pub fn has_stray_bit(n: u64, map: &[u8]) -> bool {
    clear(n, &mut map.to_vec()) > 0
}

/// Whether a rectangle is one of the plane, its first corner not beyond its second.
pub fn is_rect(Rect { top, left, bottom, right }: Rect) -> bool {
    [top, left, bottom, right].iter().all(|&n| n < SIDE) && top <= bottom && left <= right
}

/// Whether a square of side 2^k has a k of at most 8 and is wholly on the plane.
pub fn is_square(row: u64, column: u64, k: u64) -> bool {
    k <= 8 && [row, column].iter().all(|&n| u128::from(n) + (1 << k) <= SIDE.into())
}

/// The pieces of a square, five words each, by the value of every cell.
pub fn survey(row: u64, column: u64, k: u64, held: impl Fn(u64) -> bool) -> Vec<u64> {
    let side = 1 << k;
    let values = |r: u64| (0..side).map(|c| held((row + r) * SIDE + column + c)).collect();
    let table: Vec<Vec<bool>> = (0..side).map(values).collect();
    let mut words = Vec::new();
    pieces(&table, [0, 0], [side as usize; 2], &mut |[r, c], [rows, columns], value| {
        words.extend([row + r as u64, column + c as u64, rows as u64, columns as u64, value.into()]);
    });
    words
}

// Hands on each piece of a part of a table: the part itself, where it has one value, else those of its halves. A square is halved by column,
// and what is left of one by row.
fn pieces(
    table: &[Vec<bool>],
    [r, c]: [usize; 2],
    [rows, columns]: [usize; 2],
    list: &mut impl FnMut([usize; 2], [usize; 2], bool),
) {
    let value = table[r][c];
    if table[r..r + rows].iter().all(|row| row[c..c + columns].iter().all(|&v| v == value)) {
        list([r, c], [rows, columns], value);
    } else if rows == columns {
        let half = columns / 2;
        pieces(table, [r, c], [rows, half], list);
        pieces(table, [r, c + half], [rows, half], list);
    } else {
        let half = rows / 2;
        pieces(table, [r, c], [half, columns], list);
        pieces(table, [r + half, c], [half, columns], list);
    }
}

/// Which run is the root of a tree of runs, and of each part of it.
#[derive(Clone, Copy)]
pub enum Shape {
    /// One in the middle, so that the tree keeps the balance.
    Even,
    /// Any.
    Any,
    /// The one that makes the tree as deep as the balance allows, where there are just as many runs as such a tree has.
    Deepest { left: bool },
}

/// How many runs the smallest trees of two heights have, that one and the next.
pub fn least(height: u32) -> [u64; 2] {
    (0..height).fold([0, 1], |[a, b], _| [b, a + b + 1])
}

/// The runs of the smallest tree of a height whose left sides are the deeper ones, level by level, each from left to right; the run of rank
/// k is 2k alone. A subtree waits in a queue by the least of its ranks and its height, and its two follow behind.
pub fn deepest(height: u32) -> Vec<Run> {
    let mut runs = Vec::new();
    let mut waiting = VecDeque::from([(0, height)]);
    while let Some((from, height)) = waiting.pop_front() {
        if height > 0 {
            let rank = from + least(height - 1)[0];
            runs.push([2 * rank; 2]);
            waiting.extend([(from, height - 1), (rank + 1, height.saturating_sub(2))]);
        }
    }
    runs
}

fn root_of(count: u64, shape: Shape, random: &mut Random) -> u64 {
    match shape {
        Shape::Even => (count - random.below(2)) / 2,
        Shape::Any => random.below(count),
        Shape::Deepest { left } => {
            let deeper = (0..).map(least).find(|[_, all]| *all >= count).map_or(0, |[side, _]| side);
            if left { deeper } else { count - 1 - deeper }
        }
    }
}

// Writes a tree of physical runs of a world into nodes with the numbers given, and tells its link and what it sums up to.
fn plant(
    words: &mut [u64],
    world: u64,
    runs: &[Run],
    numbers: &[u64],
    shape: Shape,
    random: &mut Random,
) -> (u64, Sums) {
    if runs.is_empty() {
        return (0, Sums::default());
    }
    let m = root_of(runs.len() as u64, shape, random) as usize;
    let (left, l) = plant(words, world, &runs[..m], &numbers[..m], shape, random);
    let (right, r) = plant(words, world, &runs[m + 1..], &numbers[m + 1..], shape, random);
    let [start, end] = runs[m];
    let sums = Sums {
        height: 1 + l.height.max(r.height),
        runs: 1 + l.runs + r.runs,
        ones: end.wrapping_sub(start).wrapping_add(1).wrapping_add(l.ones).wrapping_add(r.ones),
    };
    let at = node_at(numbers[m] as usize);
    words[at..at + 8].copy_from_slice(&[start, end, left, right, sums.height, sums.runs, sums.ones, world]);
    (numbers[m], sums)
}

/// A world to be crafted, by physical runs and their offset.
pub struct Draft {
    pub physical: Vec<Run>,
    pub offset: u64,
    pub limit: Limit,
}

/// A pool of such worlds, at most 16 with at most C + 32 physical runs together, with nodes and free chain by chance: sound where the
/// runs of each rise without touching, the shape keeps the balance, the limits are kept and the offset is 0 where there are no runs.
pub fn craft(capacity: usize, worlds: &[Draft], shape: Shape, random: &mut Random) -> Vec<u64> {
    let mut words = crate::room(capacity);
    let mut numbers: Vec<u64> = (1..=capacity as u64 + 32).collect();
    random.shuffle(&mut numbers);
    let mut unused = &numbers[..];
    for (i, Draft { physical, offset, limit }) in worlds.iter().enumerate() {
        let (used, rest) = unused.split_at(physical.len());
        unused = rest;
        let (root, sums) = plant(&mut words, i as u64, physical, used, shape, random);
        let held = logical(physical, *offset);
        let ends = [held.first().map_or(0, |r| r[0]), held.last().map_or(0, |r| r[1])];
        let record = [root, *offset, sums.ones, sums.runs, ends[0], ends[1], limit[0], limit[1]];
        words[record_at(i)..record_at(i + 1)].copy_from_slice(&record);
    }
    let mut free = 0;
    for &n in unused {
        words[node_at(n as usize) + 2] = free;
        free = n;
    }
    words[..2].copy_from_slice(&[worlds.len() as u64, free]);
    words
}

#[cfg(test)]
mod tests {
    use std::ops::Bound;

    use super::*;

    #[test]
    fn the_deepest_tree_is_sound() {
        let [count, more] = least(22);
        assert_eq!((count, more), (46_367, 75_024));
        let runs: Vec<Run> = (0..count).map(|i| [3 * i, 3 * i + 1]).collect();
        let shape = Shape::Deepest { left: true };
        let up: Vec<Run> = runs.iter().map(|r| r.map(|x| x + 5)).collect();
        let limit = [0, count];
        let words = craft(count as usize, &[Draft { physical: runs, offset: 5, limit }], shape, &mut Random::new(1));
        let root = words[record_at(0)] as usize;
        assert_eq!(words[node_at(root) + 4], 22);
        assert_eq!(look(&words), Look::Holds(vec![World { runs: up, limit }]));
    }

    // Four runs make height 3 and seven make 4: the root, the two below it, and so on.
    #[test]
    fn the_list_for_a_height_goes_level_by_level() {
        assert_eq!(deepest(1), [[0, 0]]);
        assert_eq!(deepest(2), [[2, 2], [0, 0]]);
        assert_eq!(deepest(3), [[4, 4], [2, 2], [6, 6], [0, 0]]);
        assert_eq!(deepest(4), [4, 2, 6, 1, 3, 5, 0].map(|rank| [2 * rank; 2]));
        for height in 1..=22 {
            let mut runs = deepest(height);
            assert_eq!(runs.len() as u64, least(height)[0]);
            runs.sort_unstable();
            assert!(in_order(&runs));
        }
    }

    #[test]
    fn a_run_that_the_offset_parts_is_joined() {
        // Physical 0..=3 and M − 1..=M, two up: one logical run that starts at 0.
        let physical = vec![[0, 3], [u64::MAX - 1, u64::MAX]];
        assert_eq!(logical(&physical, 2), [[0, 5]]);
        let words = craft(1, &[Draft { physical, offset: 2, limit: [0, 1] }], Shape::Even, &mut Random::new(1));
        assert_eq!(look(&words), Look::Holds(vec![World { runs: vec![[0, 5]], limit: [0, 1] }]));
    }

    // A pool of four worlds, whose runs and floors take all of capacity 7: 2 + 3 + 1 + 1.
    fn four_worlds() -> Vec<u64> {
        let draft = |physical: &[Run], limit| Draft { physical: physical.to_vec(), offset: 0, limit };
        let worlds = [
            draft(&[[2, 3], [8, 9]], [1, 7]),
            draft(&[[4, 4], [6, 6], [8, 8]], [3, 3]),
            draft(&[], [1, u64::MAX]),
            draft(&[[0, u64::MAX]], [0, 1]),
        ];
        craft(7, &worlds, Shape::Even, &mut Random::new(3))
    }

    #[test]
    fn worlds_are_read_apart() {
        let Look::Holds(worlds) = look(&four_worlds()) else { panic!("it is not sound") };
        let runs: Vec<usize> = worlds.iter().map(|w| w.runs.len()).collect();
        assert_eq!((runs, taken(&worlds)), (vec![2, 3, 0, 1], 7));
    }

    #[test]
    fn what_is_wrong_of_a_pool_is_seen() {
        let record = |world: usize, word: usize| record_at(world) + word;
        let root = |words: &[u64], world: usize| words[record_at(world)];
        let words = four_worlds();
        let last = words[record_at(0)] as usize;
        for (word, value) in [
            (0, 0),
            (0, 3),
            (0, 17),
            (7, 1),
            // A record that was not opened.
            (record(4, 7), 1),
            (record(15, 0), 1),
            // A floor above its ceiling, one that takes too much, a ceiling below the runs.
            (record(3, 6), 2),
            (record(2, 6), 2),
            (record(0, 6), 3),
            (record(1, 7), 2),
            (record(3, 7), 0),
            // A tree of another world, a node with another number.
            (record(2, 0), root(&words, 3)),
            (record(3, 0), root(&words, 1)),
            (node_at(last) + 7, 1),
            (node_at(last) + 7, 16),
        ] {
            let mut damaged = words.clone();
            damaged[word] = value;
            assert_eq!(look(&damaged), Look::Unsound, "word {word} is {value}");
        }
        // Limits that are kept are sound, whatever they are, and so is a world more with a record of zeros.
        for (word, value) in [(record(0, 6), 2), (record(0, 6), 0), (record(2, 7), 1), (record(1, 7), u64::MAX), (0, 5)]
        {
            let mut other = words.clone();
            other[word] = value;
            assert!(matches!(look(&other), Look::Holds(_)), "word {word} is {value}");
        }
    }

    #[test]
    fn pools_are_made_of_worlds_that_fit() {
        let m = u64::MAX;
        for limits in [vec![[0, 0]], vec![[3, 3]], vec![[1, 1], [2, m]], vec![[0, 0]; 16], vec![[0, m]; 16]] {
            assert!(may_open(3, &limits), "{limits:?}");
        }
        // The floors of the last ones are 2^64 + 2 together.
        for limits in [vec![], vec![[0, 1]; 17], vec![[2, 1]], vec![[4, 4]], vec![[2, 9]; 2], vec![[m, m], [3, 3]]] {
            assert!(!may_open(3, &limits), "{limits:?}");
        }
    }

    #[test]
    fn free_runs_are_clipped_to_the_range() {
        let all = (Bound::Unbounded, Bound::Unbounded);
        let some = |first, last| (Bound::Included(first), Bound::Included(last));
        let runs = [[0, 3], [8, 9], [u64::MAX, u64::MAX]];
        assert_eq!(free_runs(&runs, all), [[4, 7], [10, u64::MAX - 1]]);
        assert_eq!(free_runs(&runs, some(2, 8)), [[4, 7]]);
        assert_eq!(free_runs(&runs, some(5, 12)), [[5, 7], [10, 12]]);
        assert_eq!(free_runs(&runs, some(8, 9)), [[0; 2]; 0]);
        assert_eq!(free_runs(&runs, some(9, 8)), [[0; 2]; 0]);
        assert_eq!(free_runs(&[], all), [[0, u64::MAX]]);
    }

    #[test]
    fn spare_bits_are_past_the_window() {
        for (n, map, count, cleared) in [
            (10, [0xFF, 0xFF], 6, [0xFF, 0x03]),
            (10, [0x0C, 0x83], 1, [0x0C, 0x03]),
            (9, [0, 2], 1, [0, 0]),
            (16, [0xFF, 0xFF], 0, [0xFF, 0xFF]),
        ] {
            let mut all = map;
            assert_eq!((clear(n, &mut all), all), (count, cleared));
            assert_eq!(has_stray_bit(n, &map), count > 0);
        }
    }

    #[test]
    fn a_written_set_is_read_back() {
        let runs = vec![[2, 0x0123_4567_89AB_CDEF], [u64::MAX - 1, u64::MAX]];
        for edition in [Edition::Rows, Edition::Columns] {
            assert_eq!(decode(&encode(edition, &runs)), Ok((edition, runs.clone())));
            assert_eq!(decode(&encode(edition, &[])), Ok((edition, Vec::new())));
            assert_eq!(decode(&encode(edition, &[[2, 3], [4, 5]])), Err(Refusal::RunOrder));
            let version = edition as u8;
            assert_eq!(decode(&[version, 0, 0, 0]), Err(Refusal::SetLength));
            assert_eq!(decode(&[version, 0, 0, 0, 1]), Err(Refusal::SetLength));
        }
        assert_eq!(decode(&[3, 0, 0, 0]), Err(Refusal::SetLength));
        assert_eq!(decode(&[3, 0, 0, 0, 1]), Err(Refusal::SetVersion));
    }

    #[test]
    fn runs_are_dropped_joined_or_kept() {
        let m = u64::MAX;
        for (runs, outcome, due) in [
            (&[][..], &[][..], &[][..]),
            (&[[4, 3]], &[], &[0]),
            (&[[4, 3], [4, 4]], &[[4, 4]], &[0, 2]),
            // Equal ones, ones that touch, and two that a third joins.
            (&[[2, 3], [2, 3]], &[[2, 3]], &[1, 1]),
            (&[[4, 5], [2, 3]], &[[2, 5]], &[1, 1]),
            (&[[8, 9], [2, 3], [3, 9]], &[[2, 9]], &[1, 1, 1]),
            // One free position between, and the ends of the positions, which do not touch.
            (&[[5, 6], [2, 3]], &[[2, 3], [5, 6]], &[2, 2]),
            (&[[m, m], [0, 0]], &[[0, 0], [m, m]], &[2, 2]),
            (&[[m, m], [m, 0], [0, m]], &[[0, m]], &[1, 0, 1]),
        ] {
            assert_eq!(united(runs), outcome, "{runs:?}");
            assert_eq!(fates(runs, outcome), due, "{runs:?}");
        }
    }

    #[test]
    fn columns_are_rows_turned() {
        let runs = [[2, 3], [8, 9]];
        let mut due = [0; 37];
        (due[0], due[4]) = (2, 2);
        due[19..21].copy_from_slice(&[2, 8]);
        due[35..].copy_from_slice(&[3, 9]);
        assert_eq!(encode(Edition::Columns, &runs), due);
        assert_eq!(converted(&due), Ok(encode(Edition::Rows, &runs)));
        assert_eq!(converted(&encode(Edition::Rows, &runs)), Ok(due.to_vec()));
        // One run is the same in both, but for the version byte.
        let one = [1, 2].map(|number| encode(edition(number), &[[5, u64::MAX]]));
        assert_eq!(one.each_ref().map(|bytes| bytes[0]), [1, 2]);
        assert_eq!(one[0][1..], one[1][1..]);
    }
}
