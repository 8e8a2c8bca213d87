//! Safe calls of the proved library: sets of positions 0 ..= 2^64 − 1, kept as runs in a slice of words that the caller lends.
//!
//! A [`Pool`] of capacity C is 8 × (C + 49) words and has 1 to 16 worlds, each a set with a floor and a ceiling of runs ([`Limits`]).
//! The floors are kept for their worlds; the rest of the C runs goes to whichever world asks first. [`Pool::world`] and
//! [`Pool::world_mut`] lend a [`World`], which has the calls; world numbers count from 0. A [`Set`] is a pool of one world, for whoever
//! needs no more: it has every call of that world.
//!
//! All three are over lent words (`Pool<&mut [u64]>`), words to be read only (`Pool<&[u64]>`), an array or a vector ([`PoolBuf`],
//! [`SetBuf`]). Names are those of IntervalBitSet, which is here as [`oracle`]; what IntervalBitSet makes anew from others
//! ([`World::combine`], [`World::not`], [`World::shifted`]) overwrites the world that is to hold it.
//!
//! No call needs a test beforehand: whatever the words, numbers, bounds and bytes are, it answers its result or one [`Refusal`].
//! A refused call changes nothing. Every call but those that make a pool, and [`Pool::deepest`] and [`Pool::why_full`], which only measure
//! one, may be refused with [`Refusal::StoreLength`], [`Refusal::Unsound`] and [`Refusal::WorldUnopened`], of the world and of further
//! worlds; the other refusals are named where they occur.
//!
//! ```
//! use vizturel::{Limits, PoolBuf, Refusal, SetBuf};
//! # fn main() -> Result<(), vizturel::Refusal> {
//! let mut slots = SetBuf::with_capacity(8)?;
//! assert_eq!(slots.set(2..8, true)?, 6);
//! assert_eq!(slots.find(4.., false)?, Some(8));
//!
//! // Two worlds share eight runs: the first is sure of two, the second may have at most four.
//! let mut pool = PoolBuf::with_capacity(8, &[Limits { floor: 2, ceiling: 8 }, Limits { floor: 0, ceiling: 4 }])?;
//! pool.world_mut(0).set(2..8, true)?;
//! assert_eq!(pool.world(1).tally(.., true)?.positions, 0);
//! assert_eq!(pool.world(2).get(0), Err(Refusal::WorldUnopened));
//! # Ok(())
//! # }
//! ```
//!
//! Every call on a world makes the soundness check first: one pass over all nodes, used and free ones, whose cost goes by the capacity and not by the
//! runs. Most calls then need one path down the tree. [`Pool::frame`] and [`Pool::play`] make a list of calls after one soundness check.
//!
//! The modules [`mod@bench`], [`conformance`], [`differential`], [`oracle`] and [`mod@play`] are this project's tests and benchmarks, and no part of the wrappers.

use std::error;
use std::fmt;
use std::ops::{Bound, Deref, DerefMut, RangeBounds, RangeInclusive};

use frame::AnswerRecord;

pub mod bench;
pub mod conformance;
pub mod differential;
pub mod frame;
/// IntervalBitSet as published (see NOTICE), not a byte changed. It has all that was published with it.
#[rustfmt::skip]
pub mod oracle;
pub mod play;
mod raw;

/// Why a call was refused. The numbers are those of the project's README.
#[derive(Clone, Copy, Debug, PartialEq, Eq)]
pub enum Refusal {
    /// A pool's length is not 8 × (C + 49) words for a capacity C from 1 to 65,536.
    StoreLength = 1,
    /// An output slice is shorter than what is due.
    OutputShort = 2,
    /// A written set has fewer than 5 bytes, or not 5 + 16 × R.
    SetLength = 3,
    /// Its version byte is neither 1 nor 2.
    SetVersion = 4,
    /// In a run list or written set a start exceeds its end, or a start is below the previous end + 2. [`World::mend`] mends such a set.
    RunOrder = 5,
    /// A window has length 0 or above 524,288 or ends above 2^64, or a map to be read has not length / 8 bytes, rounded up.
    Window = 6,
    /// A pool is not sound.
    Unsound = 7,
    /// The world would have more runs than its ceiling, or the larger of runs and floor, summed over the pool's worlds, would exceed the
    /// capacity. Of [`Pool::deepest`]: its list has more runs than the capacity.
    Capacity = 8,
    /// A gap of length 0 is asked for.
    GapLength = 9,
    /// A spare bit of a map to be read is one: a bit of its last byte that is past the window. [`clear_map`] zeroes these.
    StrayBit = 10,
    /// A pool cannot be made with these limits: the worlds are not 1 to 16, a floor is above its ceiling, or the floors together are above
    /// the capacity.
    WorldLimits = 11,
    /// A world of that number was not opened.
    WorldUnopened = 12,
    /// The height of a tree is not from 1 to [`HEIGHT`].
    TreeHeight = 13,
    /// The range of a strict call is reversed: its lower bound allows no position up to the one after the last that its upper bound allows.
    RangeReversed = 14,
    /// A rectangle or a square is not one of the plane: a corner's row or column is above 65,535, the first corner is beyond the second in
    /// row or in column, k of a survey is above 8, or its square is not wholly on the plane.
    OffPlane = 15,
    /// No call of the list of [`Pool::why_full`] is refused.
    NotRefused = 16,
}

impl Refusal {
    /// Every refusal, by its number.
    pub const ALL: [Refusal; 16] = [
        Refusal::StoreLength,
        Refusal::OutputShort,
        Refusal::SetLength,
        Refusal::SetVersion,
        Refusal::RunOrder,
        Refusal::Window,
        Refusal::Unsound,
        Refusal::Capacity,
        Refusal::GapLength,
        Refusal::StrayBit,
        Refusal::WorldLimits,
        Refusal::WorldUnopened,
        Refusal::TreeHeight,
        Refusal::RangeReversed,
        Refusal::OffPlane,
        Refusal::NotRefused,
    ];

    /// The number of the refusal, from 1 to 16.
    pub fn number(self) -> u64 {
        self as u64
    }
}

impl fmt::Display for Refusal {
    fn fmt(&self, f: &mut fmt::Formatter) -> fmt::Result {
        f.write_str(match self {
            Refusal::StoreLength => "a pool's length is not 8 × (C + 49) words for a capacity C from 1 to 65,536",
            Refusal::OutputShort => "an output slice is shorter than what is due",
            Refusal::SetLength => "a written set has fewer than 5 bytes, or not 5 + 16 × R",
            Refusal::SetVersion => "a written set's version byte is neither 1 nor 2",
            Refusal::RunOrder => "a run's start exceeds its end, or is below the previous end + 2",
            Refusal::Window => "a window is empty, too long or past 2^64, or a map's length is not the window's",
            Refusal::Unsound => "a pool is not sound",
            Refusal::Capacity => "there would be more runs than the world's ceiling or the pool allows",
            Refusal::GapLength => "a gap of length 0 is asked for",
            Refusal::StrayBit => "a spare bit of a map to be read is one",
            Refusal::WorldLimits => "worlds not 1 to 16, a floor above its ceiling, or floors above the capacity",
            Refusal::WorldUnopened => "a world of that number was not opened",
            Refusal::TreeHeight => "the height of a tree is not from 1 to 22",
            Refusal::RangeReversed => "the range of a strict call is reversed",
            Refusal::OffPlane => {
                "a rectangle's corners are not in order or not on the plane, or a square is not wholly on it"
            }
            Refusal::NotRefused => "no call of the list is refused",
        })
    }
}

impl error::Error for Refusal {}

/// What a call answers: its result, or why it was refused.
pub type Answer<T> = Result<T, Refusal>;

/// How two sets are joined.
#[derive(Clone, Copy, Debug, PartialEq, Eq)]
pub enum Operation {
    And = 0,
    Or = 1,
    Xor = 2,
}

/// How a written set arranges its bytes after the version byte, which is the edition's number, and the number of runs. A run has sixteen:
/// its start and its end, eight bytes each, the highest first. Every reader takes both editions, and [`convert`] turns either into the
/// other.
#[derive(Clone, Copy, Debug, PartialEq, Eq)]
pub enum Edition {
    /// The sixteen bytes of each run together.
    Rows = 1,
    /// The first byte of every run, then the second of every run, up to the sixteenth: like bytes stand together, for whoever packs them.
    /// A reader that knows edition 1 alone refuses it with 4.
    Columns = 2,
}

/// What became of a run of a written set that was mended: see [`World::mend`].
#[repr(u8)]
#[derive(Clone, Copy, Debug, PartialEq, Eq)]
pub enum Fate {
    /// Its start is above its end, so it has no position.
    Dropped = 0,
    /// It shares its run of the outcome with another run that was not dropped: they overlap, only touch, or are equal, or others
    /// between them join the two.
    Joined = 1,
    /// It is alone in its run of the outcome, and so is that run.
    Kept = 2,
}

// The library writes a byte for each run, 0, 1 or 2.
const _: () = assert!(size_of::<Fate>() == 1);

/// What mending wrote: the fronts of the two slices that were lent.
#[derive(Debug, PartialEq, Eq)]
pub struct Mended<'o> {
    /// The outcome as a written set, in the edition read.
    pub set: &'o mut [u8],
    /// What became of each run that was read, in the order read.
    pub fates: &'o mut [Fate],
}

/// What is left of a listing of runs: those of the value from first to last. It has ended where first is above last. It borrows no
/// pool, so the pool may change between two draws.
#[derive(Clone, Copy, Debug, PartialEq, Eq)]
pub struct Listing {
    pub first: u64,
    pub last: u64,
    pub value: bool,
}

/// How many positions of a range have a value, and in how many runs they lie.
#[derive(Clone, Copy, Debug, Default, PartialEq, Eq)]
pub struct Tally {
    /// Up to 2^64.
    pub positions: u128,
    /// Those that the range's ends cut are among them.
    pub runs: u64,
}

/// How many runs a world has room for at any time, and how many it may have at most. The room between the two is the pool's, and is
/// there as long as no other world has taken it.
#[repr(C)]
#[derive(Clone, Copy, Debug, PartialEq, Eq)]
pub struct Limits {
    pub floor: u64,
    /// It may be above the pool's capacity.
    pub ceiling: u64,
}

impl Limits {
    /// No room is kept for the world, and the capacity alone bounds it.
    pub const NONE: Limits = Limits { floor: 0, ceiling: u64::MAX };
}

// The library reads limits as words, in turn.
const _: () = assert!(size_of::<Limits>() == 16 && align_of::<Limits>() == 8);

/// How many rows the plane of cells has, and how many columns.
pub const SIDE: u64 = 65_536;

/// The position of the cell at a row and a column: row × 65,536 + column.
pub const fn cell(row: u16, column: u16) -> u64 {
    row as u64 * SIDE + column as u64
}

/// A rectangle of cells: the rows from top to bottom and the columns from left to right, the last ones included. Any numbers make one; a call
/// refuses it with 15 where a row or a column is above 65,535, or the last before the first.
#[repr(C)]
#[derive(Clone, Copy, Debug, PartialEq, Eq)]
pub struct Rect {
    pub top: u64,
    pub left: u64,
    pub bottom: u64,
    pub right: u64,
}

impl Rect {
    /// Every cell of the plane.
    pub const PLANE: Rect = Rect::new((0, 0), (SIDE - 1, SIDE - 1));

    /// From its first corner to its second, each a row and a column, and both in it. They are not put in order.
    pub const fn new(first: (u64, u64), second: (u64, u64)) -> Rect {
        Rect { top: first.0, left: first.1, bottom: second.0, right: second.1 }
    }

    /// One cell.
    pub const fn cell(row: u64, column: u64) -> Rect {
        Rect::new((row, column), (row, column))
    }
}

// The library takes a rectangle as four words.
const _: () = assert!(size_of::<Rect>() == 32 && align_of::<Rect>() == 8);

/// A piece of a survey: so many rows and columns from a cell on, all of one value, 1 where they are held and 0 where they are free.
#[repr(C)]
#[derive(Clone, Copy, Debug, Default, PartialEq, Eq)]
pub struct Piece {
    pub row: u64,
    pub column: u64,
    pub rows: u64,
    pub columns: u64,
    pub value: u64,
}

impl Piece {
    /// How many words a piece has.
    pub const WORDS: usize = 5;

    /// Whether its cells are held.
    pub const fn is_held(self) -> bool {
        self.value == 1
    }

    /// Its cells as a rectangle; a piece that the library wrote has some.
    pub const fn rect(self) -> Rect {
        let (bottom, right) = (self.row + self.rows - 1, self.column + self.columns - 1);
        Rect { top: self.row, left: self.column, bottom, right }
    }
}

// The library writes a piece as five words.
const _: () = assert!(size_of::<Piece>() == 8 * Piece::WORDS && align_of::<Piece>() == 8);

/// A range of a list, as the library reads it: see `vizturel_range` in `include/vizturel.h`. [`RangeRecord::new`] makes it of any range, and it
/// is one itself, so that it can be set. Kind 1 includes the value, 2 excludes it, 3 is no bound. Other kinds, 0 among them, are reserved; this
/// version takes a range with such a bound for an empty one, as [`RangeRecord::default`] is.
#[repr(C)]
#[derive(Clone, Copy, Debug, Default, PartialEq, Eq)]
pub struct RangeRecord {
    pub lower_kind: u64,
    pub lower: u64,
    pub upper_kind: u64,
    pub upper: u64,
}

impl RangeRecord {
    /// How many words a range has.
    pub const WORDS: usize = 4;

    /// The record of a range.
    pub fn new(range: impl RangeBounds<u64>) -> RangeRecord {
        let [lower_kind, lower, upper_kind, upper] = numbers(range);
        RangeRecord { lower_kind, lower, upper_kind, upper }
    }

    // Both at once: a reserved kind empties the range at either end.
    fn ends(&self) -> (Bound<&u64>, Bound<&u64>) {
        match (bound_of(self.lower_kind, &self.lower), bound_of(self.upper_kind, &self.upper)) {
            (Some(lower), Some(upper)) => (lower, upper),
            _ => (Bound::Included(&0), Bound::Excluded(&0)),
        }
    }
}

impl RangeBounds<u64> for RangeRecord {
    fn start_bound(&self) -> Bound<&u64> {
        self.ends().0
    }

    fn end_bound(&self) -> Bound<&u64> {
        self.ends().1
    }
}

// The library reads a range as four words.
const _: () = assert!(size_of::<RangeRecord>() == 8 * RangeRecord::WORDS && align_of::<RangeRecord>() == 8);

/// The words of a pool: see the crate's description.
#[derive(Clone, Debug)]
pub struct Pool<S> {
    words: S,
}

/// A pool that owns its words.
pub type PoolBuf = Pool<Vec<u64>>;

/// A world of a pool, by its number: see the crate's description. It dereferences to the pool.
#[derive(Clone, Debug)]
pub struct World<S> {
    pool: Pool<S>,
    number: u64,
}

/// A pool of one world, whose floor is 0 and whose ceiling is 2^64 − 1, so that it holds as many runs as the capacity. It dereferences to
/// its world.
#[derive(Clone, Debug)]
pub struct Set<S> {
    world: World<S>,
}

/// A set that owns its words.
pub type SetBuf = Set<Vec<u64>>;

/// How high the tree of a world can be, at the largest capacity.
pub const HEIGHT: u64 = 22;

/// How many words a pool of the capacity has.
pub const fn words(capacity: usize) -> usize {
    8 * (capacity + 49)
}

/// Words for a pool of the capacity. They are no pool yet.
pub fn room(capacity: usize) -> Vec<u64> {
    vec![0; words(capacity)]
}

impl<S> Pool<S> {
    /// Takes words that are a pool already, without the soundness check: each call makes it.
    pub fn from_words(words: S) -> Pool<S> {
        Pool { words }
    }

    /// Hands the words back.
    pub fn into_words(self) -> S {
        self.words
    }
}

impl<S> Set<S> {
    /// Takes words that are a pool already, of which world 0 is meant, without the soundness check: each call makes it.
    pub fn from_words(words: S) -> Set<S> {
        Set { world: World { pool: Pool { words }, number: 0 } }
    }

    /// Hands the words back.
    pub fn into_words(self) -> S {
        self.world.pool.words
    }
}

impl<S> Deref for World<S> {
    type Target = Pool<S>;

    fn deref(&self) -> &Pool<S> {
        &self.pool
    }
}

impl<S> DerefMut for World<S> {
    fn deref_mut(&mut self) -> &mut Pool<S> {
        &mut self.pool
    }
}

impl<S> Deref for Set<S> {
    type Target = World<S>;

    fn deref(&self) -> &World<S> {
        &self.world
    }
}

impl<S> DerefMut for Set<S> {
    fn deref_mut(&mut self) -> &mut World<S> {
        &mut self.world
    }
}

// A refusal's number, or 0 and what stands beside it.
fn answer<T>(refusal: u64, result: T) -> Answer<T> {
    match refusal {
        0 => Ok(result),
        n => Err(Refusal::ALL.into_iter().find(|refusal| refusal.number() == n).expect("a refusal's number")),
    }
}

// How many positions, up to 2^64.
fn positions(carry: u64, low: u64) -> u128 {
    (u128::from(carry) << 64) + u128::from(low)
}

// The record of what a call gives, which a refused call leaves as it was; or the refusal.
fn given(call: impl FnOnce(*mut u64) -> u64) -> Answer<AnswerRecord> {
    let mut record = AnswerRecord::default();
    let refusal = call((&raw mut record).cast());
    debug_assert!(refusal == 0 || record == AnswerRecord::default(), "a refused call changed the record");
    answer(refusal, record)
}

fn count(call: impl FnOnce(*mut u64) -> u64) -> Answer<u128> {
    given(call).map(|record| positions(record.found, record.number))
}

fn tallied(call: impl FnOnce(*mut u64) -> u64) -> Answer<Tally> {
    given(call).map(|record| Tally { positions: positions(record.found, record.number), runs: record.end })
}

fn number(call: impl FnOnce(*mut u64) -> u64) -> Answer<u64> {
    given(call).map(|record| record.number)
}

fn position(call: impl FnOnce(*mut u64) -> u64) -> Answer<Option<u64>> {
    given(call).map(|record| (record.found == 1).then_some(record.number))
}

// A range as it is lent: the kind and the value of either bound.
fn numbers(range: impl RangeBounds<u64>) -> [u64; 4] {
    let of = |bound| match bound {
        Bound::Included(&v) => (1, v),
        Bound::Excluded(&v) => (2, v),
        Bound::Unbounded => (3, 0),
    };
    let ((lower_kind, lower), (upper_kind, upper)) = (of(range.start_bound()), of(range.end_bound()));
    [lower_kind, lower, upper_kind, upper]
}

// What a kind and a value mean, where the kind is not reserved.
fn bound_of(kind: u64, value: &u64) -> Option<Bound<&u64>> {
    match kind {
        1 => Some(Bound::Included(value)),
        2 => Some(Bound::Excluded(value)),
        3 => Some(Bound::Unbounded),
        _ => None,
    }
}

// SAFETY of every call below: a slice is passed as its pointer and length and borrowed for the call alone, shared where it is only
// read and uniquely where it is written, and no exported function asks more of its caller.

/// Makes a map of the window of n positions from base on fit to be read: zeroes its spare bits, those of the last byte past the window,
/// and tells how many were one. The other bits stay. It takes no pool. Refused with 6 alone.
///
/// ```
/// use vizturel::{Refusal, SetBuf, clear_map};
/// # fn main() -> Result<(), vizturel::Refusal> {
/// let mut slots = SetBuf::with_capacity(8)?;
/// // A window of ten positions: the six highest bits of the second byte are spare.
/// let mut map = [0x0C, 0x83];
/// assert_eq!(slots.read_map(0, 10, &map), Err(Refusal::StrayBit));
/// assert_eq!(clear_map(0, 10, &mut map), Ok(1));
/// assert_eq!(map, [0x0C, 0x03]);
/// assert_eq!(slots.read_map(0, 10, &map), Ok(4));
/// # Ok(())
/// # }
/// ```
pub fn clear_map(base: u64, n: u64, map: &mut [u8]) -> Answer<u64> {
    number(|a| unsafe { raw::vizturel_abi_clear_map(base, n, map.as_mut_ptr(), map.len(), a) })
}

/// Turns a written set of either edition into the other, in the front of a slice, and hands that part back. Both have the same length;
/// the rest of the slice stays. It takes no pool. Refused with 3, 4 or 5 as [`World::load`] is, or with 2; then the slice stays.
///
/// ```
/// use vizturel::{Edition, SetBuf, convert};
/// # fn main() -> Result<(), vizturel::Refusal> {
/// let mut slots = SetBuf::with_capacity(8)?;
/// slots.set(2..4, true)?;
/// slots.set(8..10, true)?;
/// let [mut rows, mut columns, mut again] = [[0; 64]; 3];
/// let rows = slots.write(Edition::Rows, &mut rows)?;
/// let columns = convert(rows, &mut columns)?;
/// // The eighth byte of each start stands beside the other, and so does the eighth of each end.
/// assert_eq!((columns[0], &columns[5 + 2 * 7..][..2], &columns[5 + 2 * 15..]), (2, &[2, 8][..], &[3, 9][..]));
/// assert_eq!(columns, slots.write(Edition::Columns, &mut again)?);
/// assert_eq!(convert(columns, &mut again)?, rows);
/// # Ok(())
/// # }
/// ```
pub fn convert<'o>(bytes: &[u8], out: &'o mut [u8]) -> Answer<&'o mut [u8]> {
    let (from, to) = (bytes.as_ptr(), out.as_mut_ptr());
    let written = number(|a| unsafe { raw::vizturel_abi_convert(from, bytes.len(), to, out.len(), a) })?;
    Ok(&mut out[..written as usize])
}

/// Making a pool in words that may hold anything. They change only if it succeeds.
impl<S: AsMut<[u64]>> Pool<S> {
    /// Opens a world for each of the limits: worlds 0, 1 and so on, all empty. Refused with 1 of the words, or 11.
    pub fn new(mut words: S, limits: &[Limits]) -> Answer<Pool<S>> {
        let w = words.as_mut();
        let refusal =
            unsafe { raw::vizturel_abi_new(w.as_mut_ptr(), w.len(), limits.as_ptr().cast(), 2 * limits.len()) };
        answer(refusal, Pool { words })
    }
}

impl PoolBuf {
    /// Empty worlds of these limits, with room for so many runs together. Refused with 1 where the capacity is not from 1 to 65,536, or
    /// with 11.
    pub fn with_capacity(capacity: usize, limits: &[Limits]) -> Answer<PoolBuf> {
        // A capacity beyond the largest is not allocated; one more than the largest is refused just so.
        Pool::new(room(capacity.min(65_537)), limits)
    }
}

impl<S: AsMut<[u64]>> Set<S> {
    /// The empty set, in words that may hold anything. Refused with 1 of the words.
    pub fn new(words: S) -> Answer<Set<S>> {
        Ok(Set::from_words(Pool::new(words, &[Limits::NONE])?.words))
    }
}

impl SetBuf {
    /// The empty set, with room for so many runs. Refused with 1 where the capacity is not from 1 to 65,536.
    pub fn with_capacity(capacity: usize) -> Answer<SetBuf> {
        Ok(Set::from_words(PoolBuf::with_capacity(capacity, &[Limits::NONE])?.words))
    }
}

/// What is in a pool.
impl<S: AsRef<[u64]>> Pool<S> {
    /// The words.
    pub fn words(&self) -> &[u64] {
        self.words.as_ref()
    }

    /// A world, to be read. Its calls are refused with 12 where no world of that number was opened.
    pub fn world(&self, number: u64) -> World<&[u64]> {
        World { pool: Pool { words: self.words() }, number }
    }

    /// Writes the shortest list of runs that makes a tree of the height, if they are set one by one in that order into an empty world,
    /// into the front of a slice, and hands that part back: start and end of each run, both in it. The rest of the slice stays. Which
    /// list it is follows from the height alone. No world of a sound pool has so high a tree with fewer nodes; one that was shifted may
    /// have one run less than nodes. As many runs as the capacity are always enough for the slice.
    ///
    /// The pool is asked how long it is, and no more: it need not be sound, and no world is meant. Refused with 1, with 13 where the
    /// height is not from 1 to [`HEIGHT`], with 8 where the list has more runs than the capacity, or with 2; then the slice stays.
    ///
    /// ```
    /// use vizturel::{Refusal, SetBuf};
    /// # fn main() -> Result<(), vizturel::Refusal> {
    /// let mut slots = SetBuf::with_capacity(4)?;
    /// let mut runs = [[0; 2]; 4];
    /// for &mut [start, end] in slots.deepest(3, &mut runs)? {
    ///     slots.set(start..=end, true)?;
    /// }
    /// assert_eq!(slots.tally(.., true)?.runs, 4); // a tree of height 3 has no fewer
    /// assert_eq!(slots.deepest(4, &mut runs), Err(Refusal::Capacity)); // one of height 4 has 7
    /// # Ok(())
    /// # }
    /// ```
    pub fn deepest<'o>(&self, height: u64, out: &'o mut [[u64; 2]]) -> Answer<&'o mut [[u64; 2]]> {
        let w = self.words();
        let to = out.as_flattened_mut();
        let (to, room) = (to.as_mut_ptr(), to.len());
        let written = number(|a| unsafe { raw::vizturel_abi_deepest(w.as_ptr(), w.len(), height, to, room, a) })?;
        Ok(&mut out[..written as usize / 2])
    }

    /// Tells why a list of ranges, set to true one by one into the empty set of a new [`Set`] of this capacity C, is refused with 8: writes
    /// the smallest part of the list that is refused when it is set in the same way into the front of a slice, as places in the list,
    /// counted from 0 and rising, and hands that part back. The rest of the slice stays. There are C + 1 places, and no fewer ranges of
    /// the list are ever refused: from each run of what all ranges up to the first refused one hold, the first range listed that has a
    /// position in it. Ranges that are empty or reversed hold nothing, and are never among them.
    ///
    /// The pool is asked how long it is, and no more: it need not be sound, and no world is meant. Refused with 1, with 16 where no call of
    /// the list is refused, or with 2 where the slice has fewer than C + 1 words; then the slice stays.
    ///
    /// ```
    /// use vizturel::{RangeRecord, Refusal, SetBuf};
    /// # fn main() -> Result<(), vizturel::Refusal> {
    /// let mut slots = SetBuf::with_capacity(2)?;
    /// let list = [2..4, 4..6, 9..9, 20..30, 25..40, 50..60, 70..80].map(RangeRecord::new);
    /// for range in &list[..5] {
    ///     slots.set(*range, true)?; // 2..6 and 20..40
    /// }
    /// assert_eq!(slots.set(list[5], true), Err(Refusal::Capacity));
    /// let mut places = [0; 3];
    /// assert_eq!(slots.why_full(&list, &mut places)?, [0, 3, 5]); // a third run, whatever the others are
    /// assert_eq!(slots.why_full(&list[..5], &mut places), Err(Refusal::NotRefused));
    /// # Ok(())
    /// # }
    /// ```
    pub fn why_full<'o>(&self, ranges: &[RangeRecord], out: &'o mut [u64]) -> Answer<&'o mut [u64]> {
        let w = self.words();
        // Any four words are a range.
        let (from, length) = (ranges.as_ptr().cast(), RangeRecord::WORDS * ranges.len());
        let (to, room) = (out.as_mut_ptr(), out.len());
        let written =
            number(|a| unsafe { raw::vizturel_abi_why_full(w.as_ptr(), w.len(), from, length, to, room, a) })?;
        Ok(&mut out[..written as usize])
    }
}

impl<S: AsMut<[u64]>> Pool<S> {
    /// The words, to be changed at the caller's own risk of a pool that is not sound.
    pub fn words_mut(&mut self) -> &mut [u64] {
        self.words.as_mut()
    }

    /// A world, to be changed. Its calls are refused with 12 where no world of that number was opened.
    pub fn world_mut(&mut self, number: u64) -> World<&mut [u64]> {
        World { pool: Pool { words: self.words_mut() }, number }
    }

    /// Makes every call of a list at the world beside it, in order, and tells what each answers: see [`frame`]. A call of the list that is
    /// refused changes nothing, and the next one follows.
    ///
    /// ```
    /// use vizturel::frame::{Call, Reply};
    /// use vizturel::{Limits, PoolBuf, Refusal};
    /// # fn main() -> Result<(), vizturel::Refusal> {
    /// let mut pool = PoolBuf::with_capacity(2, &[Limits { floor: 1, ceiling: 2 }, Limits { floor: 1, ceiling: 2 }])?;
    /// let told = pool.frame(&[
    ///     (0, Call::set(2..8, true)),
    ///     (0, Call::set(4..6, false)), // a second run, but the second world is sure of its one
    ///     (1, Call::set(4..6, true)),
    ///     (2, Call::Get(0)),
    /// ])?;
    /// let (full, none) = (Err(Refusal::Capacity), Err(Refusal::WorldUnopened));
    /// assert_eq!(told, [Ok(Reply::Count(6)), full, Ok(Reply::Count(2)), none]);
    /// # Ok(())
    /// # }
    /// ```
    pub fn frame(&mut self, calls: &[(u64, frame::Call)]) -> Answer<Vec<Answer<frame::Reply>>> {
        let asked: Vec<frame::CallRecord> = calls.iter().map(|&call| call.into()).collect();
        let mut answers = vec![frame::AnswerRecord::default(); calls.len()];
        self.play(&asked, &mut answers)?;
        Ok(calls.iter().zip(&answers).map(|(&(_, call), told)| told.reply(call)).collect())
    }

    /// The same over lent records, which name their worlds, without allocating: the answers are the front of the lent slice, and that
    /// part is handed back. Refused with 2 where there are fewer answers than calls; then no call was made.
    pub fn play<'o>(
        &mut self,
        calls: &[frame::CallRecord],
        answers: &'o mut [frame::AnswerRecord],
    ) -> Answer<&'o mut [frame::AnswerRecord]> {
        let (asked, told) = (frame::words_of_calls(calls), frame::words_of_answers(answers));
        self.play_words(asked, told)?;
        Ok(&mut answers[..calls.len()])
    }

    // Over words, of which there may be any number.
    fn play_words(&mut self, calls: &[u64], answers: &mut [u64]) -> Answer<()> {
        let w = self.words_mut();
        let refusal = unsafe {
            raw::vizturel_abi_frame(
                w.as_mut_ptr(),
                w.len(),
                calls.as_ptr(),
                calls.len(),
                answers.as_mut_ptr(),
                answers.len(),
            )
        };
        answer(refusal, ())
    }
}

/// Calls that change a world. The other worlds of the pool keep their positions.
impl<S: AsMut<[u64]>> World<S> {
    // What every exported function takes of a pool and a world.
    fn lent_mut(&mut self) -> (*mut u64, usize, u64) {
        let w = self.pool.words_mut();
        (w.as_mut_ptr(), w.len(), self.number)
    }

    /// Gives a range the value, and tells how many positions changed. Refused with 8.
    pub fn set(&mut self, range: impl RangeBounds<u64>, value: bool) -> Answer<u128> {
        let (w, n, i) = self.lent_mut();
        let [lk, l, uk, u] = numbers(range);
        count(|a| unsafe { raw::vizturel_abi_set(w, n, i, lk, l, uk, u, value.into(), a) })
    }

    /// Inverts a range. Refused with 8.
    pub fn flip(&mut self, range: impl RangeBounds<u64>) -> Answer<()> {
        let (w, n, i) = self.lent_mut();
        let [lk, l, uk, u] = numbers(range);
        answer(unsafe { raw::vizturel_abi_flip(w, n, i, lk, l, uk, u) }, ())
    }

    /// Gives a range the value as [`set`](World::set) does, and refuses a reversed one. A range is reversed where its lower bound allows
    /// no position up to the one after the last that its upper bound allows; else it has no position, and is empty, or some. Refused with
    /// 14, 8.
    ///
    /// ```
    /// use std::ops::Bound::Excluded;
    /// use vizturel::{Refusal, SetBuf};
    /// # fn main() -> Result<(), vizturel::Refusal> {
    /// let mut slots = SetBuf::with_capacity(8)?;
    /// assert_eq!(slots.set_strict(8..2, true), Err(Refusal::RangeReversed));
    /// assert_eq!(slots.set_strict((Excluded(5), Excluded(5)), true), Err(Refusal::RangeReversed));
    /// assert_eq!(slots.set_strict((Excluded(5), Excluded(6)), true), Ok(0));
    /// assert_eq!(slots.set(8..2, true), Ok(0));
    /// # Ok(())
    /// # }
    /// ```
    pub fn set_strict(&mut self, range: impl RangeBounds<u64>, value: bool) -> Answer<u128> {
        let (w, n, i) = self.lent_mut();
        let [lk, l, uk, u] = numbers(range);
        count(|a| unsafe { raw::vizturel_abi_set_strict(w, n, i, lk, l, uk, u, value.into(), a) })
    }

    /// Inverts a range as [`flip`](World::flip) does, and refuses a reversed one. Refused with 14, 8.
    pub fn flip_strict(&mut self, range: impl RangeBounds<u64>) -> Answer<()> {
        let (w, n, i) = self.lent_mut();
        let [lk, l, uk, u] = numbers(range);
        answer(unsafe { raw::vizturel_abi_flip_strict(w, n, i, lk, l, uk, u) }, ())
    }

    /// Gives the cells of a rectangle the value, and tells how many changed. Where the runs that it would leave do not fit, no row is changed.
    /// Refused with 15, or with 8 for the runs after the whole rectangle.
    ///
    /// ```
    /// use vizturel::{Rect, Refusal, SetBuf, cell};
    /// # fn main() -> Result<(), vizturel::Refusal> {
    /// let mut cells = SetBuf::with_capacity(8)?;
    /// // Four rows of three columns, then a hole of one cell.
    /// let block = Rect::new((10, 20), (13, 22));
    /// assert_eq!(cells.set_rect(block, true), Ok(12));
    /// assert_eq!(cells.set_rect(Rect::cell(11, 21), false), Ok(1));
    /// assert_eq!(cells.count_rect(block), Ok(11));
    /// assert_eq!(cells.get(cell(11, 21)), Ok(false));
    /// // The corners stand in order.
    /// assert_eq!(cells.set_rect(Rect::new((13, 22), (10, 20)), true), Err(Refusal::OffPlane));
    /// # Ok(())
    /// # }
    /// ```
    pub fn set_rect(&mut self, rect: Rect, value: bool) -> Answer<u128> {
        let (w, n, i) = self.lent_mut();
        let Rect { top, left, bottom, right } = rect;
        count(|a| unsafe { raw::vizturel_abi_set_rect(w, n, i, top, left, bottom, right, value.into(), a) })
    }

    /// Moves every position up (left) or down; what would leave 0 ..= 2^64 − 1 is dropped.
    pub fn shift(&mut self, distance: u64, left: bool) -> Answer<()> {
        let (w, n, i) = self.lent_mut();
        answer(unsafe { raw::vizturel_abi_shift(w, n, i, distance, left.into()) }, ())
    }

    /// Makes every call of a list at this world: see [`Pool::frame`].
    ///
    /// ```
    /// use vizturel::frame::{Call, Reply};
    /// use vizturel::{Refusal, SetBuf};
    /// # fn main() -> Result<(), vizturel::Refusal> {
    /// let mut slots = SetBuf::with_capacity(1)?;
    /// let told = slots.frame(&[Call::set(2..8, true), Call::set(4..6, false), Call::find(4.., false)])?;
    /// assert_eq!(told, [Ok(Reply::Count(6)), Err(Refusal::Capacity), Ok(Reply::Position(Some(8)))]);
    /// # Ok(())
    /// # }
    /// ```
    pub fn frame(&mut self, calls: &[frame::Call]) -> Answer<Vec<Answer<frame::Reply>>> {
        let here: Vec<_> = calls.iter().map(|&call| (self.number, call)).collect();
        self.pool.frame(&here)
    }

    /// Sets the window of so many positions from base on as a map says, and tells how many positions changed. Refused with 6, 10 or 8.
    /// A map with a spare bit that is one is not read: [`clear_map`] zeroes these bits.
    pub fn read_map(&mut self, base: u64, length: u64, map: &[u8]) -> Answer<u128> {
        let (w, n, i) = self.lent_mut();
        count(|a| unsafe { raw::vizturel_abi_read_map(w, n, i, base, length, map.as_ptr(), map.len(), a) })
    }

    /// [`World::read_map`] by single bytes, for whoever compares the two: the same answer, refusals and positions.
    pub fn read_map_by_bytes(&mut self, base: u64, length: u64, map: &[u8]) -> Answer<u128> {
        let (w, n, i) = self.lent_mut();
        count(|a| unsafe { raw::vizturel_abi_read_map_by_bytes(w, n, i, base, length, map.as_ptr(), map.len(), a) })
    }
}

/// Calls that overwrite a world: it then holds what is told, whatever it held. Its limits stay, and so do the other worlds of the pool.
///
/// The sets that they are made of are lent beside it, so they cannot be of the same pool: a world that is to be overwritten from its
/// neighbours is made from a copy of the pool.
impl<S: AsMut<[u64]>> World<S> {
    /// Holds the set of a run list: start and end of each run, both in it, rising and not touching. Refused with 5 or 8.
    pub fn build(&mut self, runs: &[[u64; 2]]) -> Answer<()> {
        let (w, n, i) = self.lent_mut();
        let r = runs.as_flattened();
        answer(unsafe { raw::vizturel_abi_build(w, n, i, r.as_ptr(), r.len()) }, ())
    }

    /// Holds the set that a written set of either edition tells. Refused with 3, 4, 5 or 8.
    pub fn load(&mut self, bytes: &[u8]) -> Answer<()> {
        let (w, n, i) = self.lent_mut();
        answer(unsafe { raw::vizturel_abi_load(w, n, i, bytes.as_ptr(), bytes.len()) }, ())
    }

    /// Holds every position of a written set of either edition whose runs may stand in any order, touch and overlap. A run whose start is
    /// above its end has none. The set that comes of it is written, in the edition read, into the front of a slice, and what became of
    /// each run, in the order read, into the front of another; both parts are handed back, and the rest of both slices stays. A set that
    /// [`World::load`] takes comes back byte for byte, with every run kept. Refused with 3 or 4 as a load is, with 8 for the runs of the
    /// outcome, or with 2 for either slice; never with 5.
    ///
    /// ```
    /// use vizturel::{Edition, Fate, Refusal, SetBuf};
    /// # fn main() -> Result<(), vizturel::Refusal> {
    /// let mut slots = SetBuf::with_capacity(2)?;
    /// // By rows: 8 9, then 2 3 and 4 5, which touch, then 7 6, whose start is above its end.
    /// let runs = [[8_u64, 9], [2, 3], [4, 5], [7, 6]];
    /// let mut bytes = vec![1, 0, 0, 0, runs.len() as u8];
    /// bytes.extend(runs.as_flattened().iter().flat_map(|x| x.to_be_bytes()));
    /// assert_eq!(slots.load(&bytes), Err(Refusal::RunOrder));
    /// // The outcome never has more bytes than the set that is read.
    /// let (mut out, mut report) = (vec![0; bytes.len()], [Fate::Dropped; 4]);
    /// let mended = slots.mend(&bytes, &mut out, &mut report)?;
    /// assert_eq!(mended.fates, [Fate::Kept, Fate::Joined, Fate::Joined, Fate::Dropped]);
    /// assert!(slots.ranges(.., true)?.eq([2..=5, 8..=9]));
    /// assert_eq!(mended.set, slots.write(Edition::Rows, &mut [0; 64])?);
    /// # Ok(())
    /// # }
    /// ```
    pub fn mend<'o>(&mut self, bytes: &[u8], out: &'o mut [u8], report: &'o mut [Fate]) -> Answer<Mended<'o>> {
        let (w, n, i) = self.lent_mut();
        // A fate is a byte, and the library leaves 0, 1 or 2 in those that it writes.
        let (to, fates) = (out.as_mut_ptr(), report.as_mut_ptr().cast());
        let (from, length) = (bytes.as_ptr(), bytes.len());
        let mended =
            given(|a| unsafe { raw::vizturel_abi_mend(w, n, i, from, length, to, out.len(), fates, report.len(), a) })?;
        Ok(Mended { set: &mut out[..mended.number as usize], fates: &mut report[..mended.end as usize] })
    }

    /// Holds two sets joined. Refused with 8.
    pub fn combine<A, B>(&mut self, op: Operation, a: &World<A>, b: &World<B>) -> Answer<()>
    where
        A: AsRef<[u64]>,
        B: AsRef<[u64]>,
    {
        let ((w, n, i), (aw, an, ai), (bw, bn, bi)) = (self.lent_mut(), a.lent(), b.lent());
        answer(unsafe { raw::vizturel_abi_combine(w, n, i, op as u64, aw, an, ai, bw, bn, bi) }, ())
    }

    /// Holds the complement of a set. Refused with 8.
    pub fn not<A: AsRef<[u64]>>(&mut self, a: &World<A>) -> Answer<()> {
        let ((w, n, i), (aw, an, ai)) = (self.lent_mut(), a.lent());
        answer(unsafe { raw::vizturel_abi_not(w, n, i, aw, an, ai) }, ())
    }

    /// Holds a set moved up (left) or down; what would leave 0 ..= 2^64 − 1 is dropped. Refused with 8.
    pub fn shifted<A: AsRef<[u64]>>(&mut self, a: &World<A>, distance: u64, left: bool) -> Answer<()> {
        let ((w, n, i), (aw, an, ai)) = (self.lent_mut(), a.lent());
        answer(unsafe { raw::vizturel_abi_shifted(w, n, i, distance, left.into(), aw, an, ai) }, ())
    }
}

/// Calls that report of a world.
impl<S: AsRef<[u64]>> World<S> {
    fn lent(&self) -> (*const u64, usize, u64) {
        let w = self.pool.words();
        (w.as_ptr(), w.len(), self.number)
    }

    /// The value of a position.
    pub fn get(&self, x: u64) -> Answer<bool> {
        let (w, n, i) = self.lent();
        Ok(number(|a| unsafe { raw::vizturel_abi_get(w, n, i, x, a) })? == 1)
    }

    /// The run around a position, of whichever value it has.
    pub fn run_at(&self, x: u64) -> Answer<RangeInclusive<u64>> {
        let (w, n, i) = self.lent();
        given(|a| unsafe { raw::vizturel_abi_run_at(w, n, i, x, a) }).map(|run| run.number..=run.end)
    }

    /// The least position of the value in a range.
    pub fn find(&self, range: impl RangeBounds<u64>, value: bool) -> Answer<Option<u64>> {
        let (w, n, i) = self.lent();
        let [lk, l, uk, u] = numbers(range);
        position(|a| unsafe { raw::vizturel_abi_find(w, n, i, lk, l, uk, u, value.into(), a) })
    }

    /// How many positions of a range have the value, and in how many runs they lie, those included that the range's ends cut.
    ///
    /// ```
    /// use vizturel::{SetBuf, Tally};
    /// # fn main() -> Result<(), vizturel::Refusal> {
    /// let mut slots = SetBuf::with_capacity(8)?;
    /// slots.set(2..8, true)?;
    /// slots.set(10..15, true)?;
    /// assert_eq!(slots.tally(4..12, true)?, Tally { positions: 6, runs: 2 });
    /// assert_eq!(slots.tally(4..12, false)?, Tally { positions: 2, runs: 1 });
    /// # Ok(())
    /// # }
    /// ```
    pub fn tally(&self, range: impl RangeBounds<u64>, value: bool) -> Answer<Tally> {
        let (w, n, i) = self.lent();
        let [lk, l, uk, u] = numbers(range);
        tallied(|a| unsafe { raw::vizturel_abi_tally(w, n, i, lk, l, uk, u, value.into(), a) })
    }

    /// The tally of a range, as [`tally`](World::tally) gives it, and a reversed one is refused. Refused with 14.
    pub fn tally_strict(&self, range: impl RangeBounds<u64>, value: bool) -> Answer<Tally> {
        let (w, n, i) = self.lent();
        let [lk, l, uk, u] = numbers(range);
        tallied(|a| unsafe { raw::vizturel_abi_tally_strict(w, n, i, lk, l, uk, u, value.into(), a) })
    }

    /// The position of a range that has the value and exactly k such positions before it.
    pub fn select(&self, range: impl RangeBounds<u64>, value: bool, k: u64) -> Answer<Option<u64>> {
        let (w, n, i) = self.lent();
        let [lk, l, uk, u] = numbers(range);
        position(|a| unsafe { raw::vizturel_abi_select(w, n, i, lk, l, uk, u, value.into(), k, a) })
    }

    /// The runs of the value in a range, clipped to it, from both ends.
    pub fn ranges(&self, range: impl RangeBounds<u64>, value: bool) -> Answer<Ranges<'_>> {
        let listing = self.listing(range, value)?;
        Ok(Ranges { world: self.pool.world(self.number), listing })
    }

    /// A listing of the runs of the value in a range, kept beside the world.
    pub fn listing(&self, range: impl RangeBounds<u64>, value: bool) -> Answer<Listing> {
        let (w, n, i) = self.lent();
        let [lk, l, uk, u] = numbers(range);
        let left = given(|a| unsafe { raw::vizturel_abi_ranges(w, n, i, lk, l, uk, u, value.into(), a) })?;
        Ok(Listing { first: left.first, last: left.last, value: left.value == 1 })
    }

    /// Draws the first run that is left in a listing, and moves the listing past it.
    pub fn draw_front(&self, listing: &mut Listing) -> Answer<Option<RangeInclusive<u64>>> {
        let (w, n, i) = self.lent();
        let Listing { first, last, value } = *listing;
        drawn(listing, |a| unsafe { raw::vizturel_abi_draw_front(w, n, i, first, last, value.into(), a) })
    }

    /// Draws the last run that is left in a listing, and moves the listing before it.
    pub fn draw_back(&self, listing: &mut Listing) -> Answer<Option<RangeInclusive<u64>>> {
        let (w, n, i) = self.lent();
        let Listing { first, last, value } = *listing;
        drawn(listing, |a| unsafe { raw::vizturel_abi_draw_back(w, n, i, first, last, value.into(), a) })
    }

    /// The start of the lowest gap of a range: so many neighbouring positions, all in the range and all free. None exactly if the range
    /// has no gap. Refused with 9 where the length is 0.
    ///
    /// ```
    /// use vizturel::{Refusal, SetBuf};
    /// # fn main() -> Result<(), vizturel::Refusal> {
    /// let mut slots = SetBuf::with_capacity(8)?;
    /// slots.set(2..8, true)?;
    /// slots.set(10..15, true)?;
    /// // In 0..12 the positions 0, 1, 8 and 9 are free: two gaps of two, and none of three.
    /// assert_eq!(slots.gap(0..12, 2), Ok(Some(0)));
    /// assert_eq!(slots.gap(1..12, 2), Ok(Some(8)));
    /// assert_eq!(slots.gap(0..12, 3), Ok(None));
    /// assert_eq!(slots.gap(0..12, 0), Err(Refusal::GapLength));
    /// # Ok(())
    /// # }
    /// ```
    pub fn gap(&self, range: impl RangeBounds<u64>, length: u64) -> Answer<Option<u64>> {
        let (w, n, i) = self.lent();
        let [lk, l, uk, u] = numbers(range);
        position(|a| unsafe { raw::vizturel_abi_gap(w, n, i, lk, l, uk, u, length, a) })
    }

    /// 1000 × held positions / length in the window of so many positions from base on, rounded up: 0 exactly where none is held. Refused with 6.
    pub fn fill(&self, base: u64, length: u64) -> Answer<u64> {
        let (w, n, i) = self.lent();
        number(|a| unsafe { raw::vizturel_abi_fill(w, n, i, base, length, a) })
    }

    /// How many cells of a rectangle are held: see [`set_rect`](World::set_rect). Refused with 15.
    pub fn count_rect(&self, rect: Rect) -> Answer<u64> {
        let (w, n, i) = self.lent();
        let Rect { top, left, bottom, right } = rect;
        number(|a| unsafe { raw::vizturel_abi_count_rect(w, n, i, top, left, bottom, right, a) })
    }

    /// Surveys the square of side 2^k, k from 0 to 8, whose first cell is given by row and column, into the front of a slice, and hands that
    /// part back; the rest of the slice stays. A piece that has one value is listed, and any other is halved: the square by column, its halves
    /// by row, their halves by column, and so on. The left half stands before the right one, the upper before the lower. Every cell is in one
    /// piece, and worlds that hold the same cells are surveyed alike. 4^k pieces are always enough. Refused with 15, or with 2; then the slice
    /// stays.
    ///
    /// ```
    /// use vizturel::{Piece, Rect, SetBuf};
    /// # fn main() -> Result<(), vizturel::Refusal> {
    /// let mut cells = SetBuf::with_capacity(8)?;
    /// cells.set_rect(Rect::new((0, 0), (1, 3)), true)?;
    /// // A square of four by four: its upper half is held, but columns are halved first.
    /// let mut out = [Piece::default(); 16];
    /// let pieces = cells.survey(0, 0, 2, &mut out)?;
    /// let of = |row, column, value| Piece { row, column, rows: 2, columns: 2, value };
    /// assert_eq!(pieces, [of(0, 0, 1), of(2, 0, 0), of(0, 2, 1), of(2, 2, 0)]);
    /// let held: u64 = pieces.iter().filter(|piece| piece.is_held()).map(|piece| piece.rows * piece.columns).sum();
    /// assert_eq!(held, cells.count_rect(Rect::new((0, 0), (3, 3)))?);
    /// # Ok(())
    /// # }
    /// ```
    pub fn survey<'o>(&self, row: u64, column: u64, k: u64, out: &'o mut [Piece]) -> Answer<&'o mut [Piece]> {
        let (w, n, i) = self.lent();
        // Any words are a piece, and the library writes whole ones.
        let (to, room) = (out.as_mut_ptr().cast(), Piece::WORDS * out.len());
        let written = number(|a| unsafe { raw::vizturel_abi_survey(w, n, i, row, column, k, to, room, a) })?;
        Ok(&mut out[..written as usize / Piece::WORDS])
    }

    /// Whether two worlds, of one pool or of two, hold the same positions.
    pub fn eq<B: AsRef<[u64]>>(&self, other: &World<B>) -> Answer<bool> {
        let ((w, n, i), (bw, bn, bi)) = (self.lent(), other.lent());
        Ok(number(|a| unsafe { raw::vizturel_abi_eq(w, n, i, bw, bn, bi, a) })? == 1)
    }

    /// Writes the world's set in an edition into the front of a slice, and hands that part back. Refused with 2.
    pub fn write<'o>(&self, edition: Edition, out: &'o mut [u8]) -> Answer<&'o mut [u8]> {
        let (w, n, i) = self.lent();
        let (to, room) = (out.as_mut_ptr(), out.len());
        let written = number(|a| unsafe { raw::vizturel_abi_write(w, n, i, edition as u64, to, room, a) })?;
        Ok(&mut out[..written as usize])
    }

    /// Writes the map of the window of so many positions from base on into the front of a slice, and hands that part back. Refused with
    /// 6 or 2.
    pub fn write_map<'o>(&self, base: u64, length: u64, out: &'o mut [u8]) -> Answer<&'o mut [u8]> {
        let (w, n, i) = self.lent();
        let written =
            number(|a| unsafe { raw::vizturel_abi_write_map(w, n, i, base, length, out.as_mut_ptr(), out.len(), a) })?;
        Ok(&mut out[..written as usize])
    }

    /// [`World::write_map`] by single bytes, for whoever compares the two: the same answer, refusals and bytes.
    pub fn write_map_by_bytes<'o>(&self, base: u64, length: u64, out: &'o mut [u8]) -> Answer<&'o mut [u8]> {
        let (w, n, i) = self.lent();
        let (to, room) = (out.as_mut_ptr(), out.len());
        let written = number(|a| unsafe { raw::vizturel_abi_write_map_by_bytes(w, n, i, base, length, to, room, a) })?;
        Ok(&mut out[..written as usize])
    }
}

// A refused draw leaves the listing as it was.
fn drawn(listing: &mut Listing, call: impl FnOnce(*mut u64) -> u64) -> Answer<Option<RangeInclusive<u64>>> {
    let d = given(call)?;
    listing.first = d.first;
    listing.last = d.last;
    Ok((d.found == 1).then_some(d.number..=d.end))
}

/// The runs of a world in a range, drawn one by one.
pub struct Ranges<'a> {
    world: World<&'a [u64]>,
    listing: Listing,
}

// The pool was sound when the listing was made, and is lent since.
const STILL_SOUND: &str = "a lent pool stays sound";

impl Iterator for Ranges<'_> {
    type Item = RangeInclusive<u64>;

    fn next(&mut self) -> Option<RangeInclusive<u64>> {
        self.world.draw_front(&mut self.listing).expect(STILL_SOUND)
    }
}

impl DoubleEndedIterator for Ranges<'_> {
    fn next_back(&mut self) -> Option<RangeInclusive<u64>> {
        self.world.draw_back(&mut self.listing).expect(STILL_SOUND)
    }
}

impl std::iter::FusedIterator for Ranges<'_> {}
