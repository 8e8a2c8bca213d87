//! A frame's calls at once: lists of calls on the worlds of one pool, and what each answers. [`Pool::frame`](crate::Pool::frame) takes
//! [`Call`]s with their worlds and tells [`Reply`]s; [`Pool::play`](crate::Pool::play) takes and fills lent records, and allocates nothing:
//!
//! ```
//! use vizturel::SetBuf;
//! use vizturel::frame::{AnswerRecord, Call, CallRecord};
//! # fn main() -> Result<(), vizturel::Refusal> {
//! let mut slots = SetBuf::with_capacity(64)?;
//! let mut calls = [CallRecord::default(); 256];
//! let mut answers = [AnswerRecord::default(); 256];
//! // The three lowest free slots, then all three taken: at world 0, the only one.
//! for (k, record) in calls[..3].iter_mut().enumerate() {
//!     *record = (0, Call::select(.., false, k as u64)).into();
//! }
//! let free = slots.play(&calls[..3], &mut answers)?;
//! for (record, slot) in calls.iter_mut().zip(free) {
//!     *record = (0, Call::set(slot.number..=slot.number, true)).into();
//! }
//! slots.play(&calls[..3], &mut answers)?;
//! assert_eq!(slots.tally(..3, true)?.positions, 3);
//! # Ok(())
//! # }
//! ```

use std::ops::{Bound, RangeBounds, RangeInclusive};

use crate::{Answer, Listing, Rect, Tally, answer, positions};

/// A lower and an upper bound.
pub type Range = (Bound<u64>, Bound<u64>);

/// A call of a list: it is the one of [`World`](crate::World) that has its name. `Empty` frees every position of the world, as
/// [`build`](crate::World::build) of no runs does. No call of a list makes a pool.
#[derive(Clone, Copy, Debug, PartialEq, Eq)]
pub enum Call {
    Empty,
    Set(Range, bool),
    Flip(Range),
    Shift { distance: u64, left: bool },
    Get(u64),
    RunAt(u64),
    Find(Range, bool),
    Tally(Range, bool),
    SetStrict(Range, bool),
    FlipStrict(Range),
    TallyStrict(Range, bool),
    Select(Range, bool, u64),
    Gap(Range, u64),
    Listing(Range, bool),
    DrawFront(Listing),
    DrawBack(Listing),
    Fill { base: u64, n: u64 },
    SetRect(Rect, bool),
    CountRect(Rect),
}

fn range(r: impl RangeBounds<u64>) -> Range {
    (r.start_bound().cloned(), r.end_bound().cloned())
}

/// Calls about a range of any kind.
impl Call {
    pub fn set(r: impl RangeBounds<u64>, value: bool) -> Call {
        Call::Set(range(r), value)
    }

    pub fn flip(r: impl RangeBounds<u64>) -> Call {
        Call::Flip(range(r))
    }

    pub fn find(r: impl RangeBounds<u64>, value: bool) -> Call {
        Call::Find(range(r), value)
    }

    pub fn tally(r: impl RangeBounds<u64>, value: bool) -> Call {
        Call::Tally(range(r), value)
    }

    pub fn set_strict(r: impl RangeBounds<u64>, value: bool) -> Call {
        Call::SetStrict(range(r), value)
    }

    pub fn flip_strict(r: impl RangeBounds<u64>) -> Call {
        Call::FlipStrict(range(r))
    }

    pub fn tally_strict(r: impl RangeBounds<u64>, value: bool) -> Call {
        Call::TallyStrict(range(r), value)
    }

    pub fn select(r: impl RangeBounds<u64>, value: bool, k: u64) -> Call {
        Call::Select(range(r), value, k)
    }

    pub fn gap(r: impl RangeBounds<u64>, length: u64) -> Call {
        Call::Gap(range(r), length)
    }

    pub fn listing(r: impl RangeBounds<u64>, value: bool) -> Call {
        Call::Listing(range(r), value)
    }
}

/// What a call of a list tells.
#[derive(Clone, Debug, PartialEq, Eq)]
pub enum Reply {
    /// `Empty`, `Flip`, `FlipStrict`, `Shift`.
    Done,
    /// `Set`, `SetStrict`, `SetRect`: how many positions changed.
    Count(u128),
    /// `Tally`, `TallyStrict`.
    Tally(Tally),
    /// `Fill`, `CountRect`.
    Number(u64),
    /// `Get`.
    Value(bool),
    /// `RunAt`.
    Run(RangeInclusive<u64>),
    /// `Find`, `Select`, `Gap`.
    Position(Option<u64>),
    /// `Listing`.
    Listing(Listing),
    /// The draws: the run, and the listing that is left.
    Drawn(Option<RangeInclusive<u64>>, Listing),
}

/// A call as the library reads it: see `vizturel_call` in `include/vizturel.h`. A world's number and a [`Call`] make such records; where all
/// words are 0, it is `Get(0)` at world 0.
///
/// 7 and 9 are withdrawn: records with these numbers are answered with 12, whatever world they name. All other numbers of calls and kinds of
/// bounds that no [`Call`] has are reserved: a later version may give them a meaning. This version answers a call number above 20 as `Get`, and
/// takes a range with a bound of another kind than 1, 2 and 3 for an empty one; do not rely on that. The two calls on a rectangle have no bounds: the four words of these are the first row, the
/// first column, the last row and the last column.
#[repr(C)]
#[derive(Clone, Copy, Debug, Default, PartialEq, Eq)]
pub struct CallRecord {
    pub call: u64,
    pub lower_kind: u64,
    pub lower: u64,
    pub upper_kind: u64,
    pub upper: u64,
    pub value: u64,
    pub k: u64,
    pub world: u64,
}

/// An answer as the library writes it: see `vizturel_answer` in `include/vizturel.h`.
#[repr(C)]
#[derive(Clone, Copy, Debug, Default, PartialEq, Eq)]
pub struct AnswerRecord {
    pub refusal: u64,
    pub found: u64,
    pub number: u64,
    pub end: u64,
    pub first: u64,
    pub last: u64,
    pub value: u64,
    /// 0.
    pub reserved: u64,
}

const WORDS: usize = 8;
const _: () = assert!(size_of::<CallRecord>() == 8 * WORDS && align_of::<CallRecord>() == 8);
const _: () = assert!(size_of::<AnswerRecord>() == 8 * WORDS && align_of::<AnswerRecord>() == 8);

pub(crate) fn words_of_calls(records: &[CallRecord]) -> &[u64] {
    // SAFETY: a record is eight u64s without padding, and any words are a record.
    unsafe { std::slice::from_raw_parts(records.as_ptr().cast(), WORDS * records.len()) }
}

pub(crate) fn words_of_answers(records: &mut [AnswerRecord]) -> &mut [u64] {
    // SAFETY: as above.
    unsafe { std::slice::from_raw_parts_mut(records.as_mut_ptr().cast(), WORDS * records.len()) }
}

impl From<(u64, Call)> for CallRecord {
    fn from((world, call): (u64, Call)) -> CallRecord {
        let none = CallRecord { world, ..CallRecord::default() };
        let over = |call, r: Range| {
            let [lower_kind, lower, upper_kind, upper] = crate::numbers(r);
            CallRecord { call, lower_kind, lower, upper_kind, upper, ..none }
        };
        let of_range = |call, r, value: bool| CallRecord { value: value.into(), ..over(call, r) };
        let of_rect = |call, Rect { top, left, bottom, right }: Rect| CallRecord {
            call,
            lower_kind: top,
            lower: left,
            upper_kind: bottom,
            upper: right,
            ..none
        };
        let of_listing = |call, Listing { first, last, value }: Listing| CallRecord {
            call,
            lower: first,
            upper: last,
            value: value.into(),
            ..none
        };
        match call {
            Call::Get(x) => CallRecord { lower: x, ..none },
            Call::Empty => CallRecord { call: 1, ..none },
            Call::Set(r, value) => of_range(2, r, value),
            Call::Flip(r) => over(3, r),
            Call::Shift { distance, left } => CallRecord { call: 4, lower: distance, value: left.into(), ..none },
            Call::RunAt(x) => CallRecord { call: 5, lower: x, ..none },
            Call::Find(r, value) => of_range(6, r, value),
            Call::Select(r, value, k) => CallRecord { k, ..of_range(8, r, value) },
            Call::Listing(r, value) => of_range(10, r, value),
            Call::DrawFront(l) => of_listing(11, l),
            Call::DrawBack(l) => of_listing(12, l),
            Call::Fill { base, n } => CallRecord { call: 13, lower: base, upper: n, ..none },
            Call::Gap(r, length) => CallRecord { k: length, ..over(14, r) },
            Call::Tally(r, value) => of_range(15, r, value),
            Call::SetStrict(r, value) => of_range(16, r, value),
            Call::FlipStrict(r) => over(17, r),
            Call::TallyStrict(r, value) => of_range(18, r, value),
            Call::SetRect(rect, value) => CallRecord { value: value.into(), ..of_rect(19, rect) },
            Call::CountRect(rect) => of_rect(20, rect),
        }
    }
}

impl AnswerRecord {
    /// What the call that the record answers was told. Panics where the refusal is none's number, which the library never writes.
    pub fn reply(&self, call: Call) -> Answer<Reply> {
        let found = self.found == 1;
        let listing = Listing { first: self.first, last: self.last, value: self.value == 1 };
        let told = match call {
            Call::Empty | Call::Flip(_) | Call::FlipStrict(_) | Call::Shift { .. } => Reply::Done,
            Call::Set(..) | Call::SetStrict(..) | Call::SetRect(..) => Reply::Count(positions(self.found, self.number)),
            Call::Tally(..) | Call::TallyStrict(..) => {
                Reply::Tally(Tally { positions: positions(self.found, self.number), runs: self.end })
            }
            Call::Fill { .. } | Call::CountRect(_) => Reply::Number(self.number),
            Call::Get(_) => Reply::Value(self.number == 1),
            Call::RunAt(_) => Reply::Run(self.number..=self.end),
            Call::Find(..) | Call::Select(..) | Call::Gap(..) => Reply::Position(found.then_some(self.number)),
            Call::Listing(..) => Reply::Listing(listing),
            Call::DrawFront(_) | Call::DrawBack(_) => Reply::Drawn(found.then_some(self.number..=self.end), listing),
        };
        answer(self.refusal, told)
    }
}
