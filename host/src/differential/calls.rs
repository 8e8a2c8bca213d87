//! Calls, and what they tell.

use std::fmt;
use std::ops::{Bound, RangeInclusive};

use super::records::Record;
use super::reference::Run;
use crate::{Listing, Operation, Rect, Refusal, Tally};

pub type Range = (Bound<u64>, Bound<u64>);

/// A world of a store, opened or not.
#[derive(Clone, Copy, PartialEq)]
pub struct Place {
    pub store: usize,
    pub world: u64,
}

impl Place {
    /// World 0 of a store, which is the only one of many.
    pub const fn first(store: usize) -> Place {
        Place { store, world: 0 }
    }
}

impl fmt::Display for Place {
    fn fmt(&self, f: &mut fmt::Formatter) -> fmt::Result {
        write!(f, "{}/{}", self.store, self.world)
    }
}

impl fmt::Debug for Place {
    fn fmt(&self, f: &mut fmt::Formatter) -> fmt::Result {
        fmt::Display::fmt(self, f)
    }
}

/// A call, with the worlds that it is about. `Lend` and `Poke` are no calls of the library: they hand in words that it did not make.
/// A further world may be one of the receiving store: it is then read as it was before the call.
#[derive(Clone, Debug, PartialEq)]
pub enum Call {
    Lend {
        at: usize,
        words: Vec<u64>,
    },
    Poke {
        at: usize,
        word: usize,
        value: u64,
    },
    /// Makes a pool. Of the limits each pair of words is the floor and the ceiling of a world; a last one may have no partner.
    New {
        to: usize,
        limits: Vec<u64>,
    },
    Set {
        at: Place,
        range: Range,
        value: bool,
    },
    Flip {
        at: Place,
        range: Range,
    },
    Shift {
        at: Place,
        distance: u64,
        left: bool,
    },
    Get {
        at: Place,
        x: u64,
    },
    RunAt {
        at: Place,
        x: u64,
    },
    Find {
        at: Place,
        range: Range,
        value: bool,
    },
    Tally {
        at: Place,
        range: Range,
        value: bool,
    },
    SetStrict {
        at: Place,
        range: Range,
        value: bool,
    },
    FlipStrict {
        at: Place,
        range: Range,
    },
    TallyStrict {
        at: Place,
        range: Range,
        value: bool,
    },
    Select {
        at: Place,
        range: Range,
        value: bool,
        k: u64,
    },
    Gap {
        at: Place,
        range: Range,
        n: u64,
    },
    /// Bit i of `backs`, counted anew after 64 draws, says that draw i is from the back.
    Ranges {
        at: Place,
        range: Range,
        value: bool,
        backs: u64,
    },
    Draw {
        at: Place,
        listing: Listing,
        back: bool,
    },
    Fill {
        at: Place,
        base: u64,
        n: u64,
    },
    SetRect {
        at: Place,
        rect: Rect,
        value: bool,
    },
    CountRect {
        at: Place,
        rect: Rect,
    },
    /// The square of side 2^k from a row and a column on, and how many words there are for its pieces.
    Survey {
        at: Place,
        row: u64,
        column: u64,
        k: u64,
        room: usize,
    },
    Combine {
        to: Place,
        op: Operation,
        a: Place,
        b: Place,
    },
    Not {
        to: Place,
        a: Place,
    },
    Shifted {
        to: Place,
        a: Place,
        distance: u64,
        left: bool,
    },
    Equal {
        a: Place,
        b: Place,
    },
    Load {
        to: Place,
        bytes: Vec<u8>,
    },
    /// A written set whose runs may stand in any order, and how long the two slices are: that of the outcome, that of the report.
    Mend {
        to: Place,
        bytes: Vec<u8>,
        rooms: [usize; 2],
    },
    Build {
        to: Place,
        runs: Vec<Run>,
    },
    ReadMap {
        at: Place,
        base: u64,
        n: u64,
        map: Vec<u8>,
    },
    /// About no store.
    ClearMap {
        base: u64,
        n: u64,
        map: Vec<u8>,
    },
    /// About no store: the set that bytes tell, in the other edition.
    Convert {
        bytes: Vec<u8>,
        room: usize,
    },
    /// About no world: the list of runs for a height, and how many words there are for it.
    Deepest {
        at: usize,
        height: u64,
        room: usize,
    },
    /// About no world: the words of a list of ranges, four for each, of which a last one may have fewer, and how many words there are for the
    /// places.
    WhyFull {
        at: usize,
        ranges: Vec<u64>,
        room: usize,
    },
    /// The edition by its number, as C names it, which may be any.
    Write {
        at: Place,
        edition: u64,
        room: usize,
    },
    WriteMap {
        at: Place,
        base: u64,
        n: u64,
        room: usize,
    },
    /// Records of calls, and how many words there are for the answers.
    Frame {
        at: usize,
        calls: Vec<u64>,
        room: usize,
    },
}

impl Call {
    /// The store that the call may change.
    pub fn changes(&self) -> Option<usize> {
        match *self {
            Call::New { to, .. } => Some(to),
            Call::Frame { at, .. } => Some(at),
            Call::Set { at, .. }
            | Call::Flip { at, .. }
            | Call::SetStrict { at, .. }
            | Call::FlipStrict { at, .. }
            | Call::SetRect { at, .. }
            | Call::Shift { at, .. }
            | Call::ReadMap { at, .. } => Some(at.store),
            Call::Combine { to, .. }
            | Call::Not { to, .. }
            | Call::Shifted { to, .. }
            | Call::Load { to, .. }
            | Call::Mend { to, .. }
            | Call::Build { to, .. } => Some(to.store),
            _ => None,
        }
    }

    /// Whether the call has two forms, by words and by single bytes.
    pub fn has_forms(&self) -> bool {
        matches!(self, Call::ReadMap { .. } | Call::WriteMap { .. })
    }
}

/// What a call tells. Of a listing each draw, and how it ended; of each slice how much of it was filled, and all its bytes or words; of a map
/// how many bits were zeroed, and all its bytes; of a frame each answer's record, and the words of the slice after them. A call on a map is
/// made in both forms, by words and by single bytes: where they do not agree, it is told what each told; if that is the same, they left
/// different positions.
#[derive(Debug, PartialEq)]
pub enum Told {
    Refused(Refusal),
    Done,
    Count(u128),
    Tally(Tally),
    Number(u64),
    Value(bool),
    Run(RangeInclusive<u64>),
    Position(Option<u64>),
    Drawn(Option<RangeInclusive<u64>>, Listing),
    Draws(Listing, Vec<(Option<RangeInclusive<u64>>, Listing)>),
    Slice(usize, Vec<u8>),
    Slices([(usize, Vec<u8>); 2]),
    Words(usize, Vec<u64>),
    Cleared(u64, Vec<u8>),
    Answers(Vec<Record>, Vec<u64>),
    RefusedAndChanged(Refusal),
    FormsDiffer(Box<[Told; 2]>),
}

/// A header word that is 0 in every sound store: the last one.
pub const SPARE: usize = 7;

/// What an output slice is filled with beforehand, by bytes or by words.
pub const STALE: u8 = 0xEE;
pub const STALE_WORD: u64 = u64::from_ne_bytes([STALE; 8]);

/// Whether a draw of a listing drawn to its end is from the back.
pub fn from_back(backs: u64, draw: usize) -> bool {
    backs >> (draw % 64) & 1 == 1
}

/// Whether a range is reversed. With s the first position that the lower bound allows, possibly 2^64, and e the last that the upper one
/// allows, possibly −1, it is empty if s = e + 1 and reversed if s exceeds e + 1.
pub fn is_reversed(range: Range) -> bool {
    let s = match range.0 {
        Bound::Included(x) => i128::from(x),
        Bound::Excluded(x) => i128::from(x) + 1,
        Bound::Unbounded => 0,
    };
    let e = match range.1 {
        Bound::Included(x) => i128::from(x),
        Bound::Excluded(x) => i128::from(x) - 1,
        Bound::Unbounded => i128::from(u64::MAX),
    };
    s > e + 1
}

/// The first and the last position of a range.
pub fn ends_of(range: Range) -> Option<Run> {
    let first = match range.0 {
        Bound::Included(x) => x,
        Bound::Excluded(x) => x.checked_add(1)?,
        Bound::Unbounded => 0,
    };
    let last = match range.1 {
        Bound::Included(x) => x,
        Bound::Excluded(x) => x.checked_sub(1)?,
        Bound::Unbounded => u64::MAX,
    };
    (first <= last).then_some([first, last])
}
