//! A small match, frame by frame, for `make run`: builds that are fed the same calls must deal the same slots.
//!
//! A server has four arenas, which are worlds of one pool: each is sure of its floor of runs, and what is left goes to whichever needs it
//! first. Whatever is spawned gets the lowest free slot of its arena, and a block of neighbouring bodies the lowest gap that is long enough.
//! At one frame a late player is admitted from written sets alone, and the Rust build starts anew from the same bytes. Everything is fixed
//! beforehand: two runs print the same.

use std::fmt;
use std::io::{self, Write};
use std::ops::RangeInclusive;

use crate::differential::random::Random;
use crate::differential::reference;
use crate::oracle::IntervalBitSet;
use crate::{Answer, Edition, Limits, PoolBuf, Refusal};

const FRAMES: u32 = 26;
/// The frame before whose calls the late player is admitted.
const ADMISSION: u32 = 12;
const SEED: u64 = 386;

/// How many runs the arenas have together, at the most.
pub const CAPACITY: usize = 16;
/// An arena, by its number: a world of the pool.
pub type Arena = usize;
const ARENAS: [&str; 4] = ["north", "east", "south", "west"];
const LIMITS: [Limits; ARENAS.len()] = [
    Limits { floor: 4, ceiling: 8 },
    Limits { floor: 2, ceiling: 4 },
    Limits { floor: 4, ceiling: 8 },
    Limits { floor: 0, ceiling: 8 },
];
/// Where blocks may lie, in every arena.
const BLOCKS: RangeInclusive<u64> = 0..=31;
/// The arenas of a build as written sets.
pub type Written = [Vec<u8>; ARENAS.len()];

/// What a frame asks of every build.
#[derive(Clone, Debug)]
pub enum Call {
    /// Deals the lowest free slot.
    Spawn(Arena),
    /// Places a block of so many neighbouring bodies in the lowest gap of `BLOCKS`, if there is one.
    Block(Arena, u64),
    /// Frees the slot in use that has so many in use below it, if there is one.
    Despawn(Arena, u64),
    /// Takes or frees a whole range.
    Set(Arena, RangeInclusive<u64>, bool),
    /// Frees what is in use in a range, and takes what is free.
    Flip(Arena, RangeInclusive<u64>),
    /// Moves every slot in use up or down.
    Shift(Arena, u64, bool),
}

impl Call {
    fn arena(&self) -> Arena {
        let (Call::Spawn(i)
        | Call::Block(i, _)
        | Call::Despawn(i, _)
        | Call::Set(i, ..)
        | Call::Flip(i, _)
        | Call::Shift(i, ..)) = *self;
        i
    }

    // The slots that a call deals or frees, of which it answers the first.
    fn slots_from(&self, first: u64) -> RangeInclusive<u64> {
        let more = if let Call::Block(_, n) = self { n - 1 } else { 0 };
        first..=first + more
    }
}

fn part(range: &RangeInclusive<u64>) -> String {
    match range.end() {
        &u64::MAX => format!("from {}", range.start()),
        end => format!("{}-{end}", range.start()),
    }
}

impl fmt::Display for Call {
    fn fmt(&self, f: &mut fmt::Formatter) -> fmt::Result {
        let name = ARENAS[self.arena()];
        match self {
            Call::Spawn(_) => write!(f, "spawn in {name}"),
            Call::Block(_, n) => write!(f, "block of {n} in {name}"),
            Call::Despawn(_, k) => write!(f, "despawn {k} of {name}"),
            Call::Set(_, r, true) => write!(f, "{name} {} taken", part(r)),
            Call::Set(_, r, false) => write!(f, "{name} {} freed", part(r)),
            Call::Flip(_, r) => write!(f, "{name} {} flipped", part(r)),
            Call::Shift(_, d, up) => write!(f, "{name} {} by {d}", if *up { "up" } else { "down" }),
        }
    }
}

/// One player's build of the slot allocator.
pub trait Build {
    /// Makes a call; the slot that was dealt or freed by [`Call::Spawn`] or [`Call::Despawn`], the first one of a [`Call::Block`].
    fn call(&mut self, call: &Call) -> Answer<Option<u64>>;
    /// How many runs each arena has.
    fn runs(&self) -> Answer<[u64; ARENAS.len()]>;
    /// The arenas as written sets.
    fn write(&self) -> Answer<Written>;
    /// Starts anew from written sets.
    fn load(&mut self, written: &Written) -> Answer<()>;
}

/// The proved library: one pool.
pub struct Library {
    pool: PoolBuf,
}

impl Library {
    pub fn with_capacity(capacity: usize) -> Answer<Library> {
        Ok(Library { pool: PoolBuf::with_capacity(capacity, &LIMITS)? })
    }
}

impl Build for Library {
    fn call(&mut self, call: &Call) -> Answer<Option<u64>> {
        let mut arena = self.pool.world_mut(call.arena() as u64);
        let slot = match *call {
            Call::Spawn(_) => arena.find(.., false)?,
            Call::Block(_, n) => arena.gap(BLOCKS, n)?,
            Call::Despawn(_, k) => arena.select(.., true, k)?,
            _ => None,
        };
        match call {
            Call::Spawn(_) | Call::Block(..) | Call::Despawn(..) => {
                if let Some(x) = slot {
                    arena.set(call.slots_from(x), !matches!(call, Call::Despawn(..)))?;
                }
            }
            Call::Set(_, range, value) => {
                arena.set(range.clone(), *value)?;
            }
            Call::Flip(_, range) => arena.flip(range.clone())?,
            Call::Shift(_, distance, up) => arena.shift(*distance, *up)?,
        }
        Ok(slot)
    }

    fn runs(&self) -> Answer<[u64; ARENAS.len()]> {
        let mut runs = [0; ARENAS.len()];
        for (i, runs) in runs.iter_mut().enumerate() {
            *runs = self.pool.world(i as u64).tally(.., true)?.runs;
        }
        Ok(runs)
    }

    fn write(&self) -> Answer<Written> {
        let mut written = Written::default();
        for (i, bytes) in written.iter_mut().enumerate() {
            let mut out = [0; 5 + 16 * CAPACITY];
            *bytes = self.pool.world(i as u64).write(Edition::Rows, &mut out)?.to_vec();
        }
        Ok(written)
    }

    fn load(&mut self, written: &Written) -> Answer<()> {
        // No arena is in the way of another: what does not stand in the bytes, capacity and limits, was told before.
        *self = Library::with_capacity(CAPACITY)?;
        for (i, bytes) in written.iter().enumerate() {
            self.pool.world_mut(i as u64).load(bytes)?;
        }
        Ok(())
    }
}

/// The published IntervalBitSet: one for each arena. It refuses nothing, so the limits are kept beside it.
#[derive(Default)]
pub struct Rust {
    arenas: [IntervalBitSet; ARENAS.len()],
}

// The oracle's positions are usize, which is 64 bits wide here.
fn slots(range: &RangeInclusive<u64>) -> RangeInclusive<usize> {
    *range.start() as usize..=*range.end() as usize
}

fn runs_of(arena: &IntervalBitSet) -> u64 {
    arena.ranges(.., true).count() as u64
}

// What the arenas other than this one claim of the pool: the larger of runs and floor, each.
fn others_claim(runs: &[u64; ARENAS.len()], arena: Arena) -> u64 {
    (0..ARENAS.len()).filter(|&i| i != arena).map(|i| runs[i].max(LIMITS[i].floor)).sum()
}

impl Build for Rust {
    fn call(&mut self, call: &Call) -> Answer<Option<u64>> {
        let i = call.arena();
        let mut arena = self.arenas[i].clone();
        let slot = match *call {
            Call::Spawn(_) => arena.find(.., false),
            // It has no such call: the lowest gap starts with the first free run that is long enough.
            Call::Block(_, n) => {
                let mut free = arena.ranges(slots(&BLOCKS), false);
                free.find(|run| run.end() - run.start() >= n as usize - 1).map(|run| *run.start())
            }
            Call::Despawn(_, k) => arena.select(.., true, u128::from(k)),
            _ => None,
        };
        match call {
            Call::Spawn(_) | Call::Block(..) | Call::Despawn(..) => {
                if let Some(x) = slot {
                    arena.set(slots(&call.slots_from(x as u64)), !matches!(call, Call::Despawn(..)));
                }
            }
            Call::Set(_, range, value) => {
                arena.set(slots(range), *value);
            }
            Call::Flip(_, range) => arena.flip(slots(range)),
            Call::Shift(_, distance, true) => arena <<= *distance as usize,
            Call::Shift(_, distance, false) => arena >>= *distance as usize,
        }
        let (runs, Limits { floor, ceiling }) = (runs_of(&arena), LIMITS[i]);
        if runs > ceiling || runs.max(floor) + others_claim(&self.runs()?, i) > CAPACITY as u64 {
            return Err(Refusal::Capacity);
        }
        self.arenas[i] = arena;
        Ok(slot.map(|x| x as u64))
    }

    fn runs(&self) -> Answer<[u64; ARENAS.len()]> {
        Ok(self.arenas.each_ref().map(runs_of))
    }

    fn write(&self) -> Answer<Written> {
        Ok(self.arenas.each_ref().map(|arena| {
            let runs: Vec<_> = arena.ranges(.., true).map(|r| [*r.start() as u64, *r.end() as u64]).collect();
            reference::encode(Edition::Rows, &runs)
        }))
    }

    fn load(&mut self, written: &Written) -> Answer<()> {
        for (arena, bytes) in self.arenas.iter_mut().zip(written) {
            *arena = IntervalBitSet::new();
            let (_, runs) = reference::decode(bytes)?;
            for [start, end] in runs {
                arena.set(slots(&(start..=end)), true);
            }
        }
        Ok(())
    }
}

// The calls of a frame: what happens to a whole range, what is freed, which block is placed, what is spawned. In some frames eight bodies of one arena leave instead,
// every second one, so that each leaves a run more behind it.
fn frame(number: u32, random: &mut Random) -> Vec<Call> {
    let [north, east, south, west] = [0, 1, 2, 3];
    let leaving = |arena| (1..=8).map(|k| Call::Despawn(arena, k)).collect();
    let range = match number {
        4 | 21 => return leaving(north),
        6 => return leaving(south),
        20 => return leaving(west),
        3 | 19 => Some(Call::Set(north, 0..=19, true)),
        5 => Some(Call::Set(south, 0..=19, true)),
        7 => Some(Call::Set(north, 0..=u64::MAX, false)),
        9 => Some(Call::Shift(east, 4, true)),
        11 => Some(Call::Flip(west, 3..=11)),
        14 => Some(Call::Shift(south, 5, false)),
        16 => Some(Call::Flip(east, 1..=u64::MAX)),
        18 => Some(Call::Set(west, 0..=19, true)),
        23 => Some(Call::Shift(west, 21, false)),
        25 => Some(Call::Set(north, 4..=15, false)),
        _ => None,
    };
    let mut calls: Vec<Call> = range.into_iter().collect();
    for arena in [north, east, south, west] {
        if number > 1 && random.once_in(3) {
            calls.push(Call::Despawn(arena, random.below(16)));
        }
    }
    calls.extend(match number {
        2 => Some(Call::Block(north, 3)),
        8 => Some(Call::Block(south, 4)),
        10 => Some(Call::Block(east, 3)),
        12 => Some(Call::Block(west, 4)),
        13 => Some(Call::Block(north, 5)),
        15 => Some(Call::Block(south, 2)),
        17 => Some(Call::Block(east, 3)),
        22 => Some(Call::Block(west, 6)),
        24 => Some(Call::Block(south, 3)),
        25 => Some(Call::Block(south, 6)),
        26 => Some(Call::Block(north, 4)),
        _ => None,
    });
    let spawned = if number == 1 { [8, 3, 6, 4] } else { [0; ARENAS.len()].map(|_: u64| random.below(3)) };
    for (arena, count) in spawned.into_iter().enumerate() {
        calls.extend((0..count).map(|_| Call::Spawn(arena)));
    }
    calls
}

// Slots that were dealt or freed: one, or those of a block.
#[derive(Clone)]
struct Dealt {
    arena: Arena,
    slots: RangeInclusive<u64>,
    block: bool,
}

// What a call dealt or freed, by its answer.
fn dealt_by(call: &Call, answer: &Answer<Option<u64>>) -> Option<Dealt> {
    let slots = call.slots_from(answer.ok().flatten()?);
    Some(Dealt { arena: call.arena(), slots, block: matches!(call, Call::Block(..)) })
}

// Slots as text, for each arena its first letter and the slots in the order dealt, a block in brackets: n0-7 e0-2 s0,[4-6].
fn told(all: &[Dealt]) -> String {
    let mut words = Vec::new();
    for (arena, name) in ARENAS.iter().enumerate() {
        // Neighbours that were dealt one after the other stand together.
        let mut stretches: Vec<Dealt> = Vec::new();
        for dealt in all.iter().filter(|d| d.arena == arena) {
            let (first, last) = (*dealt.slots.start(), *dealt.slots.end());
            match stretches.last_mut() {
                Some(d) if !d.block && !dealt.block && d.slots.end().checked_add(1) == Some(first) => {
                    d.slots = *d.slots.start()..=last;
                }
                _ => stretches.push(dealt.clone()),
            }
        }
        let stretch = |d: &Dealt| {
            let (start, end) = (d.slots.start(), d.slots.end());
            let slots = if start == end { start.to_string() } else { format!("{start}-{end}") };
            if d.block { format!("[{slots}]") } else { slots }
        };
        if !stretches.is_empty() {
            let each: Vec<String> = stretches.iter().map(stretch).collect();
            words.push(format!("{}{}", &name[..1], each.join(",")));
        }
    }
    words.join(" ")
}

/// How a match ended in which all builds dealt the same.
#[derive(Debug, PartialEq, Eq)]
pub struct Ending {
    /// How many slots the first build dealt; so did the others, as long as they were there.
    pub dealt: usize,
    /// How many blocks some of them were dealt in.
    pub blocks: usize,
    /// How many calls were refused with 8, by all builds.
    pub refused: usize,
    /// How many bytes the late player was admitted from.
    pub bytes: usize,
}

/// Why a match was not played to its end.
#[derive(Debug)]
pub enum Failure {
    /// The builds do not agree.
    Unequal { frame: u32, what: String },
    /// An arena was refused a run that its floor keeps for it.
    Floor { frame: u32, what: String },
    /// The match could not be printed.
    Print(io::Error),
}

impl std::error::Error for Failure {}

impl From<io::Error> for Failure {
    fn from(error: io::Error) -> Failure {
        Failure::Print(error)
    }
}

impl fmt::Display for Failure {
    fn fmt(&self, f: &mut fmt::Formatter) -> fmt::Result {
        match self {
            Failure::Unequal { frame, what } => write!(f, "frame {frame}: the builds differ: {what}"),
            Failure::Floor { frame, what } => write!(f, "frame {frame}: refused below its floor: {what}"),
            Failure::Print(error) => write!(f, "{error}"),
        }
    }
}

const NAMES: [&str; 3] = ["library", "Rust", "late player"];

// What all builds answered, if it is the same.
fn agreed<T: PartialEq + fmt::Debug>(
    frame: u32,
    what: impl fmt::Display,
    answers: impl IntoIterator<Item = Answer<T>>,
) -> Result<Answer<T>, Failure> {
    let answers: Vec<_> = answers.into_iter().collect();
    let same = answers.iter().all(|a| *a == answers[0]);
    let each: Vec<_> = NAMES.iter().zip(&answers).map(|(name, a)| format!("{name} {a:?}")).collect();
    match answers.into_iter().next() {
        Some(answer) if same => Ok(answer),
        _ => Err(Failure::Unequal { frame, what: format!("{what}: {}", each.join(", ")) }),
    }
}

// The same where none may refuse.
fn done<T: PartialEq + fmt::Debug>(
    frame: u32,
    what: &str,
    answers: impl IntoIterator<Item = Answer<T>>,
) -> Result<T, Failure> {
    agreed(frame, what, answers)?.map_err(|r| Failure::Unequal { frame, what: format!("{what}: {r}") })
}

fn row(
    out: &mut impl Write,
    frame: impl fmt::Display,
    range: &str,
    freed: &str,
    cells: impl IntoIterator<Item = String>,
) -> io::Result<()> {
    let mut line = format!("{frame:>5}  {range:<19} {freed:<24}");
    for cell in cells {
        line += &format!(" {cell:<22}");
    }
    writeln!(out, "{}", line.trim_end())
}

// How many calls of an arena were refused with 8, and why the first was: the runs of all arenas then.
fn refusal(arena: Arena, count: usize, runs: &[u64; ARENAS.len()]) -> String {
    let (name, Limits { floor, ceiling }, own) = (ARENAS[arena], LIMITS[arena], runs[arena]);
    let why = if own == ceiling {
        format!("{own} runs are its ceiling")
    } else {
        let sure = if own == floor { "its floor of " } else { "" };
        format!("it has {sure}{own} runs, and the others claim {} of {CAPACITY}", others_claim(runs, arena))
    };
    format!("{name}: {count} refused with 8; {why}")
}

/// Plays the match and prints it: between the first two builds, and from the admission on the third too. The second starts anew there.
pub fn play(out: &mut impl Write, mut builds: [&mut dyn Build; 3]) -> Result<Ending, Failure> {
    let mut ending = Ending { dealt: 0, blocks: 0, refused: 0, bytes: 0 };
    let mut random = Random::new(SEED);
    let mut here = 2;
    writeln!(
        out,
        "A match of {FRAMES} frames in four arenas, whose slots in use are kept in one pool of {CAPACITY} runs:"
    )?;
    let limits = |(name, Limits { floor, ceiling }): (&&str, &Limits)| format!("{name} {floor} to {ceiling}");
    let each: Vec<String> = ARENAS.iter().zip(&LIMITS).map(limits).collect();
    writeln!(out, "{} (floor to ceiling). Every build is fed the same calls: what", each.join(", "))?;
    writeln!(
        out,
        "happens to a whole range, what is freed, what is spawned, which gets the lowest free slot of its arena, and where a"
    )?;
    writeln!(
        out,
        "block of neighbours is placed: in the lowest gap of slots {} to {} that is long enough, shown in brackets.",
        BLOCKS.start(),
        BLOCKS.end()
    )?;
    writeln!(out)?;
    row(out, "frame", "whole range", "freed", NAMES.map(|name| format!("dealt: {name}")))?;
    for number in 1..=FRAMES {
        if number == ADMISSION {
            let written = done(number, "the written sets", builds[..here].iter().map(|b| b.write()))?;
            done(number, "loading the written sets", builds[1..].iter_mut().map(|b| b.load(&written)))?;
            here = builds.len();
            ending.bytes = written.iter().map(Vec::len).sum();
            writeln!(
                out,
                "       A late player is admitted from the library's written sets, {} bytes in all,",
                ending.bytes
            )?;
            writeln!(out, "       and the Rust starts anew from the same bytes.")?;
        }
        let mut freed = Vec::new();
        let mut range = String::new();
        let mut dealt = vec![Vec::new(); here];
        let mut unplaced = None;
        let mut refused = [(0, [0; ARENAS.len()]); ARENAS.len()];
        let mut outcome = Ok(());
        for call in frame(number, &mut random) {
            let arena = call.arena();
            let answers: Vec<_> = builds[..here].iter_mut().map(|b| b.call(&call)).collect();
            match call {
                Call::Spawn(_) | Call::Block(..) => {
                    for (dealt, answer) in dealt.iter_mut().zip(&answers) {
                        dealt.extend(dealt_by(&call, answer));
                    }
                }
                Call::Despawn(..) => freed.extend(dealt_by(&call, &answers[0])),
                _ => range = call.to_string(),
            }
            if let (Call::Block(_, n), Ok(None)) = (&call, answers[0]) {
                unplaced = Some(format!("{}: no gap of {n}, so the block is not placed", ARENAS[arena]));
            }
            outcome = agreed(number, &call, answers).and_then(|answer| match answer {
                Ok(_) => Ok(()),
                Err(Refusal::Capacity) => {
                    let runs = done(number, "the runs", builds[..here].iter().map(|b| b.runs()))?;
                    let (count, first) = &mut refused[arena];
                    *first = if *count == 0 { runs } else { *first };
                    *count += 1;
                    let kept = runs[arena] < LIMITS[arena].floor;
                    if kept { Err(Failure::Floor { frame: number, what: call.to_string() }) } else { Ok(()) }
                }
                Err(r) => Err(Failure::Unequal { frame: number, what: format!("{call}: {r}") }),
            });
            if outcome.is_err() {
                break;
            }
        }
        ending.dealt += dealt[0].iter().map(|d| d.slots.clone().count()).sum::<usize>();
        ending.blocks += dealt[0].iter().filter(|d| d.block).count();
        row(out, number, &range, &told(&freed), dealt.iter().map(|d| told(d)))?;
        outcome?;
        if let Some(why) = unplaced {
            writeln!(out, "       {why}")?;
        }
        for (arena, (count, runs)) in refused.iter().enumerate().filter(|(_, (count, _))| *count > 0) {
            writeln!(out, "       {}", refusal(arena, *count, runs))?;
            ending.refused += count;
        }
    }
    done(FRAMES, "the written sets at the end", builds.iter().map(|b| b.write()))?;
    writeln!(out)?;
    let Ending { dealt, blocks, refused, bytes } = ending;
    writeln!(out, "{refused} calls refused with 8, none below its arena's floor")?;
    writeln!(
        out,
        "{dealt} slots dealt, those of {blocks} blocks among them, equal in all builds; written sets of {bytes} bytes admitted the late player"
    )?;
    Ok(ending)
}
