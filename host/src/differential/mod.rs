//! The differential run: every call on the proved library and on the oracle, a set for each world, and after every change all runs of
//! all worlds of the pool. See [`run`].
//!
//! A [`Call`] carries all its arguments, so a difference is told as a list of calls on new pools, made as short as
//! leaving calls out can make it.

pub mod calls;
pub mod chance;
pub mod expected;
pub mod library;
pub mod parts;
pub mod random;
pub mod records;
pub mod reference;
pub mod sides;

use std::fmt;
use std::time::{Duration, Instant};

use calls::{Call, Told};
use reference::{Limit, Run};
use sides::Sides;

use crate::Edition;

/// The last position, and the first of the upper half.
pub const M: u64 = u64::MAX;
pub const HALF: u64 = 1 << 63;

/// Sets to be written: none, one and several runs, at both ends and over the middle.
pub const WRITTEN: [&[Run]; 7] = [
    &[],
    &[[2, 3]],
    &[[0, M]],
    &[[0, 0], [M, M]],
    &[[2, 3], [8, 9]],
    &[[0, HALF - 1], [HALF + 1, M]],
    &[[1, 1], [3, 3], [5, 255], [257, M - 2]],
];

/// How they are written.
pub const EDITIONS: [Edition; 2] = [Edition::Rows, Edition::Columns];

/// How much is run.
#[derive(Clone, Copy, Debug)]
pub struct Options {
    /// Where the numbers by chance begin.
    pub seed: u64,
    /// How many calls the random sequences make.
    pub calls: u64,
    /// Of the exhaustive and the damaged parts one case in so many is run.
    pub stride: u64,
    /// Whether progress is told on standard error.
    pub progress: bool,
}

/// Calls on which the library and the oracle do not agree.
#[derive(Debug)]
pub struct Difference {
    part: &'static str,
    plans: Vec<Plan>,
    calls: Vec<Call>,
    told: String,
}

impl fmt::Display for Difference {
    fn fmt(&self, f: &mut fmt::Formatter) -> fmt::Result {
        writeln!(f, "unequal in part '{}', on pools of empty worlds:", self.part)?;
        for (i, plan) in self.plans.iter().enumerate() {
            writeln!(f, "   {i}: capacity {}, floors and ceilings {:?}", plan.capacity, plan.limits)?;
        }
        for (i, call) in self.calls.iter().enumerate() {
            writeln!(f, "{:4}  {call:?}", i + 1)?;
        }
        write!(f, "{}", self.told)
    }
}

/// What was compared so far.
pub struct Score {
    part: &'static str,
    progress: bool,
    began: Instant,
    told: Instant,
    /// How many calls were compared.
    pub compared: u64,
    /// How many of them were records of a frame.
    pub listed: u64,
    /// How many of them were calls on maps: each is one call here, though the library makes it in both forms.
    pub mapped: u64,
    /// How many of them were refused, by number; those that were not stand at 0.
    pub refused: [u64; 17],
}

impl Score {
    fn new(progress: bool) -> Score {
        let now = Instant::now();
        Score { part: "", progress, began: now, told: now, compared: 0, listed: 0, mapped: 0, refused: [0; 17] }
    }

    fn begin(&mut self, part: &'static str) {
        self.part = part;
        self.tell();
    }

    // Counts a call by its refusal's number, or 0.
    fn count(&mut self, refused: u64) {
        self.compared += 1;
        self.refused[refused as usize] += 1;
        if self.compared.is_multiple_of(4096) && self.told.elapsed() >= Duration::from_secs(1) {
            self.tell();
        }
    }

    fn tell(&mut self) {
        self.told = Instant::now();
        if self.progress {
            eprintln!("{:5.0} s  {:12} calls  {}", self.began.elapsed().as_secs_f64(), self.compared, self.part);
        }
    }
}

/// A pool to begin with: its capacity, and the limits of each world.
#[derive(Clone, Debug)]
pub struct Plan {
    pub capacity: usize,
    pub limits: Vec<Limit>,
}

impl Plan {
    /// One world, which has the capacity to itself.
    pub fn alone(capacity: usize) -> Plan {
        Plan { capacity, limits: vec![[0, capacity as u64]] }
    }
}

/// A sequence of calls on pools whose worlds are empty at first.
#[derive(Clone)]
pub struct Sequence {
    plans: Vec<Plan>,
    pub sides: Sides,
    calls: Vec<Call>,
}

impl Sequence {
    pub fn new(plans: Vec<Plan>) -> Sequence {
        Sequence { sides: Sides::new(&plans), plans, calls: Vec::new() }
    }

    /// On pools of one world.
    pub fn alone(capacities: &[usize]) -> Sequence {
        Sequence::new(capacities.iter().copied().map(Plan::alone).collect())
    }

    /// Makes the next call.
    pub fn call(&mut self, score: &mut Score, call: Call) -> Result<(), Difference> {
        let outside = matches!(call, Call::Lend { .. } | Call::Poke { .. });
        let stepped = self.sides.step(&call);
        score.mapped += u64::from(call.has_forms());
        self.calls.push(call);
        match stepped {
            Ok(_) if outside => Ok(()),
            Ok(Told::Refused(r)) => {
                score.count(r.number());
                Ok(())
            }
            // A frame is a call, and so is each of its records.
            Ok(told) => {
                score.count(0);
                if let Told::Answers(all, _) = told {
                    score.listed += all.len() as u64;
                    all.iter().for_each(|&[refusal, ..]| score.count(refusal));
                }
                Ok(())
            }
            Err(told) => Err(self.shortest(score.part, told)),
        }
    }

    // Leaves out calls, and then records of each frame, as long as the rest still ends in a difference.
    fn shortest(&self, part: &'static str, told: String) -> Difference {
        let mut calls = self.calls.clone();
        let mut told = told;
        shorten(&mut calls, |fewer| {
            let Some((count, why)) = unequal(&self.plans, fewer) else { return false };
            fewer.truncate(count);
            told = why;
            true
        });
        for i in 0..calls.len() {
            let Call::Frame { at, calls: words, room } = &calls[i] else { continue };
            let (at, room) = (*at, *room);
            let (asked, rest) = words.as_chunks::<{ records::WORDS }>();
            let (mut asked, rest) = (asked.to_vec(), rest.to_vec());
            shorten(&mut asked, |fewer| {
                let mut all = calls.clone();
                all[i] = Call::Frame { at, calls: [fewer.as_flattened(), &rest].concat(), room };
                let Some((_, why)) = unequal(&self.plans, &all) else { return false };
                calls = all;
                told = why;
                true
            });
        }
        Difference { part, plans: self.plans.clone(), calls, told }
    }
}

// Leaves out things, at first many at once, as long as the rest will do.
fn shorten<T: Clone>(all: &mut Vec<T>, mut will_do: impl FnMut(&mut Vec<T>) -> bool) {
    let mut piece = all.len();
    while piece > 0 {
        let mut from = 0;
        while from < all.len() {
            let mut fewer = all.clone();
            fewer.drain(from..(from + piece).min(all.len()));
            if will_do(&mut fewer) {
                *all = fewer;
            } else {
                from += piece;
            }
        }
        piece /= 2;
    }
}

// After how many calls there is a difference, and which.
fn unequal(plans: &[Plan], calls: &[Call]) -> Option<(usize, String)> {
    let mut sides = Sides::new(plans);
    calls.iter().enumerate().find_map(|(i, call)| sides.step(call).err().map(|why| (i + 1, why)))
}

/// Runs every part, and stops at the first difference.
pub fn run(options: Options) -> Result<Score, Difference> {
    let mut score = Score::new(options.progress);
    parts::exhaustive(&mut score, options)?;
    parts::makings(&mut score, options)?;
    parts::shares(&mut score, options)?;
    parts::damaged_stores(&mut score, options)?;
    parts::crafted_stores(&mut score, options)?;
    parts::wrong_lengths(&mut score, options)?;
    parts::damaged_bytes(&mut score, options)?;
    parts::mendings(&mut score, options)?;
    parts::heights(&mut score, options)?;
    parts::stopped(&mut score, options)?;
    parts::windows(&mut score, options)?;
    parts::gaps(&mut score, options)?;
    parts::grids(&mut score, options)?;
    parts::limits(&mut score, options)?;
    parts::large(&mut score, options)?;
    parts::frames(&mut score, options)?;
    parts::random(&mut score, options)?;
    score.tell();
    Ok(score)
}
