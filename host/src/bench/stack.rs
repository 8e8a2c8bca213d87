//! How much stack each exported call uses: it runs on a stack of its own that was painted before.
//!
//! Pools have the largest capacity: trees as high as can be (height 22, 46,367 runs), by their left and their right side, each made by
//! setting the runs of the list that `vizturel_deepest` gives, in its order; and an even one of 60,000 runs. Physical runs lie at 0 and
//! at M; of each tree there is one without an offset, and one whose offset joins the two, each in a pool of one world and in the last
//! world of sixteen.

use std::arch::asm;

use super::measure::{Progress, commas};
use crate::differential::EDITIONS;
use crate::differential::random::Random;
use crate::differential::records;
use crate::differential::reference::{self, Draft, Run, Shape, WORLDS, node_at, record_at};
use crate::frame::Call;
use crate::raw;
use crate::{HEIGHT, Limits, Piece, PoolBuf, Rect, SIDE, SetBuf};

const PAINT: u64 = 0xA5A5_5A5A_C3C3_3C3C;
const CAPACITY: usize = 65_536;
const WINDOW: u64 = 524_288;

// What is to be told at the end, by call.
struct Most {
    call: &'static str,
    bytes: usize,
    calls: usize,
}

// A stack of 256 KiB, and what each call used of it at the most.
struct Painted {
    memory: Vec<u64>,
    most: Vec<Most>,
}

// Runs a closure that tells its stack pointer.
extern "C" fn enter<F: FnMut() -> usize>(f: &mut F, pointer: &mut usize) {
    *pointer = f();
}

// Where the stack pointer of the function stands that this is inlined into.
#[inline(always)]
fn stack_pointer() -> usize {
    let pointer;
    // SAFETY: reads a register.
    unsafe { asm!("mov {}, rsp", out(reg) pointer, options(nomem, nostack, preserves_flags)) };
    pointer
}

impl Painted {
    fn new() -> Painted {
        Painted { memory: vec![PAINT; 32_768], most: Vec::new() }
    }

    // Makes one call. The closure tells its own stack pointer, so that only what lies below it is counted: arguments that are
    // passed on the stack, the return address, and all that the call writes.
    fn call<F: FnMut() -> usize>(&mut self, call: &'static str, mut f: F) {
        let mut pointer = 0;
        let range = self.memory.as_mut_ptr_range();
        let top = range.end as usize & !15;
        // SAFETY: `enter` follows the C calling convention, gets its two arguments and an aligned stack that nothing else uses, and
        // the stack pointer is put back from a register that it has to keep. Nothing below unwinds: exported calls do not, and the
        // closures only make one.
        unsafe {
            asm!(
                "mov r12, rsp",
                "mov rsp, {top}",
                "call {enter}",
                "mov rsp, r12",
                top = in(reg) top,
                enter = in(reg) enter::<F> as extern "C" fn(&mut F, &mut usize),
                in("rdi") &mut f,
                in("rsi") &mut pointer,
                out("r12") _,
                clobber_abi("C"),
            );
        }
        let touched = self.memory.iter().position(|w| *w != PAINT).unwrap_or(self.memory.len());
        assert!(touched > 1024, "{call} used nearly all of the stack");
        let bytes = pointer - (range.start as usize + 8 * touched);
        self.memory[touched..].fill(PAINT);
        match self.most.iter_mut().find(|m| m.call == call) {
            Some(m) => {
                m.bytes = m.bytes.max(bytes);
                m.calls += 1;
            }
            None => self.most.push(Most { call, bytes, calls: 1 }),
        }
    }
}

// Makes one exported call on the painted stack; its answer has to begin with no refusal.
macro_rules! on_stack {
    ($painted:expr, $name:ident($($argument:expr),*)) => {{
        let mut refusal = u64::MAX;
        $painted.call(stringify!($name), || {
            let pointer = stack_pointer();
            // SAFETY: the slices of the arguments are lent for the call, and those that it writes do not overlap others.
            refusal = unsafe { raw::$name($($argument),*) };
            pointer
        });
        assert_eq!(refusal, 0, stringify!($name));
    }};
}

// Everything, the first and the last run and the gap beside each, all between them, and some ranges around a run.
fn ranges(runs: &[Run], random: &mut Random) -> Vec<[u64; 2]> {
    let n = runs.len();
    let (first, last) = (runs[0], runs[n - 1]);
    let gaps = [[first[1] + 1, runs[1][0] - 1], [runs[n - 2][1] + 1, last[0] - 1]];
    let mut all = vec![[0, u64::MAX], [first[0], last[1]], first, last, gaps[0], gaps[1], [first[1] + 1, last[0] - 1]];
    for _ in 0..12 {
        let [start, end] = random.one_of(runs);
        let [other, _] = random.one_of(runs);
        // A run away, cut at either side, cut in two, grown, joined with the next; one beside it; all up to another.
        all.extend([
            [start, end],
            [start, start],
            [end, end],
            [start + 1, end - 1],
            [end.saturating_add(1), end.saturating_add(1)],
            [end.saturating_add(1), end.saturating_add(6)],
            [end.saturating_add(3), end.saturating_add(3)],
            [start.min(other), start.max(other)],
        ]);
    }
    all
}

// The limits of each world.
const LIMIT: [u64; 2] = [0, u64::MAX];

// A pool of which the last world has a tree as high as can be, the others none. The list tells in which order the runs are set; its run of
// rank k is the kth of those given, or the kth from behind where the right sides are to be the higher ones. They are physical: the root, which
// is set first, is shifted by the offset, and the others are set where it puts them.
fn deepest_pool(physical: &[Run], offset: u64, left: bool, worlds: usize) -> Vec<u64> {
    let mut pool = PoolBuf::with_capacity(CAPACITY, &vec![Limits::NONE; worlds]).expect("worlds");
    let mut list = vec![[0; 2]; physical.len()];
    let list = pool.deepest(HEIGHT, &mut list).expect("a height");
    let mut rising = list.to_vec();
    rising.sort_unstable();
    let ranks = list.iter().map(|run| rising.binary_search(run).expect("it is one of them"));
    let mut runs = ranks.map(|rank| physical[if left { rank } else { physical.len() - 1 - rank }]);
    let [start, end] = runs.next().expect("a root");
    let mut calls = vec![Call::set(start..=end, true), Call::Shift { distance: offset, left: true }];
    calls.extend(runs.map(|run| run.map(|x| x.wrapping_add(offset))).map(|[s, e]| Call::set(s..=e, true)));
    let world = worlds as u64 - 1;
    let told = pool.frame(&calls.into_iter().map(|call| (world, call)).collect::<Vec<_>>());
    assert!(told.expect("a sound pool").iter().all(Result::is_ok));
    let words = pool.into_words();
    let record = record_at(worlds - 1);
    let root = words[record] as usize;
    assert_eq!((words[record + 1], words[node_at(root) + 4]), (offset, HEIGHT));
    words
}

// The same with an even tree.
fn even_pool(physical: &[Run], offset: u64, worlds: usize, random: &mut Random) -> Vec<u64> {
    let mut drafts: Vec<Draft> = (1..worlds).map(|_| Draft { physical: Vec::new(), offset: 0, limit: LIMIT }).collect();
    drafts.push(Draft { physical: physical.to_vec(), offset, limit: LIMIT });
    reference::craft(CAPACITY, &drafts, Shape::Even, random)
}

// Every call at the last world of a pool, which has these runs; the others are empty.
fn measure_on(painted: &mut Painted, words: &[u64], runs: &[Run], worlds: usize, random: &mut Random) {
    let i = worlds as u64 - 1;
    let n = words.len();
    let p = words.as_ptr();
    let mut changed = words.to_vec();
    let c = changed.as_mut_ptr();
    let mut spare = SetBuf::with_capacity(CAPACITY).expect("a capacity").into_words();
    let s = spare.as_mut_ptr();
    let mut answer = [0; 8];
    let a = answer.as_mut_ptr();

    for [first, last] in ranges(runs, random) {
        for value in [0, 1] {
            on_stack!(painted, vizturel_abi_find(p, n, i, 1, first, 1, last, value, a));
            on_stack!(painted, vizturel_abi_tally(p, n, i, 1, first, 1, last, value, a));
            on_stack!(painted, vizturel_abi_select(p, n, i, 1, first, 1, last, value, (last - first) / 4, a));
            on_stack!(painted, vizturel_abi_ranges(p, n, i, 1, first, 1, last, value, a));
            on_stack!(painted, vizturel_abi_draw_front(p, n, i, first, last, value, a));
            on_stack!(painted, vizturel_abi_draw_back(p, n, i, first, last, value, a));
            on_stack!(painted, vizturel_abi_set(c, n, i, 1, first, 1, last, value, a));
            changed.copy_from_slice(words);
        }
        // One that fits nearly everywhere, one that fits between no two runs, and one that fits only where all is free.
        for length in [1, 7, (last - first).saturating_add(1)] {
            on_stack!(painted, vizturel_abi_gap(p, n, i, 1, first, 1, last, length, a));
        }
        on_stack!(painted, vizturel_abi_get(p, n, i, first, a));
        on_stack!(painted, vizturel_abi_run_at(p, n, i, first, a));
        on_stack!(painted, vizturel_abi_fill(p, n, i, first.min(1 << 63), WINDOW, a));
        // A flip of many runs takes long, and those of few go by the same way.
        if last - first < 100 {
            on_stack!(painted, vizturel_abi_flip(c, n, i, 1, first, 1, last));
            changed.copy_from_slice(words);
        }
    }
    on_stack!(painted, vizturel_abi_flip(c, n, i, 1, 0, 1, u64::MAX));
    for [first, last] in ranges(runs, random).into_iter().step_by(4) {
        // Lists of one call, of every kind.
        for call in 0..=records::LAST {
            changed.copy_from_slice(words);
            let upper = if call == 13 { WINDOW } else { last };
            let k = if call == 14 { 7 } else { 0 };
            let record = match call {
                // A rectangle of some rows, in which most of the lower runs lie.
                19 | 20 => [call, 0, first % SIDE, 40, SIDE - 1, random.below(2), k, i],
                _ => [call, 1, first, 1, upper, random.below(2), k, i],
            };
            on_stack!(painted, vizturel_abi_frame(c, n, record.as_ptr(), 8, a, 8));
        }
    }
    let half = runs[runs.len() / 2][0];
    for (distance, left) in [(1, 1), (1, 0), (half, 0), (u64::MAX - half, 1), (u64::MAX, 1)] {
        changed.copy_from_slice(words);
        on_stack!(painted, vizturel_abi_shift(c, n, i, distance, left));
        on_stack!(painted, vizturel_abi_shifted(s, n, 0, distance, left, p, n, i));
    }
    changed.copy_from_slice(words);
    on_stack!(painted, vizturel_abi_shift(c, n, i, 1, 0));
    for op in 0..3 {
        on_stack!(painted, vizturel_abi_combine(s, n, 0, op, p, n, i, p, n, i));
    }
    on_stack!(painted, vizturel_abi_eq(p, n, i, p, n, i, a));
    on_stack!(painted, vizturel_abi_eq(p, n, i, c, n, i, a));
    on_stack!(painted, vizturel_abi_not(s, n, 0, p, n, i));

    let mut bytes = vec![0; 5 + 16 * CAPACITY];
    let mut other = bytes.clone();
    let written = 5 + 16 * runs.len();
    for edition in [1, 2] {
        on_stack!(painted, vizturel_abi_write(p, n, i, edition, bytes.as_mut_ptr(), bytes.len(), a));
        on_stack!(painted, vizturel_abi_load(s, n, 0, bytes.as_ptr(), written));
        on_stack!(painted, vizturel_abi_convert(bytes.as_ptr(), written, other.as_mut_ptr(), other.len(), a));
    }
    // As it stands, which is copied, and with the runs in any order.
    let mut mixed = runs.to_vec();
    random.shuffle(&mut mixed);
    for edition in EDITIONS {
        for list in [runs, &mixed] {
            let set = reference::encode(edition, list);
            let (from, to, report) = (set.as_ptr(), other.as_mut_ptr(), bytes.as_mut_ptr());
            on_stack!(painted, vizturel_abi_mend(s, n, 0, from, set.len(), to, other.len(), report, bytes.len(), a));
        }
    }
    // Rectangles and squares that most of the lower runs lie in, and others.
    let mut pieces = vec![0; Piece::WORDS << 16];
    for (row, column) in [(0, 0), (3, 7), (SIDE - 256, SIDE - 256)] {
        let rect = Rect::new((row, column), (row + 255, column + 200));
        on_stack!(painted, vizturel_abi_count_rect(p, n, i, rect.top, rect.left, rect.bottom, rect.right, a));
        for value in [0, 1] {
            changed.copy_from_slice(words);
            on_stack!(painted, vizturel_abi_set_rect(c, n, i, rect.top, rect.left, rect.bottom, rect.right, value, a));
        }
        on_stack!(painted, vizturel_abi_survey(p, n, i, row, column, 8, pieces.as_mut_ptr(), pieces.len(), a));
    }
    let list = runs.as_flattened();
    on_stack!(painted, vizturel_abi_build(s, n, 0, list.as_ptr(), list.len()));
    let mut heights = vec![0; 2 * CAPACITY];
    on_stack!(painted, vizturel_abi_deepest(p, n, HEIGHT, heights.as_mut_ptr(), heights.len(), a));
    // A list that is refused with its last range, in more than one part; of the pool only the length is asked, so some of its words will do.
    let spawns: Vec<u64> = mixed[..1_300].iter().flat_map(|&[start, end]| [1, start, 1, end]).collect();
    let mut places = vec![0; 1_300];
    let (from, to) = (spawns.as_ptr(), places.as_mut_ptr());
    on_stack!(painted, vizturel_abi_why_full(p, crate::words(1_299), from, spawns.len(), to, places.len(), a));
    let limits = [LIMIT; WORLDS];
    on_stack!(painted, vizturel_abi_new(s, n, limits.as_flattened().as_ptr(), 2 * worlds));
    let mut map = vec![0; WINDOW as usize / 8];
    on_stack!(painted, vizturel_abi_clear_map(0, WINDOW - 3, map.as_mut_ptr(), map.len(), a));
    for base in [runs[0][0], runs[runs.len() - 1][1].saturating_sub(WINDOW - 1)] {
        on_stack!(painted, vizturel_abi_write_map_by_bytes(p, n, i, base, WINDOW, map.as_mut_ptr(), map.len(), a));
        on_stack!(painted, vizturel_abi_write_map(p, n, i, base, WINDOW, map.as_mut_ptr(), map.len(), a));
        // All runs away in the window, one position away, and one more there.
        for (byte, bits) in [(0, 0xFF), (map.len() / 2, 0xFF), (map.len() / 3, 1)] {
            let mut other = if byte == 0 { vec![0; map.len()] } else { map.clone() };
            other[byte] ^= bits;
            changed.copy_from_slice(words);
            on_stack!(painted, vizturel_abi_read_map(c, n, i, base, WINDOW, other.as_ptr(), other.len(), a));
            changed.copy_from_slice(words);
            on_stack!(painted, vizturel_abi_read_map_by_bytes(c, n, i, base, WINDOW, other.as_ptr(), other.len(), a));
        }
    }
}

/// Prints a table of the most bytes of stack that each exported call used.
pub fn tell(progress: &Progress) {
    let mut random = Random::new(1);
    let mut painted = Painted::new();
    let [deepest, _] = reference::least(HEIGHT as u32);
    // By which side a tree is the higher one, if by any.
    for (count, higher) in [(deepest, Some(true)), (deepest, Some(false)), (60_000, None)] {
        // Two thirds of the runs from 0 on, the roots among them, the others up to M.
        let low = (0..2 * count / 3).map(|i| [12 * i, 12 * i + 5]);
        let high = (2 * count / 3..count).map(|i| u64::MAX - 12 * (count - 1 - i)).map(|end| [end - 5, end]);
        let physical: Vec<Run> = low.chain(high).collect();
        for (offset, worlds) in [(0, 1), (12 * count, 1), (0, WORLDS), (12 * count, WORLDS)] {
            progress.tell(&format!("stack, {count} runs, offset {offset}, {worlds} worlds"));
            let words = match higher {
                Some(left) => deepest_pool(&physical, offset, left, worlds),
                None => even_pool(&physical, offset, worlds, &mut random),
            };
            measure_on(&mut painted, &words, &reference::logical(&physical, offset), worlds, &mut random);
        }
    }
    painted.most.sort_by_key(|m| (std::cmp::Reverse(m.bytes), m.call));
    println!("| exported call | most bytes of stack | calls |\n|---|---|---|");
    for m in &painted.most {
        println!("| `{}` | {} | {} |", m.call, commas(m.bytes.to_string()), m.calls);
    }
    println!();
}
