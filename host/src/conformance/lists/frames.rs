//! Lists of calls at once: records of every kind and at several worlds, withdrawn numbers, words that are not read, and refusals of the whole and of
//! single calls.

use super::{HALF, M};
use crate::conformance::{CALLS, List, text};
use crate::differential::calls::{Call, Place};
use crate::differential::chance;
use crate::differential::random::Random;
use crate::differential::records::{self, Record};
use crate::differential::reference::Limit;

// The records of calls that are written as lines.
fn of(lines: &str) -> Vec<Record> {
    let mut lines = lines.lines().map(str::trim).filter(|line| !line.is_empty()).peekable();
    let mut all = Vec::new();
    while let Some(&line) = lines.peek() {
        let call = text::read(&mut lines).unwrap_or_else(|| panic!("no call: {line}"));
        all.push(records::record_of(&call).unwrap_or_else(|| panic!("no record is: {line}")));
    }
    all
}

impl List {
    // A frame on store 0, with room for so many answers.
    fn frame(&mut self, asked: &[Record], room: usize) {
        let calls = asked.as_flattened().to_vec();
        self.call(&Call::Frame { at: 0, calls, room: records::WORDS * room });
    }

    // A frame with just the room that is due, and the worlds after it.
    fn play(&mut self, asked: &[Record]) {
        self.frame(asked, asked.len());
        self.show_all(0);
    }
}

// Every kind of call on a world, some of them refused where it has room for two runs.
fn every_kind(world: u64) -> Vec<Record> {
    let lines = format!(
        "set AT i2 e8 1
        set AT i10 i14 1
        set AT i12 i12 0
        get AT 7
        get AT 8
        run_at AT 4
        run_at AT 9
        run_at AT {M}
        find AT i4 u 0
        find AT i2 e8 0
        tally AT u u 1
        tally AT e2 e12 0
        select AT i4 e12 1 5
        select AT i4 e12 1 6
        tally AT i4 e12 1
        gap AT i1 u 2
        gap AT i1 e11 3
        gap AT i1 u 3
        gap AT u u 0
        ranges AT i4 e12 0
        ranges AT i9 i4 1
        draw_front AT 4 11 1
        draw_back AT 4 11 1
        draw_front AT 15 {M} 1
        draw_back AT 5 4 0
        fill AT 0 3
        fill AT {M} 2
        fill AT 0 0
        flip AT i4 e6
        flip AT i8 i9
        shift AT 3 0
        shift AT {HALF} 1
        tally AT u u 1
        flip AT u u
        build AT 0
        set AT u u 1
        tally AT u u 1
        set AT i1 i{} 0
        shift AT 1 1
        set AT e{M} u 1
        tally AT u u 1
        set_strict AT i3 i2 0
        set_strict AT i3 i1 0
        flip_strict AT e5 e5
        flip_strict AT e5 e6
        tally_strict AT e{M} i{M} 1
        tally_strict AT e{M} e{M} 1
        set_strict AT i2 i8 0
        flip_strict AT i4 i6
        tally_strict AT i1 i9 1
        set_rect AT 0 3 1 5 1
        set_rect AT 0 2 0 8 1
        set_rect AT 1 3 0 5 0
        set_rect AT 0 5 65536 5 0
        count_rect AT 0 0 1 9
        count_rect AT 0 1 0 0
        count_rect AT 0 0 65535 65535
        set_rect AT 0 0 65535 65535 0",
        M - 1
    );
    of(&lines.replace("AT", &format!("0/{world}")))
}

// Withdrawn numbers, at a world that is opened and at others: 12, and nothing else is told. Then words that are not read, whatever they are.
fn odd_records() -> Vec<Record> {
    let mut all = Vec::new();
    for number in records::WITHDRAWN {
        for world in [0, 1, M] {
            all.push([number, 1, 4, 1, 6, 1, 0, world]);
        }
    }
    for word in [0, 1, 2, 3, 256, HALF, M] {
        all.push([0, word, 20, word, word, word, word, 0]);
        all.push([2, 1, 20, 2, 22, word.min(1), word, 0]);
        all.push([3, 1, 20, 2, 22, word, word, 0]);
        all.push([4, word, 1, word, word, word.min(1), word, 0]);
        all.push([5, word, 20, word, word, word, word, 0]);
        all.push([11, word, 0, word, M, word.min(1), word, 0]);
        all.push([13, word, 20, word, 8, word, word, 0]);
        all.push([14, 1, 2, 3, word, word, 2, 0]);
    }
    all
}

// Every number with a world that is not opened, and one that empties a world after all of them.
fn strangers() -> Vec<Record> {
    let worlds = [3, 15, 16, 1 << 32, M];
    let of_number = |number: u64| [number, 1, 4, 1, 0, 1, 0, worlds[number as usize % worlds.len()]];
    (0..=records::LAST).map(of_number).chain([[1, 0, 0, 0, 0, 0, 0, 1]]).collect()
}

/// The list.
pub fn list() -> List {
    let mut list = List::new("frames");
    // 1: no words at all, then those of capacity 0. 7: no sound pool. Each before 2, before 12, and of an empty frame too.
    for lent in ["", "words 0 0", "words 0 4", "new 0 3 1 4 0 4 1 1\nbuild 0/1 1 2 7\nspoil 0"] {
        list.say(lent);
        list.frame(&of("build 0/1 0\nset 0/2 u u 1"), 2);
        list.frame(&of("get 0/3 0"), 0);
        list.frame(&[], 0);
    }
    // 2: room for fewer. More room than is due is as good.
    list.say("new 0 3 1 4 0 4 1 1\nbuild 0/1 1 2 7");
    for room in 0..=3 {
        list.frame(&of("set 0/1 i4 i4 0\nset 0/2 i9 i9 1"), room);
        list.show_all(0);
    }
    list.frame(&[], 0);
    list.frame(&[], CALLS);
    // 12 stands in the answer of a record, and the next one follows.
    list.play(&strangers());
    list.say("words 0 2\nnew 0 1 0 2");
    list.play(&every_kind(0));
    list.say("words 0 3\nnew 0 1 0 3\nbuild 0/0 1 2 7");
    list.play(&odd_records());
    // A frame is its calls, one by one, at whichever world: the same in a pool beside it.
    list.pool(0, 4, &[[2, 2], [0, 4]]);
    list.pool(1, 4, &[[2, 2], [0, 4]]);
    for world in [1, 0] {
        for record in every_kind(world) {
            list.frame(&[record], 1);
            list.call(&records::call_of(1, record));
        }
        list.say("eq 0/0 1/0\neq 0/1 1/1");
    }
    // Worlds in turn, which take the last runs from each other.
    list.say("new 0 3 1 4 0 4 1 2");
    let in_turn = |i: usize| every_kind([2, 0, 1][i % 3])[i / 3];
    list.play(&(0..CALLS).map(in_turn).collect::<Vec<_>>());
    let mut random = Random::new(0xF4);
    let pools: [(usize, &[Limit]); 5] = [
        (1, &[[0, 1]]),
        (2, &[[0, 2], [0, 2]]),
        (3, &[[1, 1], [1, 3]]),
        (8, &[[2, 3], [0, 8], [1, M], [0, 0]]),
        (64, &[[4, 4]; 16]),
    ];
    for ((capacity, limits), counts) in
        pools.into_iter().zip([[4, 11, 7], [9, 1, 12], [12, 5, 8], [10, 14, 3], [2, 20, CALLS]])
    {
        list.pool(0, capacity, limits);
        list.build(Place::first(0), &[[2, 7]]);
        for count in counts {
            let asked = chance::listed(&mut random, &list.expected.stores[0], count);
            list.play(&asked);
        }
    }
    list
}
