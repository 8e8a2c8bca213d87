//! Written sets of edition 1 and maps: whole and damaged ones, slices that are too short, spare bits.

use super::{HALF, M};
use crate::Edition;
use crate::conformance::{List, SLICE};
use crate::differential::WRITTEN;
use crate::differential::calls::{Call, Place};
use crate::differential::chance;
use crate::differential::random::Random;
use crate::differential::reference::{self, Run};

/// The list.
pub fn list() -> List {
    let mut list = List::new("bytes");
    let mut random = Random::new(0xB7);
    // The neighbour is sure of as many runs as the world of the bytes.
    list.pool(0, 8, &[[4, 4], [1, 4]]);
    list.build(Place::first(0), &[[5, 6], [8, M]]);
    let at = Place { store: 0, world: 1 };
    for runs in WRITTEN {
        let written = reference::encode(Edition::Rows, runs);
        list.call(&Call::Load { to: at, bytes: written.clone() });
        for room in [0, written.len() - 1, written.len(), written.len() + 3] {
            list.call(&Call::Write { at, edition: 1, room });
        }
        for i in 0..written.len() {
            let mut bytes = written.clone();
            bytes[i] = random.one_of(&[written[i] ^ 1, 0xFF - written[i]]);
            list.call(&Call::Load { to: at, bytes });
        }
        for _ in 0..4 {
            let mut bytes = written.clone();
            chance::spoil(&mut random, &mut bytes);
            list.call(&Call::Load { to: at, bytes });
        }
        list.show(at);
    }
    list.show(Place::first(0));
    // A full world of the largest capacity of a list, and the largest map.
    let many: Vec<Run> = (0..64).map(|i| [i << 58, (i << 58) + random.below(1 << 57)]).collect();
    list.pool(1, 64, &[[0, 64]]);
    let at = Place::first(1);
    list.call(&Call::Load { to: at, bytes: reference::encode(Edition::Rows, &many) });
    list.say(&format!("write_set 1/0 1 {}\nwrite_set 1/0 1 {SLICE}\nset 1/0 i{M} i{M} 1\nbuild 1/0 0", SLICE - 1));
    let map: Vec<u8> = (0..1024).map(|i| if i % 32 < 16 { 0x0F << (i % 5) } else { 0xFF }).collect();
    for base in [0, M - 8191] {
        list.call(&Call::ReadMap { at, base, n: 8192, map: map.clone() });
    }
    let few: Vec<u8> = (0..1024).map(|i| if i / 20 % 2 == 0 { 0xFF } else { 0 }).collect();
    read_and_cleared(&mut list, at, 3, 8190, few);
    list.say("fill 1/0 0 8192\nwrite_map 1/0 0 8192 1024\nwrite_map 1/0 5 8180 1023\nwrite_map 1/0 0 8192 1023");
    windows(&mut list, &mut random);
    spare_bits(&mut list);
    fills(&mut list);
    list
}

// Reads a map, clears it and reads what that leaves.
fn read_and_cleared(list: &mut List, at: Place, base: u64, n: u64, map: Vec<u8>) {
    let mut cleared = map.clone();
    reference::clear(n, &mut cleared);
    list.call(&Call::ReadMap { at, base, n, map: map.clone() });
    list.call(&Call::ClearMap { base, n, map });
    list.call(&Call::ReadMap { at, base, n, map: cleared });
}

// Every spare bit of the last byte by itself, at every length up to two bytes.
fn spare_bits(list: &mut List) {
    list.store(0, 9, &[[4, 6]]);
    let at = Place::first(0);
    for n in 1..=17_u64 {
        let due = n.div_ceil(8) as usize;
        for i in n..8 * due as u64 {
            let mut map = vec![0xA5; due];
            reference::clear(n, &mut map);
            map[due - 1] |= 1 << (i % 8);
            list.call(&Call::ReadMap { at, base: 1, n, map: map.clone() });
            list.call(&Call::ClearMap { base: 1, n, map });
        }
        let mut map = vec![0x5A; due];
        reference::clear(n, &mut map);
        list.call(&Call::ReadMap { at, base: 1, n, map });
    }
    list.show(at);
}

// Fill is rounded up: windows about a thousand positions long and the longest one, with none, one, all and all but one of them held.
fn fills(list: &mut List) {
    for n in [1, 2, 3, 999, 1000, 1001, 1002, 524_288] {
        list.store(0, 2, &[]);
        list.say(&format!("fill 0/0 5 {n}\nset 0/0 i5 i5 1\nfill 0/0 5 {n}"));
        list.say(&format!("set 0/0 i5 e{} 1\nfill 0/0 5 {n}\nfill 0/0 6 {n}", 5 + n));
    }
}

// Windows at every limit, of sizes about whole bytes.
fn windows(list: &mut List, random: &mut Random) {
    // The neighbour takes 8 of 20 runs.
    list.pool(0, 20, &[[8, 9], [0, 20]]);
    let at = Place { store: 0, world: 1 };
    list.build(at, &[[3, 9], [HALF, HALF + 40], [M - 5, M]]);
    for n in [1, 2, 7, 8, 9, 15, 16, 17, 64, 65] {
        for base in [0, 1, HALF - 4, M - (n - 1)] {
            let due = n.div_ceil(8) as usize;
            let mut map: Vec<u8> = (0..due).map(|_| random.one_of(&[0, 0xFF, 0x3C, 0xA1])).collect();
            // Spare bits of both values.
            let spare = (!0_u16 << ((n - 1) % 8 + 1)) as u8;
            map[due - 1] = if random.truth() { map[due - 1] | spare } else { map[due - 1] & !spare };
            read_and_cleared(list, at, base, n, map);
            for room in [due - 1, due, due + 2] {
                list.call(&Call::WriteMap { at, base, n, room });
            }
            list.say(&format!("fill {at} {base} {n}\ntally {at} u u 1"));
        }
    }
}
