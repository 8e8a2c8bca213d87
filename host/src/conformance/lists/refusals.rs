//! Every refusal by every call that gives it, and the order where two would hold.

use super::{HALF, M};
use crate::conformance::List;
use crate::conformance::text::digits;
use crate::differential::EDITIONS;
use crate::differential::calls::{Call, Place};
use crate::differential::reference::{self, Run};

const HERE: Place = Place::first(0);

// Calls on world s, with two others.
pub(super) fn calls(s: &str, t: &str, u: &str) -> String {
    format!(
        "set {s} i4 e6 1
        flip {s} i4 e6
        set_strict {s} i4 e6 1
        flip_strict {s} i4 e6
        tally_strict {s} u u 1
        get {s} 5
        run_at {s} 5
        find {s} u u 1
        tally {s} u u 1
        select {s} u u 1 0
        gap {s} u u 1
        ranges {s} u u 1
        ranges {s} i6 e6 1
        draw_front {s} 0 {M} 1
        draw_back {s} 0 {M} 1
        draw_front {s} 1 0 1
        shift {s} 0 1
        shift {s} 1 0
        write_set {s} 1 64
        write_set {s} 2 64
        read_map {s} 0 8 0c
        write_map {s} 0 8 1
        fill {s} 0 8
        set_rect {s} 0 4 1 5 1
        count_rect {s} 0 0 3 65535
        survey {s} 0 0 3 128
        eq {s} {t}
        eq {t} {s}
        eq {s} {s}
        load {s} 0100000000
        load {s} 0200000000
        mend {s} 0100000000 8 2
        mend {s} 0200000000 8 2
        build {s} 1 3 4
        shifted {s} {t} 1 1
        shifted {t} {s} 1 1
        not {s} {t}
        not {t} {s}
        combine {s} and {t} {u}
        combine {t} and {s} {u}
        combine {t} or {u} {s}
        combine {t} xor {s} {s}"
    )
}

// Calls whose other arguments are refused too, in a world of one run.
const WRONG: &str = "
    load AT -
    load AT 03
    load AT 0300000000
    load AT 010000000100000000000000040000000000000003
    load AT 020000000100000000000000040000000000000003
    load AT 01000000020000000000000002000000000000000300000000000000080000000000000009
    load AT 02000000020000000000000000000000000000020800000000000000000000000000000309
    mend AT 03 0 0
    mend AT 0300000000 0 0
    mend AT 010000000200000000000000040000000000000003 0 0
    mend AT 01000000020000000000000008000000000000000900000000000000020000000000000003 0 0
    mend AT 02000000020000000000000000000000000000080200000000000000000000000000000903 40 4
    mend AT 010000000100000000000000040000000000000003 4 0
    build AT 1 4 3
    build AT 2 2 3 4 5
    build AT 2 2 3 5 6
    read_map AT 0 0 -
    read_map AT 0 7 80
    read_map AT 0 8 55
    fill AT 0 0
    write_set AT 1 0
    write_set AT 2 0
    write_map AT 0 0 0
    write_map AT 0 8 0
    gap AT u u 0
    set_strict AT i6 i4 0
    flip_strict AT i6 i4
    tally_strict AT i6 i4 0
    set_rect AT 1 0 0 9 1
    set_rect AT 0 65536 0 65536 1
    set_rect AT 0 5 1 5 0
    count_rect AT 0 9 1 8
    count_rect AT 0 0 65536 0
    survey AT 0 0 9 0
    survey AT 0 65536 0 0
    survey AT 0 0 3 0
    set AT i4 e6 0";

// What a world is before a call: in a store of no capacity, in one that is not sound, not opened, or there.
const STATES: [&str; 4] =
    ["words S 0", "words S 2", "words S 2\nnew S 1 0 2", "words S 2\nnew S 2 0 1 0 2\nbuild S/1 1 3 9"];

/// The list.
pub fn list() -> List {
    let mut list = List::new("refusals");
    list.say("words 1 4\nnew 1 1 0 4\nbuild 1/0 1 3 9\nwords 2 3\nnew 2 2 1 1 0 3\nbuild 2/1 1 6 12");
    // 1: no words at all, then those of capacity 0. 7: words that are all 0, then a sound pool with a header word set.
    for lent in ["", "words 0 0", "words 0 3", "new 0 1 0 3\nbuild 0/0 2 2 7 10 14\nspoil 0"] {
        list.say(lent);
        list.say(&calls("0/0", "1/0", "2/1"));
    }
    // 12: of a pool of three worlds, then of 16.
    let (sixteen, last) = (format!("16{}", " 0 3".repeat(16)), format!("0/{M}"));
    for (made, worlds) in [("3 0 3 0 3 0 3", ["0/3", "0/15", "0/16"]), (&sixteen, ["0/16", "0/4294967296", &last])] {
        list.say(&format!("new 0 {made}"));
        for world in worlds {
            list.say(&calls(world, "1/0", "2/1"));
        }
    }
    // Making a pool reads nothing of it but its length.
    for lent in ["", "spoil 0", "words 0 3", "words 0 0"] {
        list.say(&format!("{lent}\nnew 0 1 0 3\nget 0/0 5\nget 0/1 5"));
    }
    // 1 of any store before 7 of any, and that before 12 of any world.
    for which in 0..64 {
        let states = [which / 16, which / 4 % 4, which % 4];
        for (at, state) in states.iter().enumerate() {
            list.say(&STATES[*state].replace('S', &at.to_string()));
        }
        list.say("combine 0/1 or 1/1 2/1");
        if states[2] == 3 {
            list.say("eq 0/1 1/1\nnot 0/1 1/1\nshifted 0/1 1/1 3 1");
        }
    }
    // Each of 1, 7 and 12 before any other.
    for lent in ["words 1 0", "words 1 1", "new 1 1 0 1"] {
        list.say(lent);
        list.say(&WRONG.replace("AT", "1/1"));
    }
    windows_refused(&mut list);
    bytes_refused(&mut list);
    full(&mut list);
    list.say(
        "
        # 2
        words 0 2
        new 0 1 0 2
        build 0/0 2 2 3 8 9
        write_set 0/0 1 0
        write_set 0/0 2 0
        write_set 0/0 1 4
        write_set 0/0 2 4
        write_set 0/0 1 5
        write_set 0/0 2 5
        write_set 0/0 1 36
        write_set 0/0 2 36
        write_set 0/0 1 37
        write_set 0/0 2 37
        write_map 0/0 0 8 0
        write_map 0/0 0 8 1
        write_map 0/0 0 9 1
        write_map 0/0 0 9 2
        write_map 0/0 0 524288 1029
        build 0/0 0
        write_set 0/0 1 4
        write_set 0/0 2 4
        write_set 0/0 1 5
        write_set 0/0 2 5
        # 13, after 1, before 8 and 2, and 8 before 2, whether the pool is sound or not
        words 3 0
        deepest 3 0 0
        deepest 3 23 0
        deepest 3 3 0
        words 3 3
        deepest 3 0 0
        deepest 3 0 128
        deepest 3 23 0
        deepest 3 23 128
        deepest 3 4294967297 128
        deepest 3 18446744073709551615 128
        deepest 3 3 0
        deepest 3 3 128
        deepest 3 22 128
        deepest 3 1 1
        deepest 3 2 3
        new 3 1 0 3
        build 3/0 2 2 3 8 9
        deepest 3 0 0
        deepest 3 23 128
        deepest 3 3 0
        deepest 3 3 128
        deepest 3 1 0
        deepest 3 2 3
        write_set 3/0 1 37
        # 16, after 1 and before 2, whether the pool is sound or not
        words 3 0
        why_full 3 0 0
        why_full 3 8 4 1 2 1 2 1 4 1 4
        words 3 1
        why_full 3 0 0
        why_full 3 8 2 1 4 1 4
        why_full 3 0 6 1 4 1 4 1 5 1 5 1 9 1 8
        why_full 3 0 4 1 2 1 2 1 4 1 4
        why_full 3 1 4 1 2 1 2 1 4 1 4
        why_full 3 2 4 1 2 1 2 1 4 1 4
        new 3 1 0 3
        build 3/0 1 2 7
        why_full 3 0 2 1 20 1 20
        why_full 3 1 4 1 2 1 2 1 4 1 4
        why_full 3 3 4 1 2 1 2 1 4 1 4
        spoil 3
        why_full 3 0 2 1 20 1 20
        why_full 3 1 4 1 2 1 2 1 4 1 4
        why_full 3 3 4 1 2 1 2 1 4 1 4
        # 9
        words 1 1
        new 1 1 0 1
        build 1/0 1 2 7
        gap 1/0 u u 0
        gap 1/0 i4 e4 0
        gap 1/0 i2 i7 1
        # 14, and 8 of a range that is not reversed
        set_strict 1/0 i6 i4 0
        set_strict 1/0 i6 i5 0
        set_strict 1/0 i5 i5 0
        flip_strict 1/0 i6 i4
        flip_strict 1/0 i6 i5
        flip_strict 1/0 i5 i5
        tally_strict 1/0 i6 i4 0
        tally_strict 1/0 i6 i5 0
        # 15: a corner above 65535, corners that are swapped in row or in column, k above 8, a square that is not wholly on the plane; before 8 and 2
        set_rect 1/0 65536 0 65536 0 1
        set_rect 1/0 0 65536 0 65536 1
        set_rect 1/0 0 9 65536 9 1
        set_rect 1/0 0 9 0 65536 1
        set_rect 1/0 18446744073709551615 9 0 9 1
        set_rect 1/0 0 9 4294967296 9 1
        set_rect 1/0 1 9 0 9 1
        set_rect 1/0 0 9 0 8 1
        set_rect 1/0 1 4 1 3 0
        set_rect 1/0 0 9 0 9 1
        set_rect 1/0 0 4 0 4 0
        set_rect 1/0 65535 65535 65535 65535 1
        count_rect 1/0 1 0 0 0
        count_rect 1/0 0 1 0 0
        count_rect 1/0 0 0 65536 0
        count_rect 1/0 0 0 0 65536
        count_rect 1/0 0 0 65535 65535
        survey 1/0 0 0 9 128
        survey 1/0 0 0 9 0
        survey 1/0 0 0 64 128
        survey 1/0 0 0 18446744073709551615 128
        survey 1/0 65536 0 0 128
        survey 1/0 0 65536 0 0
        survey 1/0 65535 0 1 128
        survey 1/0 0 65281 8 128
        survey 1/0 18446744073709551615 0 0 128
        survey 1/0 0 18446744073709551360 8 0
        survey 1/0 65280 65280 8 4
        survey 1/0 65280 65280 8 5
        survey 1/0 65535 65535 0 128
        survey 1/0 0 0 3 0
        survey 1/0 0 0 3 128
        # 10, after 6 and before 8
        read_map 1/0 0 7 ff
        read_map 1/0 0 7 80
        read_map 1/0 0 7 d5
        read_map 1/0 0 7 55
        read_map 1/0 0 9 fffe
        read_map 1/0 0 7 ffff
        read_map 1/0 0 15 ff
        read_map 1/0 18446744073709551615 7 ff
        # Clearing is refused with 6 alone, and then no byte changes.
        clear_map 0 0 -
        clear_map 0 0 ff
        clear_map 0 524289 ff
        clear_map 18446744073709551615 7 ff
        clear_map 0 7 ffff
        clear_map 0 9 ff
        clear_map 0 7 -
        clear_map 0 7 ff
        clear_map 0 8 ff
        clear_map 0 9 ffff
        # 6 before 8 and 2
        read_map 1/0 0 8 5555
        read_map 1/0 0 0 55
        write_map 1/0 0 0 0
        write_map 1/0 0 524289 0
        # 3 of fewer than 5 bytes before 4, 4 before 3, 3 before 5, 5 before 8
        load 1/0 03
        load 1/0 03000000
        load 1/0 0300000000ff
        load 1/0 030000000200000000000000040000000000000003
        load 1/0 010000000200000000000000040000000000000003
        load 1/0 020000000200000000000000040000000000000003
        load 1/0 0100000002000000000000000400000000000000050000000000000006000000000000000a
        load 1/0 0200000002000000000000000000000000000004060000000000000000000000000000050a
        # The same of converting, and all of them before 2
        convert - 0
        convert 03 0
        convert 03000000 0
        convert 02000000 0
        convert 0300000000ff 0
        convert 0000000000 0
        convert ff00000000 5
        convert 030000000200000000000000040000000000000003 0
        convert 010000000200000000000000040000000000000003 0
        convert 020000000200000000000000040000000000000003 0
        convert 0100000002000000000000000400000000000000050000000000000006000000000000000a 0
        convert 0200000002000000000000000000000000000004060000000000000000000000000000050a 0
        convert 0100000000 0
        convert 0200000000 4
        convert 0100000000 5
        convert 0200000000 6
        convert 01000000020000000000000002000000000000000300000000000000080000000000000009 36
        convert 02000000020000000000000000000000000000020800000000000000000000000000000309 36
        convert 01000000020000000000000002000000000000000300000000000000080000000000000009 37
        convert 02000000020000000000000000000000000000020800000000000000000000000000000309 38
        # Of mending, which is never refused with 5: 8 by the runs of the outcome, and all before 2, of either slice
        mend 1/0 - 0 0
        mend 1/0 03 0 0
        mend 1/0 03000000 0 0
        mend 1/0 02000000 0 0
        mend 1/0 0300000000ff 0 0
        mend 1/0 0000000000 0 0
        mend 1/0 030000000200000000000000040000000000000003 0 0
        mend 1/0 010000000200000000000000040000000000000003 0 0
        mend 1/0 020000000200000000000000040000000000000003 40 4
        mend 1/0 01000000020000000000000008000000000000000900000000000000020000000000000003 0 0
        mend 1/0 02000000020000000000000000000000000000080200000000000000000000000000000903 40 4
        mend 1/0 01000000020000000000000004000000000000000500000000000000020000000000000003 20 2
        mend 1/0 01000000020000000000000004000000000000000500000000000000020000000000000003 21 1
        mend 1/0 01000000020000000000000004000000000000000500000000000000020000000000000003 20 1
        mend 1/0 01000000020000000000000004000000000000000500000000000000020000000000000003 40 0
        mend 1/0 010000000100000000000000040000000000000003 4 1
        mend 1/0 010000000100000000000000040000000000000003 5 0
        mend 1/0 0100000000 4 0
        mend 1/0 0200000000 5 0
        mend 1/0 010000000100000000000000040000000000000003 5 1
        mend 1/0 01000000020000000000000004000000000000000500000000000000020000000000000003 21 2
        mend 1/0 02000000020000000000000000000000000000040200000000000000000000000000000503 23 3
        mend 1/0 010000000100000000000000020000000000000007 21 1
        build 1/0 2 4 5 6 10
        build 1/0 3 0 0 2 2 3 9
        write_set 1/0 1 21
        write_set 1/0 2 21
        ",
    );
    list
}

// 6, and windows that are just good enough.
fn windows_refused(list: &mut List) {
    list.store(0, 3, &[[3, 9]]);
    for (base, n) in [
        (0, 0),
        (M, 0),
        (0, 524_288),
        (0, 524_289),
        (0, 1 << 32),
        (0, M),
        (1, M),
        (HALF, HALF),
        (M - 524_287, 524_288),
        (M - 524_286, 524_288),
        (M - 7, 8),
        (M - 6, 8),
        (M, 1),
        (M, 2),
        (M, M),
    ] {
        list.say(&format!("fill 0/0 {base} {n}\nwrite_map 0/0 {base} {n} 2\nread_map 0/0 {base} {n} 00"));
    }
    for (n, length) in [(8, 0), (8, 2), (9, 1), (9, 3), (16, 1), (17, 2), (1, 0), (1, 2), (524_288, 4)] {
        list.say(&format!("read_map 0/0 0 {n} {}", digits(&vec![0xFF; length])));
    }
    list.show(HERE);
}

// 3, 4 and 5: written sets of both editions and run lists.
fn bytes_refused(list: &mut List) {
    list.store(0, 3, &[[3, 9]]);
    for edition in EDITIONS {
        let written = reference::encode(edition, &[[2, 3], [8, 9]]);
        for length in [0, 1, 4, 5, 6, 20, 21, 22, 36] {
            list.read(HERE, written[..length].to_vec());
        }
        for more in [1, 15, 16] {
            list.read(HERE, [&written[..], &vec![0; more]].concat());
        }
        // A version that is the other edition's, and two that are none's.
        for (at, byte) in [(0, 0), (0, 1), (0, 2), (0, 3), (0, 255), (1, 1), (2, 1), (3, 1), (4, 0), (4, 1), (4, 3)] {
            let mut bytes = written.clone();
            bytes[at] = byte;
            list.read(HERE, bytes);
        }
    }
    let wrong: [&[Run]; 10] = [
        &[[4, 3]],
        &[[M, 0]],
        &[[2, 3], [4, 5]],
        &[[2, 3], [3, 5]],
        &[[2, 3], [2, 3]],
        &[[8, 9], [2, 3]],
        &[[2, 3], [9, 8]],
        &[[2, M], [0, 0]],
        &[[2, M - 1], [M, M]],
        &[[0, 0], [2, 2], [3, 3]],
    ];
    for runs in wrong {
        list.call(&Call::Build { to: HERE, runs: runs.to_vec() });
        for edition in EDITIONS {
            list.read(HERE, reference::encode(edition, runs));
        }
    }
    list.show(HERE);
}

// 8 by every call that may make too many runs, and the same with room for one more: by the capacity, by the ceiling, and by what the
// floor or the runs of another world leave.
fn full(list: &mut List) {
    list.store(1, 2, &[[2, 7]]);
    list.store(2, 2, &[[4, 5]]);
    list.store(3, 2, &[[0, 1], [20, 21]]);
    let rooms = [
        ["words 0 1\nnew 0 1 0 1", "words 0 2\nnew 0 1 0 2"],
        ["words 0 8\nnew 0 2 0 1 2 8", "words 0 8\nnew 0 2 0 2 2 8"],
        ["words 0 4\nnew 0 2 0 4 3 4", "words 0 4\nnew 0 2 1 4 2 4"],
        ["words 0 3\nnew 0 2 0 3 0 3\nbuild 0/1 2 0 0 9 9", "words 0 3\nnew 0 2 2 2 0 3\nbuild 0/1 1 0 9"],
    ];
    for (i, call) in [
        "set 0/0 i4 i5 0",
        "set 0/0 i9 u 1",
        "flip 0/0 i9 i10",
        "set_rect 0/0 0 9 0 9 1",
        "set_rect 0/0 0 3 0 4 0",
        // The first row goes on with the run that is there, and the second is one more.
        "set_rect 0/0 0 8 1 8 1",
        "flip 0/0 i4 i5",
        "read_map 0/0 0 8 41",
        "load 0/0 01000000020000000000000002000000000000000300000000000000080000000000000009",
        "load 0/0 02000000020000000000000000000000000000020800000000000000000000000000000309",
        "mend 0/0 01000000030000000000000008000000000000000900000000000000020000000000000003000000000000000a000000000000000b 37 3",
        "mend 0/0 0200000003000000000000000000000000000000000000000000080202000000000000000000000000000000000000000000090302 37 3",
        "build 0/0 2 2 3 8 9",
        "combine 0/0 xor 1/0 2/0",
        "combine 0/0 or 3/0 3/0",
        "combine 0/0 and 3/0 3/0",
        "not 0/0 2/0",
        "shifted 0/0 3/0 1 1",
    ]
    .into_iter()
    .enumerate()
    {
        // By the capacity each, by the others in turn.
        for made in [rooms[0], rooms[1 + i % 3]].as_flattened() {
            list.say(&format!("{made}\nbuild 0/0 1 2 7\n{call}"));
            list.show_all(0);
        }
    }
}
