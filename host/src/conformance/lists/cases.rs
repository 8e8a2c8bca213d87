//! The scope document's sixteen cases, and its fill: in pools of one world, with floor 0 and the capacity as its ceiling. Written sets are
//! those of both editions.

use super::M;
use crate::conformance::List;

/// The list.
pub fn list() -> List {
    let mut list = List::new("cases");
    list.say(&format!(
        "
        # 1
        words 0 8
        new 0 1 0 8
        set 0/0 i2 e8 1
        set 0/0 i4 e6 0
        set 0/0 i2 e4 1
        # 2
        new 0 1 0 8
        set 0/0 u u 1
        set 0/0 u u 1
        tally 0/0 u u 1
        # 3
        build 0/0 1 2 7
        set 0/0 e{M} u 1
        write_set 0/0 1 21
        # 4
        run_at 0/0 4
        run_at 0/0 0
        run_at 0/0 9
        # 5
        find 0/0 i4 u 0
        find 0/0 i2 e8 0
        # 6
        select 0/0 i4 e12 0 1
        select 0/0 i4 e12 1 4
        # 7
        build 0/0 2 2 7 10 14
        ranges 0/0 i4 e12 1
        draw_front 0/0 4 11 1
        draw_front 0/0 8 11 1
        draw_front 0/0 1 0 1
        draw_back 0/0 4 11 1
        draw_back 0/0 4 9 1
        ranges 0/0 i4 e12 0
        draw_front 0/0 4 11 0
        draw_front 0/0 10 11 0
        # 8
        build 0/0 1 2 7
        flip 0/0 i4 e10
        write_set 0/0 1 37
        # 9
        build 0/0 1 2 7
        words 1 8
        new 1 1 0 8
        build 1/0 1 5 9
        words 2 2
        new 2 1 0 2
        combine 2/0 and 0/0 1/0
        tally 2/0 u u 1
        combine 2/0 or 0/0 1/0
        tally 2/0 u u 1
        combine 2/0 xor 0/0 1/0
        write_set 2/0 1 37
        # 10
        build 0/0 1 {N} {M}
        shifted 1/0 0/0 2 1
        write_set 1/0 1 5
        shift 0/0 1 1
        write_set 0/0 1 21
        shift 0/0 1 1
        write_set 0/0 1 5
        # 11
        build 0/0 1 0 3
        shifted 1/0 0/0 2 0
        write_set 1/0 1 21
        shifted 1/0 0/0 4 0
        write_set 1/0 1 5
        # 12
        words 0 1
        new 0 1 0 1
        build 0/0 1 10 19
        shift 0/0 5 1
        set 0/0 i0 e15 1
        tally 0/0 u u 1
        run_at 0/0 7
        # 13
        build 0/0 1 2 7
        set 0/0 i4 e6 0
        write_set 0/0 1 21
        set 0/0 i2 e4 0
        # 14
        build 0/0 1 5 5
        not 2/0 0/0
        write_set 2/0 1 37
        words 1 1
        new 1 1 0 1
        not 1/0 0/0
        # 15
        build 2/0 2 2 3 8 9
        write_set 2/0 1 40
        write_set 2/0 2 40
        write_map 2/0 0 10 3
        words 1 2
        new 1 1 0 2
        load 1/0 01000000020000000000000002000000000000000300000000000000080000000000000009
        eq 1/0 2/0
        new 1 1 0 2
        load 1/0 02000000020000000000000000000000000000020800000000000000000000000000000309
        eq 1/0 2/0
        convert 01000000020000000000000002000000000000000300000000000000080000000000000009 40
        convert 02000000020000000000000000000000000000020800000000000000000000000000000309 40
        new 1 1 0 2
        read_map 1/0 0 10 0c03
        eq 1/0 2/0
        fill 2/0 0 3
        # 16
        load 1/0 01000000020000000000000002000000000000000300000000000000040000000000000005
        load 1/0 02000000020000000000000000000000000000020400000000000000000000000000000305
        convert 01000000020000000000000002000000000000000300000000000000040000000000000005 40
        build 1/0 2 2 3 4 5
        eq 1/0 2/0
        ",
        N = M - 1
    ));
    list
}
