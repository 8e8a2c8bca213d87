//! Cells of a grid: rectangles and surveys.

use super::M;
use crate::conformance::{List, ROOM, text};
use crate::differential::calls::{Call, Place, Told};
use crate::differential::random::Random;
use crate::{Piece, Rect, SIDE};

const HERE: Place = Place::first(0);

/// The list.
pub fn list() -> List {
    let mut list = List::new("grid");
    // 1, 7 and 12 before 15.
    for made in ["", "words 0 2", "new 0 2 0 1 0 2", "spoil 0"] {
        list.say(made);
        for at in ["0/1", "0/2"] {
            list.say(&format!(
                "set_rect {at} 0 1 0 0 1
                set_rect {at} 0 2 1 5 1
                count_rect {at} 65536 0 65536 0
                count_rect {at} 0 0 3 9
                survey {at} 0 0 9 0
                survey {at} 0 0 2 {ROOM}"
            ));
        }
    }
    ends_of_the_plane(&mut list);
    off_the_plane(&mut list);
    little_room(&mut list);
    patches(&mut list);
    surveys(&mut list);
    histories(&mut list);
    tall(&mut list);
    most_pieces(&mut list);
    list
}

// Cells at the corners, rows that touch, rows of full width, and the whole plane; a position past it stays.
fn ends_of_the_plane(list: &mut List) {
    list.pool(0, 8, &[[0, 8], [0, 8]]);
    list.say(
        "
        set 0/1 i4294967296 i4294967299 1
        set_rect 0/1 0 0 0 0 1
        set_rect 0/1 0 65535 0 65535 1
        set_rect 0/1 65535 0 65535 0 1
        set_rect 0/1 65535 65535 65535 65535 1
        set_rect 0/1 65535 65535 65535 65535 1
        get 0/1 0
        get 0/1 65535
        get 0/1 4294901760
        get 0/1 4294967295
        run_at 0/1 4294967295
        count_rect 0/1 0 0 65535 65535
        count_rect 0/1 65535 65535 65535 65535
        # The last cell of a row and the first of the next are neighbours.
        set_rect 0/1 1 0 1 0 1
        run_at 0/1 65535
        count_rect 0/1 0 0 0 65535
        count_rect 0/1 0 65535 1 65535
        count_rect 0/1 0 0 1 0
        # Full width, one column less on either side, and two.
        set_rect 0/1 2 0 4 65535 1
        set_rect 0/1 3 1 3 65534 0
        set_rect 0/1 2 1 4 65535 0
        set_rect 0/1 2 0 4 65534 1
        count_rect 0/1 1 0 5 65535
        tally 0/1 u u 1
        set_rect 0/1 1 0 4 65535 1
        set_rect 0/1 2 0 4 65534 0
        tally 0/1 u u 1
        set_rect 0/1 0 0 65535 65535 1
        count_rect 0/1 0 0 65535 65535
        count_rect 0/1 1 1 65534 65534
        tally 0/1 u u 1
        set_rect 0/1 0 0 65535 65535 1
        set_rect 0/1 7 7 7 7 0
        count_rect 0/1 0 0 65535 65535
        set_rect 0/1 0 0 65535 65535 0
        tally 0/1 u u 1
        tally 0/0 u u 1
        # As many rows as the plane has, and a run for each.
        set_rect 0/1 0 3 65535 3 1
        set_rect 0/1 65529 3 65535 3 1
        set_rect 0/1 0 3 65535 3 0
        tally 0/1 u u 1
        ",
    );
}

// Each number of the corners of a rectangle of one cell just above the last, and far above; then the corners swapped, and squares.
fn off_the_plane(list: &mut List) {
    list.store(0, 2, &[[0, 4 * SIDE]]);
    let cell = [SIDE - 1; 4];
    for at in 0..4 {
        for n in [SIDE, SIDE + 1, 1 << 32, 1 << 48, M - SIDE, M] {
            let mut corners = cell;
            corners[at] = n;
            let [top, left, bottom, right] = corners;
            let rect = Rect { top, left, bottom, right };
            list.call(&Call::SetRect { at: HERE, rect, value: true });
            list.call(&Call::CountRect { at: HERE, rect });
        }
    }
    for (first, second) in [((1, 1), (0, 1)), ((1, 1), (1, 0)), ((1, 1), (0, 0)), ((9, 0), (8, 9)), ((0, 9), (9, 8))] {
        for rect in [Rect::new(first, second), Rect::new(second, first)] {
            list.call(&Call::CountRect { at: HERE, rect });
            list.call(&Call::SetRect { at: HERE, rect, value: false });
        }
    }
    for k in [0, 1, 4, 7, 8, 9, 16, 63, 64, 65, 256, 1 << 32, M] {
        let side = 1 << k.min(8);
        for [row, column] in
            [[0, 0], [SIDE - side, SIDE - side], [SIDE - side + 1, 0], [0, SIDE - side + 1], [M, 0], [0, M]]
        {
            list.call(&Call::Survey { at: HERE, row, column, k, room: 6 });
        }
    }
    list.show(HERE);
}

// Rows that add runs and rows that join some, with no room for a run more than are left at the end, by the capacity, and by what another world
// leaves.
fn little_room(list: &mut List) {
    let made =
        ["words 0 3\nnew 0 1 0 3", "words 0 8\nnew 0 2 0 3 0 8", "words 0 5\nnew 0 2 1 5 0 5\nbuild 0/1 2 0 0 9 9"];
    for made in made {
        list.say(made);
        list.say(
            "
            # Row 1 has three runs: where they are joined, row 0 may have one, and not before that.
            build 0/0 3 65538 65538 65540 65540 65542 65542
            set_rect 0/0 0 2 0 6 1
            set_rect 0/0 0 2 1 6 1
            # A hole in each row would be two runs more, and one hole is one.
            set_rect 0/0 0 4 1 4 0
            set_rect 0/0 1 4 1 4 0
            set_rect 0/0 1 6 1 6 0
            # Row 0 gains a run and row 1 loses one, by freed cells, and then the other way round, by held ones.
            set_rect 0/0 0 5 1 5 0
            set_rect 0/0 0 5 1 5 1
            # Row 0 stays, row 1 loses a run and row 2 gains one; no other row may.
            set_rect 0/0 0 4 3 4 1
            set_rect 0/0 0 4 2 4 1
            set_rect 0/0 1 9 1 9 1
            set_rect 0/0 1 0 2 65535 0
            ",
        );
        list.show(HERE);
    }
}

// Rectangles by chance in a patch of cells, at capacities at which some do not fit, and what is left then.
fn patches(list: &mut List) {
    let mut random = Random::new(0x12);
    for capacity in 1..=6 {
        for [row, column] in [[0, 0], [9, SIDE - 6], [SIDE - 4, SIDE - 6]] {
            list.store(0, capacity, &[]);
            for turn in 0..12 {
                let (top, left) = (row + random.below(4), column + random.below(6));
                let (bottom, right) = (top + random.below(row + 4 - top), left + random.below(column + 6 - left));
                let rect = Rect::new((top, left), (bottom, right));
                list.call(&Call::SetRect { at: HERE, rect, value: !random.once_in(3) });
                list.call(&Call::CountRect { at: HERE, rect });
                if turn % 4 == 3 {
                    list.show(HERE);
                    survey(list, HERE, [row, column], 2);
                    // Physical positions end elsewhere.
                    list.call(&Call::Shift { at: HERE, distance: random.below(3), left: turn % 8 == 3 });
                }
            }
        }
    }
}

// Surveys a square with a word less than is due, with just that, with more and with none; once where a line does not have the room.
fn survey(list: &mut List, at: Place, [row, column]: [u64; 2], k: u64) {
    let call = |room| Call::Survey { at, row, column, k, room };
    let rooms = match list.expected.clone().answer(&call(ROOM)) {
        Told::Words(due, _) => vec![due - 1, due, (due + 2).min(ROOM), 0],
        _ => vec![ROOM],
    };
    for room in rooms {
        list.call(&call(room));
    }
}

fn surveys(list: &mut List) {
    // Empty, full, and every square of the plane's four corners.
    list.store(0, 64, &[]);
    for value in [false, true] {
        list.call(&Call::SetRect { at: HERE, rect: Rect::PLANE, value });
        for k in 0..=8 {
            survey(list, HERE, [3, 5], k);
        }
        for [row, column] in [[0, 0], [0, SIDE - 256], [SIDE - 256, 0], [SIDE - 256, SIDE - 256]] {
            survey(list, HERE, [row, column], 8);
        }
    }
    // One cell in each of the last squares: at every corner of it.
    for k in 0..=8 {
        let side = 1 << k;
        for [row, column] in [[0, 0], [0, side - 1], [side - 1, 0], [side - 1, side - 1]] {
            list.store(0, 64, &[[row * SIDE + column; 2]]);
            survey(list, HERE, [0, 0], k);
        }
    }
    // A chessboard of four by four cells, and of eight by eight, whose pieces a line does not have room for.
    list.store(0, 64, &[]);
    for row in 0..8 {
        for column in (row % 2..8).step_by(2) {
            list.call(&Call::SetRect { at: HERE, rect: Rect::cell(row, column), value: true });
        }
    }
    for k in 0..=3 {
        survey(list, HERE, [0, 0], k);
        survey(list, HERE, [1, 2], k);
    }
    // Halves and quarters, in and out of step with the square.
    let blocks = [
        ((0, 0), (3, 7)),
        ((0, 0), (7, 3)),
        ((4, 4), (7, 7)),
        ((2, 0), (5, 7)),
        ((0, 2), (7, 5)),
        ((3, 3), (4, 4)),
        ((0, 0), (6, 6)),
    ];
    for (first, second) in blocks {
        list.store(0, 8, &[]);
        list.call(&Call::SetRect { at: HERE, rect: Rect::new(first, second), value: true });
        for corner in [[0, 0], [0, 4], [4, 0], [1, 1]] {
            survey(list, HERE, corner, 3);
        }
        survey(list, HERE, [0, 0], 5);
    }
    // One blob in a large square.
    list.store(0, 64, &[]);
    list.call(&Call::SetRect { at: HERE, rect: Rect::new((64, 64), (95, 127)), value: true });
    survey(list, HERE, [0, 0], 8);
    survey(list, HERE, [32, 0], 7);
    list.call(&Call::SetRect { at: HERE, rect: Rect::cell(96, 96), value: true });
    survey(list, HERE, [0, 0], 8);
}

// Equal sets, made in several ways, survey alike.
fn histories(list: &mut List) {
    list.pool(0, 64, &[[0, 16]; 4]);
    list.say(
        "
        set_rect 0/0 1 2 4 5 1
        set_rect 0/0 2 3 3 4 0
        # Row by row, the last first.
        set 0/1 i262146 i262149 1
        set 0/1 i196613 i196613 1
        set 0/1 i196610 i196610 1
        set 0/1 i131077 i131077 1
        set 0/1 i131074 i131074 1
        set 0/1 i65538 i65541 1
        # In another place, and moved up two rows and three columns.
        set_rect 0/2 3 5 6 8 1
        set_rect 0/2 4 6 5 7 0
        shift 0/2 131075 0
        # Free where it is held, and inverted.
        set_rect 0/3 0 0 65535 65535 1
        set_rect 0/3 1 2 4 5 0
        set_rect 0/3 2 3 3 4 1
        flip 0/3 u i4294967295
        eq 0/0 0/1
        eq 0/0 0/2
        eq 0/0 0/3
        ",
    );
    for k in [2, 3, 4] {
        let asked = (0..4).map(|world| {
            let call = Call::Survey { at: Place { store: 0, world }, row: 1, column: 1, k, room: ROOM };
            text::tell(&call, &list.call(&call))
        });
        let told: Vec<String> = asked.collect();
        assert!(told.iter().all(|line| *line == told[0]) && told[0].starts_with("worded"), "{told:?}");
    }
    // Four words are no room for a piece.
    list.call(&Call::Survey { at: HERE, row: 1, column: 1, k: 0, room: Piece::WORDS - 1 });
}

// Rectangles of many rows and of full width, where most rows lose or gain a run and few fit: runs are counted after the last row.
fn tall(list: &mut List) {
    for last in [SIDE - 2, SIDE - 1] {
        list.store(0, 8, &[[0, SIDE * SIDE - 1]]);
        for (row, columns) in [(3, [9, 20]), (200, [9, 20]), (500, [SIDE - 1, SIDE - 1])] {
            list.call(&Call::SetRect { at: HERE, rect: Rect::new((row, columns[0]), (row, columns[1])), value: false });
        }
        list.call(&Call::SetRect { at: HERE, rect: Rect::new((1, 4), (700, last)), value: true });
        list.say("tally 0/0 u u 1\ncount_rect 0/0 0 0 65535 65535\ncount_rect 0/0 3 0 500 65535");
    }
    // Full rows that reach a run, touch it, and do not; and freed ones.
    for start in [2 * SIDE, 2 * SIDE - 1, 2 * SIDE + 1, SIDE, 0] {
        for (top, bottom, value) in [(0, 1, true), (0, 1, false), (2, 9, true), (2, 9, false), (3, 65_535, true)] {
            list.store(0, 1, &[[start, 2 * SIDE + 9]]);
            list.call(&Call::SetRect { at: HERE, rect: Rect::new((top, 0), (bottom, SIDE - 1)), value });
            list.show(HERE);
        }
    }
    // As many rows as there is room for, each with a run, one row more, and all of them joined again.
    for rows in [7, 8, 9, 255, 256, 257, 65_536] {
        list.store(0, 8, &[]);
        let narrow = Rect::new((0, 5), (rows - 1, 9));
        list.call(&Call::SetRect { at: HERE, rect: narrow, value: true });
        list.call(&Call::CountRect { at: HERE, rect: narrow });
        list.store(0, 8, &[[0, SIDE * SIDE - 1]]);
        list.call(&Call::SetRect { at: HERE, rect: narrow, value: false });
        list.call(&Call::SetRect { at: HERE, rect: Rect::new((0, 0), (rows - 1, SIDE - 1)), value: false });
        list.say("tally 0/0 u u 1");
    }
}

// As many pieces as a line has room for, in slices of a word less and more than each piece takes.
fn most_pieces(list: &mut List) {
    list.store(0, 32, &[]);
    let cells = [[0, 0], [2, 2], [4, 1], [6, 6], [1, 5], [7, 0], [100, 200], [40, 90]];
    for [row, column] in cells {
        list.call(&Call::SetRect { at: HERE, rect: Rect::cell(row, column), value: true });
        for k in [1, 2, 3, 7, 8] {
            for room in [114, 115, 119, 120, 124, 125, 126, ROOM] {
                list.call(&Call::Survey { at: HERE, row: 0, column: 0, k, room });
            }
        }
    }
}
