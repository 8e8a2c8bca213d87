//! Cells of a grid through the safe calls: rectangles against single cells, surveys against a plain halving of the same cells, what is off the
//! plane, and what each refusal leaves.

use vizturel::differential::calls::{Call, Place, Told};
use vizturel::differential::library::Library;
use vizturel::differential::random::Random;
use vizturel::frame::{Call as Listed, Reply};
use vizturel::{Answer, Limits, Piece, PoolBuf, Rect, Refusal, SIDE, Set, SetBuf, Tally, cell};

const M: u64 = u64::MAX;
const LAST: u64 = SIDE - 1;
const STALE: Piece = Piece { row: M, column: M, rows: M, columns: M, value: M };

fn store(runs: usize) -> SetBuf {
    SetBuf::with_capacity(runs).unwrap()
}

fn runs(set: &SetBuf) -> u64 {
    set.tally(.., true).unwrap().runs
}

// The survey of a square, from a slice with three pieces more, which stay.
fn survey(set: &SetBuf, row: u64, column: u64, k: u64) -> Vec<Piece> {
    let mut out = vec![STALE; (1 << (2 * k)) + 3];
    let told = set.survey(row, column, k, &mut out).unwrap().to_vec();
    assert_eq!(out[..told.len()], told);
    assert!(out[told.len()..].iter().all(|&piece| piece == STALE), "pieces after the last have changed");
    told
}

// What the ticket's sentences say of a square, by the value of every cell.
fn halved(
    held: &dyn Fn(u64, u64) -> bool,
    row: u64,
    column: u64,
    rows: u64,
    columns: u64,
    by_column: bool,
) -> Vec<Piece> {
    let value = held(row, column);
    let mut all = (row..row + rows).flat_map(|r| (column..column + columns).map(move |c| (r, c)));
    if all.all(|(r, c)| held(r, c) == value) {
        return vec![Piece { row, column, rows, columns, value: value.into() }];
    }
    let halves = if by_column {
        let half = columns / 2;
        [halved(held, row, column, rows, half, false), halved(held, row, column + half, rows, half, false)]
    } else {
        let half = rows / 2;
        [halved(held, row, column, half, columns, true), halved(held, row + half, column, half, columns, true)]
    };
    halves.concat()
}

fn get(set: &SetBuf, row: u64, column: u64) -> bool {
    set.get(row * SIDE + column).unwrap()
}

#[test]
fn a_cell_is_a_position() {
    assert_eq!(
        [cell(0, 0), cell(0, 7), cell(1, 0), cell(1, 7), cell(u16::MAX, u16::MAX)],
        [0, 7, 65_536, 65_543, (1 << 32) - 1]
    );
    let mut set = store(4);
    for (row, column) in [(0, 0), (0, u16::MAX), (u16::MAX, 0), (u16::MAX, u16::MAX)] {
        let rect = Rect::cell(row.into(), column.into());
        assert_eq!(set.count_rect(rect), Ok(0));
        assert_eq!(set.set_rect(rect, true), Ok(1));
        assert_eq!(set.set_rect(rect, true), Ok(0));
        assert_eq!((set.get(cell(row, column)), set.count_rect(rect)), (Ok(true), Ok(1)));
    }
    assert!(set.ranges(.., true).unwrap().eq([
        0..=0,
        65_535..=65_535,
        4_294_901_760..=4_294_901_760,
        4_294_967_295..=4_294_967_295
    ]));
    assert_eq!(set.count_rect(Rect::PLANE), Ok(4));
    assert_eq!(set.set_rect(Rect::cell(0, 0), false), Ok(1));
    assert_eq!(set.count_rect(Rect::PLANE), Ok(3));
}

#[test]
fn corners_belong_to_a_rectangle() {
    let mut set = store(8);
    assert_eq!(set.set_rect(Rect::new((10, 20), (13, 22)), true), Ok(12));
    for row in 9..=14 {
        for column in 19..=23 {
            let inside = (10..=13).contains(&row) && (20..=22).contains(&column);
            assert_eq!(get(&set, row, column), inside, "row {row}, column {column}");
            assert_eq!(set.count_rect(Rect::cell(row, column)), Ok(inside.into()));
        }
    }
    assert_eq!(runs(&set), 4);
    assert_eq!(set.count_rect(Rect::new((9, 19), (14, 23))), Ok(12));
    assert_eq!(set.count_rect(Rect::new((13, 22), (LAST, LAST))), Ok(1));
}

#[test]
fn full_width_is_one_run() {
    let mut set = store(2);
    assert_eq!(set.set_rect(Rect::new((3, 0), (9, LAST)), true), Ok(7 * 65_536));
    assert!(set.ranges(.., true).unwrap().eq([3 * SIDE..=10 * SIDE - 1]));
    // One column less on either side: seven runs would be left.
    assert_eq!(set.set_rect(Rect::new((3, 1), (9, LAST)), false), Err(Refusal::Capacity));
    assert_eq!(set.set_rect(Rect::new((3, 0), (9, LAST - 1)), false), Err(Refusal::Capacity));
    assert_eq!(set.set_rect(Rect::new((3, 0), (8, LAST)), false), Ok(6 * 65_536));
    // The last cell of a row and the first of the next are neighbours.
    assert_eq!(set.set_rect(Rect::cell(8, LAST), true), Ok(1));
    assert_eq!(runs(&set), 1);
}

#[test]
fn the_whole_plane() {
    let mut set = store(2);
    set.set(1 << 32.., true).unwrap();
    assert_eq!(set.set_rect(Rect::PLANE, true), Ok(1 << 32));
    assert_eq!((set.count_rect(Rect::PLANE), runs(&set)), (Ok(1 << 32), 1));
    assert_eq!(set.set_rect(Rect::PLANE, true), Ok(0));
    assert_eq!(set.set_rect(Rect::cell(LAST, LAST), false), Ok(1));
    assert_eq!(set.count_rect(Rect::PLANE), Ok((1 << 32) - 1));
    assert_eq!(set.set_rect(Rect::PLANE, false), Ok((1 << 32) - 1));
    // What is past the plane stays.
    assert_eq!(set.tally(.., true), Ok(Tally { positions: (1 << 64) - (1 << 32), runs: 1 }));
}

#[test]
fn as_many_rows_as_the_plane_has() {
    let mut set = store(65_536);
    let column = |at| Rect::new((0, at), (LAST, at));
    assert_eq!(set.set_rect(column(4), true), Ok(65_536));
    assert_eq!(runs(&set), 65_536);
    assert_eq!(set.set_rect(Rect::cell(7, 9), true), Err(Refusal::Capacity));
    assert_eq!(set.set_rect(column(5), true), Ok(65_536));
    assert_eq!(set.count_rect(Rect::new((0, 4), (LAST, 4))), Ok(65_536));
    assert_eq!(set.count_rect(Rect::new((1, 5), (LAST, LAST))), Ok(65_535));
    assert_eq!(set.set_rect(Rect::new((0, 0), (LAST, LAST - 1)), false), Ok(131_072));
    assert_eq!(runs(&set), 0);
}

// What each rectangle of a patch does is told cell by cell: which cells change, and whether the runs that are left fit.
#[test]
fn rectangles_against_single_cells() {
    let mut random = Random::new(12);
    let mut seen = [0; 2];
    for turn in 0..3_000 {
        let [row, column] = [[0, 0], [5, SIDE - 5], [SIDE - 4, SIDE - 5], [LAST - 3, 2]][turn % 4];
        let mut set = store(1 + random.below(7) as usize);
        if turn % 3 == 0 {
            // Physical positions end among the cells.
            set.set(1 << 40..=1 << 40, true).unwrap();
            set.shift(row * SIDE + column + random.below(4) * SIDE + random.below(5), true).unwrap();
        }
        for _ in 0..12 {
            let (r, c) = (row + random.below(4), column + random.below(5));
            let wide = random.below(column + 5 - c);
            // Those that do not fit are no matter here.
            let _ = set.set(r * SIDE + c..=r * SIDE + c + wide, true);
        }
        let (top, left) = (row + random.below(4), column + random.below(5));
        let rect = Rect::new((top, left), (top + random.below(row + 4 - top), left + random.below(column + 5 - left)));
        let value = random.truth();
        let mut large = store(64);
        let listed: Vec<[u64; 2]> = set.ranges(.., true).unwrap().map(|run| [*run.start(), *run.end()]).collect();
        large.build(&listed).unwrap();
        let mut changed = 0;
        let mut held = 0;
        for r in rect.top..=rect.bottom {
            for c in rect.left..=rect.right {
                held += u64::from(get(&set, r, c));
                let x = r * SIDE + c;
                changed += large.set(x..=x, value).unwrap();
            }
        }
        assert_eq!(set.count_rect(rect), Ok(held), "{rect:?} of {listed:?}");
        let before = set.words().to_vec();
        let capacity = before.len() as u64 / 8 - 49;
        let fits = runs(&large) <= capacity;
        seen[usize::from(fits)] += 1;
        if fits {
            assert_eq!(set.set_rect(rect, value), Ok(changed), "{rect:?} of {listed:?}");
            assert_eq!(set.eq(&large), Ok(true), "{rect:?} of {listed:?}");
        } else {
            assert_eq!(set.set_rect(rect, value), Err(Refusal::Capacity), "{rect:?} of {listed:?}");
            assert!(set.words() == before, "refused, and changed words");
        }
    }
    assert!(seen.iter().all(|&n| n > 300), "{seen:?}");
}

// No state on the way has more runs than are left at the end, or were there before: rows that gain a run wait for those that lose one.
#[test]
fn rows_that_gain_and_rows_that_lose() {
    let mut set = store(40);
    // Twenty rows with two runs each; then the twenty before them gain one each, and these lose one.
    for row in 20..40 {
        set.set_rect(Rect::cell(row, 5), true).unwrap();
        set.set_rect(Rect::cell(row, 7), true).unwrap();
    }
    assert_eq!(runs(&set), 40);
    assert_eq!(set.set_rect(Rect::new((0, 6), (19, 6)), true), Err(Refusal::Capacity));
    assert_eq!(set.set_rect(Rect::new((0, 6), (39, 6)), true), Ok(40));
    assert_eq!(runs(&set), 40);
    // A row more gains one.
    assert_eq!(set.set_rect(Rect::cell(30, 9), true), Err(Refusal::Capacity));
    // Freed cells: those before them lose their run, and these are cut in two.
    assert_eq!(set.set_rect(Rect::new((0, 6), (39, 6)), false), Ok(40));
    assert_eq!(runs(&set), 40);
    assert_eq!(set.set_rect(Rect::new((20, 4), (40, 8)), true), Ok(20 * 3 + 5));
    assert_eq!(runs(&set), 21);
}

#[test]
fn rectangles_off_the_plane() {
    let mut set = store(2);
    set.set_rect(Rect::new((0, 0), (9, LAST)), true).unwrap();
    let before = set.words().to_vec();
    let mut refused = |rect: Rect| {
        for value in [true, false] {
            assert_eq!(set.set_rect(rect, value), Err(Refusal::OffPlane), "{rect:?}");
        }
        assert_eq!(set.count_rect(rect), Err(Refusal::OffPlane), "{rect:?}");
    };
    for n in [SIDE, SIDE + 1, 1 << 32, 1 << 48, M - LAST, M] {
        let on = Rect::new((0, 0), (LAST, LAST));
        for rect in [Rect { top: n, ..on }, Rect { left: n, ..on }, Rect { bottom: n, ..on }, Rect { right: n, ..on }] {
            refused(rect);
        }
        refused(Rect::cell(n, 0));
        refused(Rect::cell(0, n));
        refused(Rect::cell(n, n));
    }
    for (first, second) in [
        ((1, 0), (0, 0)),
        ((0, 1), (0, 0)),
        ((1, 1), (0, 0)),
        ((1, 0), (0, 1)),
        ((0, 1), (1, 0)),
        ((LAST, 0), (0, LAST)),
    ] {
        refused(Rect::new(first, second));
    }
    assert!(set.words() == before, "refused, and changed words");
    assert_eq!(Refusal::OffPlane.number(), 15);
}

#[test]
fn squares_off_the_plane() {
    let set = store(1);
    let mut out = [STALE; 2];
    for k in 0..=8 {
        let side = 1 << k;
        for (row, column) in [(SIDE - side, SIDE - side), (0, SIDE - side), (SIDE - side, 0)] {
            let free = Piece { row, column, rows: side, columns: side, value: 0 };
            assert_eq!(set.survey(row, column, k, &mut out), Ok(&mut [free][..]), "{row} {column} {k}");
            assert_eq!(out[1], STALE);
        }
        out = [STALE; 2];
        for off in [SIDE - side + 1, SIDE, 1 << 32, M - side, M - side + 1, M] {
            for (row, column) in [(off, 0), (0, off), (off, off)] {
                for room in 0..=2 {
                    let told = set.survey(row, column, k, &mut out[..room]);
                    assert_eq!(told, Err(Refusal::OffPlane), "{row} {column} {k}");
                }
            }
        }
        assert_eq!(out, [STALE; 2]);
    }
    for k in [9, 10, 16, 32, 63, 64, 65, 256, 1 << 32, 1 << 63, M] {
        for room in 0..=2 {
            assert_eq!(set.survey(0, 0, k, &mut out[..room]), Err(Refusal::OffPlane), "{k}");
        }
    }
    assert_eq!(out, [STALE; 2]);
}

#[test]
fn one_cell_is_one_piece() {
    let mut set = store(2);
    set.set_rect(Rect::cell(3, 4), true).unwrap();
    let of = |row, column, value| vec![Piece { row, column, rows: 1, columns: 1, value }];
    assert_eq!(survey(&set, 3, 4, 0), of(3, 4, 1));
    assert_eq!(survey(&set, 3, 5, 0), of(3, 5, 0));
    assert_eq!(survey(&set, LAST, LAST, 0), of(LAST, LAST, 0));
    assert!(survey(&set, 3, 4, 0)[0].is_held() && survey(&set, 3, 4, 0)[0].rect() == Rect::cell(3, 4));
}

#[test]
fn columns_are_halved_first() {
    let mut set = store(64);
    let of = |row, column, rows, columns, value| Piece { row, column, rows, columns, value };
    // The left half of a square is held: it is one piece.
    set.set_rect(Rect::new((0, 0), (7, 3)), true).unwrap();
    assert_eq!(survey(&set, 0, 0, 3), [of(0, 0, 8, 4, 1), of(0, 4, 8, 4, 0)]);
    // The upper half is held: it is two.
    set.build(&[]).unwrap();
    set.set_rect(Rect::new((0, 0), (3, 7)), true).unwrap();
    assert_eq!(survey(&set, 0, 0, 3), [of(0, 0, 4, 4, 1), of(4, 0, 4, 4, 0), of(0, 4, 4, 4, 1), of(4, 4, 4, 4, 0)]);
    // A cell in the last corner.
    set.build(&[]).unwrap();
    set.set_rect(Rect::cell(3, 3), true).unwrap();
    let pieces = [of(0, 0, 4, 2, 0), of(0, 2, 2, 2, 0), of(2, 2, 2, 1, 0), of(2, 3, 1, 1, 0), of(3, 3, 1, 1, 1)];
    assert_eq!(survey(&set, 0, 0, 2), pieces);
}

#[test]
fn a_chessboard() {
    // One of 256 by 256 cells has half as many runs as the largest capacity, and as many pieces as cells.
    let mut set = store(65_536);
    for row in 0..256 {
        let cells: Vec<Listed> =
            (row % 2..256).step_by(2).map(|column| Listed::SetRect(Rect::cell(row, column), true)).collect();
        assert!(set.frame(&cells).unwrap().iter().all(|told| *told == Ok(Reply::Count(1))));
    }
    assert_eq!(runs(&set), 32_768);
    assert_eq!(set.count_rect(Rect::new((0, 0), (255, 255))), Ok(32_768));
    let pieces = survey(&set, 0, 0, 8);
    assert_eq!(pieces.len(), 65_536);
    assert!(pieces.iter().all(|p| p.rows == 1 && p.columns == 1 && p.value == (p.row + p.column + 1) % 2));
    assert_eq!(pieces, halved(&|r, c| (r + c) % 2 == 0, 0, 0, 256, 256, true));
    // A word less is too little.
    let mut library = Library { stores: vec![set.into_words()] };
    let mut ask = |room| library.answer(&Call::Survey { at: Place::first(0), row: 0, column: 0, k: 8, room });
    assert_eq!(ask(5 * 65_536 - 1), Told::Refused(Refusal::OutputShort));
    assert!(matches!(ask(5 * 65_536), Told::Words(327_680, _)));
}

#[test]
fn one_blob() {
    let mut set = store(128);
    for row in 60..180_u64 {
        let half = 60 - row.abs_diff(120).min(60);
        if half > 0 {
            set.set_rect(Rect::new((row, 120 - half), (row, 120 + half - 1)), true).unwrap();
        }
    }
    for (row, column, k) in [(0, 0, 8), (60, 60, 7), (64, 64, 6), (119, 119, 3)] {
        let pieces = survey(&set, row, column, k);
        assert_eq!(pieces, halved(&|r, c| get(&set, r, c), row, column, 1 << k, 1 << k, true), "{row} {column} {k}");
    }
}

// Surveys of cells by chance against a plain halving: every cell is in one piece, and the held pieces are the cells again.
#[test]
fn surveys_against_plain_halving() {
    let mut random = Random::new(3);
    for turn in 0..400 {
        let k = turn % 6;
        let side = 1 << k;
        let [row, column] = [[0, 0], [0, SIDE - side], [SIDE - side, SIDE - side], [77, 1_000]][turn as usize / 6 % 4];
        let mut set = store(400);
        set.set(1 << 40.., true).unwrap();
        if turn % 2 == 0 {
            // Physical positions end among the cells.
            set.shift((row + random.below(side)) * SIDE + column + random.below(side), true).unwrap();
        }
        for _ in 0..random.below(12) {
            let (top, left) = (row + random.below(side), column + random.below(side));
            let (bottom, right) = (top + random.below(row + side - top), left + random.below(column + side - left));
            set.set_rect(Rect::new((top, left), (bottom, right)), random.truth()).unwrap();
        }
        let pieces = survey(&set, row, column, k);
        assert_eq!(pieces, halved(&|r, c| get(&set, r, c), row, column, side, side, true));
        assert_eq!(pieces.iter().map(|p| p.rows * p.columns).sum::<u64>(), side * side);
        let mut again = store(400);
        for piece in &pieces {
            let cells = piece.rows * piece.columns;
            assert_eq!(set.count_rect(piece.rect()), Ok(cells * piece.value));
            assert_eq!(again.set_rect(piece.rect(), true), Ok(cells.into()), "a cell is in two pieces");
            again.set_rect(piece.rect(), piece.is_held()).unwrap();
        }
        let whole = Rect::new((row, column), (row + side - 1, column + side - 1));
        assert_eq!(again.count_rect(Rect::PLANE), set.count_rect(whole));
    }
}

#[test]
fn equal_sets_survey_alike() {
    let mut random = Random::new(4);
    for turn in 0..60 {
        let mut rects = Vec::new();
        for _ in 0..8 {
            let (top, left) = (random.below(16), random.below(16));
            rects.push(Rect::new((top, left), (top + random.below(16 - top), left + random.below(16 - left))));
        }
        let mut there = store(200);
        for &rect in &rects {
            there.set_rect(rect, true).unwrap();
        }
        // The same in another order, cell by cell, and moved there from elsewhere, in pools of other capacities.
        let mut other = store(1_000);
        for rect in rects.iter().rev() {
            for row in (rect.top..=rect.bottom).rev() {
                for column in rect.left..=rect.right {
                    other.set_rect(Rect::cell(row, column), true).unwrap();
                }
            }
        }
        let mut moved = store(300 + turn);
        for rect in &rects {
            let [top, bottom] = [rect.top, rect.bottom].map(|row| row + 40);
            moved.set_rect(Rect { top, bottom, ..*rect }, true).unwrap();
        }
        moved.shift(40 * SIDE, false).unwrap();
        let mut inverted = store(300);
        inverted.set_rect(Rect::PLANE, true).unwrap();
        for &rect in &rects {
            inverted.set_rect(rect, false).unwrap();
        }
        inverted.flip(..1 << 32).unwrap();
        for k in [0, 2, 4, 5] {
            let told = survey(&there, 0, 0, k);
            for set in [&other, &moved, &inverted] {
                assert_eq!(there.eq(set), Ok(true));
                assert_eq!(survey(set, 0, 0, k), told);
            }
        }
    }
}

// What each of the three calls is refused with, and that words and slice stay.
fn refused(words: &mut [u64], world: u64, rect: Rect, k: u64, room: usize) -> [Answer<()>; 3] {
    let before = words.to_vec();
    let mut out = vec![STALE; room];
    let mut set = Set::from_words(&mut *words);
    let told = [
        set.world_mut(world).set_rect(rect, true).map(drop),
        set.world(world).count_rect(rect).map(drop),
        set.world(world).survey(rect.top, rect.left, k, &mut out).map(drop),
    ];
    assert!(*words == before, "refused, and changed words");
    assert!(out.iter().all(|&piece| piece == STALE), "refused, and changed the slice");
    told
}

#[test]
fn refusals_in_their_order() {
    let (off, swapped) = (Rect::cell(SIDE, SIDE), Rect::new((9, 9), (8, 8)));
    // 1, then 7, then 12, whatever the rectangle, the square and the slice are.
    assert_eq!(refused(&mut [0; 24], 3, off, 9, 0), [Err(Refusal::StoreLength); 3]);
    let mut pool = PoolBuf::with_capacity(1, &[Limits::NONE, Limits::NONE]).unwrap();
    pool.world_mut(1).set(2..8, true).unwrap();
    let mut words = pool.into_words();
    assert_eq!(refused(&mut words, 2, off, 9, 0), [Err(Refusal::WorldUnopened); 3]);
    assert_eq!(refused(&mut words, M, swapped, 9, 0), [Err(Refusal::WorldUnopened); 3]);
    assert_eq!(refused(&mut words, 2, Rect::cell(0, 9), 3, 0), [Err(Refusal::WorldUnopened); 3]);
    // 15 before 8 and 2.
    assert_eq!(refused(&mut words, 1, off, 3, 0), [Err(Refusal::OffPlane); 3]);
    assert_eq!(refused(&mut words, 1, swapped, 9, 0), [Err(Refusal::OffPlane); 3]);
    assert_eq!(
        refused(&mut words, 1, Rect::cell(0, 9), 3, 0),
        [Err(Refusal::Capacity), Ok(()), Err(Refusal::OutputShort)]
    );
    words[7] = 1;
    assert_eq!(refused(&mut words, 2, off, 9, 0), [Err(Refusal::Unsound); 3]);
    assert_eq!(refused(&mut words, 1, Rect::cell(0, 9), 3, 0), [Err(Refusal::Unsound); 3]);
}

#[test]
fn a_slice_that_is_too_short_stays() {
    let mut set = store(8);
    set.set_rect(Rect::new((0, 0), (3, 7)), true).unwrap();
    let due: Vec<u64> =
        survey(&set, 0, 0, 3).iter().flat_map(|p| [p.row, p.column, p.rows, p.columns, p.value]).collect();
    assert_eq!(due.len(), 20);
    let mut library = Library { stores: vec![set.into_words()] };
    let mut ask = |room| library.answer(&Call::Survey { at: Place::first(0), row: 0, column: 0, k: 3, room });
    // The library's side tells where a refused call changed the slice.
    for room in 0..20 {
        assert_eq!(ask(room), Told::Refused(Refusal::OutputShort), "{room} words");
    }
    for room in 20..26 {
        let mut all = due.clone();
        all.resize(room, 0xEEEE_EEEE_EEEE_EEEE);
        assert_eq!(ask(room), Told::Words(20, all), "{room} words");
    }
}

#[test]
fn what_other_worlds_leave() {
    let limits = [Limits { floor: 3, ceiling: 9 }, Limits { floor: 0, ceiling: 4 }, Limits { floor: 1, ceiling: 9 }];
    let mut pool = PoolBuf::with_capacity(8, &limits).unwrap();
    // World 1 has four rows, by its ceiling; then world 0 has as many as its floor, and world 2 too.
    assert_eq!(pool.world_mut(1).set_rect(Rect::new((0, 0), (4, 0)), true), Err(Refusal::Capacity));
    assert_eq!(pool.world_mut(1).set_rect(Rect::new((0, 0), (3, 0)), true), Ok(4));
    assert_eq!(pool.world_mut(0).set_rect(Rect::new((0, 0), (3, 0)), true), Err(Refusal::Capacity));
    assert_eq!(pool.world_mut(0).set_rect(Rect::new((0, 0), (2, 0)), true), Ok(3));
    assert_eq!(pool.world_mut(2).set_rect(Rect::new((7, 7), (7, 9)), true), Ok(3));
    assert_eq!(pool.world_mut(2).set_rect(Rect::new((8, 7), (8, 9)), true), Err(Refusal::Capacity));
    assert_eq!([0, 1, 2].map(|world| pool.world(world).count_rect(Rect::PLANE)), [Ok(3), Ok(4), Ok(3)]);
}

#[test]
fn in_a_frame() {
    let mut set = store(2);
    let told = set.frame(&[
        Listed::SetRect(Rect::new((1, 2), (2, 4)), true),
        Listed::CountRect(Rect::new((1, 3), (9, 9))),
        Listed::SetRect(Rect::cell(1, 3), false),
        Listed::SetRect(Rect::new((2, 4), (1, 2)), false),
        Listed::CountRect(Rect::new((0, 0), (0, SIDE))),
        Listed::SetRect(Rect::PLANE, true),
    ]);
    let off = Err(Refusal::OffPlane);
    let all = Ok(Reply::Count((1 << 32) - 6));
    assert_eq!(
        told,
        Ok(vec![Ok(Reply::Count(6)), Ok(Reply::Number(4)), Err(Refusal::Capacity), off.clone(), off, all])
    );
}
