//! Written sets of both editions: what is written, that every reader takes both, and the converter.

use vizturel::differential::EDITIONS;
use vizturel::differential::random::Random;
use vizturel::differential::reference::{Run, encode};
use vizturel::{Answer, Edition, Refusal, SetBuf, convert};

const M: u64 = u64::MAX;
const STALE: u8 = 0xEE;

fn set_of(runs: &[Run]) -> SetBuf {
    let mut set = SetBuf::with_capacity(runs.len().max(1)).unwrap();
    set.build(runs).unwrap();
    set
}

// What converting into a slice of so much room tells, and the slice.
fn converted(bytes: &[u8], room: usize) -> (Answer<usize>, Vec<u8>) {
    let mut out = vec![STALE; room];
    let told = convert(bytes, &mut out).map(|part| part.len());
    (told, out)
}

// Whether the slice is as it was, and which refusal was given.
fn refused(bytes: &[u8], room: usize) -> Option<u64> {
    let (told, out) = converted(bytes, room);
    assert!(told.is_ok() || out.iter().all(|&byte| byte == STALE), "refused, and changed bytes");
    told.err().map(Refusal::number)
}

// So many runs whose bytes are of every value, some at the ends of the positions.
fn scattered(count: usize, random: &mut Random) -> Vec<Run> {
    let mut ends: Vec<u64> = (0..2 * count).map(|_| random.number()).collect();
    if random.truth() && count > 0 {
        (ends[0], ends[1]) = (0, M);
    }
    ends.sort_unstable();
    // Two neighbours that lie too close together hardly ever come up.
    ends.dedup();
    let runs: Vec<Run> = ends.as_chunks().0.to_vec();
    assert!(runs.windows(2).all(|w| w[1][0] - w[0][1] >= 2));
    runs
}

#[test]
fn columns_have_like_bytes_together() {
    let set = set_of(&[[2, 3], [0x0102_0304_0506_0708, 0x1112_1314_1516_1718], [M - 1, M]]);
    let mut out = [STALE; 64];
    let due = [
        [2, 0, 0].as_slice(),
        &[0, 3],
        &[0, 0x01, 0xFF],
        &[0, 0x02, 0xFF],
        &[0, 0x03, 0xFF],
        &[0, 0x04, 0xFF],
        &[0, 0x05, 0xFF],
        &[0, 0x06, 0xFF],
        &[0, 0x07, 0xFF],
        &[2, 0x08, 0xFE],
        &[0, 0x11, 0xFF],
        &[0, 0x12, 0xFF],
        &[0, 0x13, 0xFF],
        &[0, 0x14, 0xFF],
        &[0, 0x15, 0xFF],
        &[0, 0x16, 0xFF],
        &[0, 0x17, 0xFF],
        &[3, 0x18, 0xFF],
    ]
    .concat();
    assert_eq!(set.write(Edition::Columns, &mut out).unwrap(), due);
    assert_eq!(out[due.len()..], [STALE; 11]);
}

#[test]
fn sets_of_few_and_many_runs_go_to_and_fro() {
    let mut random = Random::new(8);
    for count in (0..=40).chain([255, 256, 257, 1000]) {
        let runs = scattered(count, &mut random);
        let set = set_of(&runs);
        let due = EDITIONS.map(|edition| encode(edition, &runs));
        let length = due[0].len();
        for (edition, due) in EDITIONS.into_iter().zip(&due) {
            let mut out = vec![STALE; length + 3];
            assert_eq!(set.write(edition, &mut out).unwrap(), due);
            assert_eq!(out[length..], [STALE; 3]);
            let mut loaded = SetBuf::with_capacity(1000).unwrap();
            loaded.load(due).unwrap();
            assert_eq!(loaded.eq(&set), Ok(true), "{count} runs, {edition:?}");
            let mut short = vec![STALE; length - 1];
            assert_eq!(set.write(edition, &mut short), Err(Refusal::OutputShort));
            assert!(short.iter().all(|&byte| byte == STALE));
        }
        // Each is the other's, and the bytes after it stay.
        for (from, to) in [(&due[0], &due[1]), (&due[1], &due[0])] {
            let (told, out) = converted(from, length + 3);
            assert_eq!((told, &out[..length], &out[length..]), (Ok(length), &to[..], &[STALE; 3][..]));
            assert_eq!(converted(from, length), (Ok(length), to.clone()));
            assert_eq!(refused(from, length - 1), Some(2));
            assert_eq!(refused(from, 0), Some(2));
        }
    }
}

#[test]
fn the_converter_refuses_as_a_reader_does_and_then_by_2() {
    let mut other = SetBuf::with_capacity(8).unwrap();
    let mut number = |bytes: &[u8]| {
        let told = other.load(bytes).err().map(Refusal::number);
        // Whether there is room or not: 2 comes last.
        assert_eq!(refused(bytes, bytes.len()), told, "{bytes:?}");
        if told.is_some() {
            assert_eq!(refused(bytes, 0), told, "{bytes:?}");
        }
        told
    };
    for version in 0..=255 {
        let refusal = if version == 1 || version == 2 { None } else { Some(4) };
        assert_eq!(number(&[version, 0, 0, 0, 0]), refusal);
        assert_eq!(number(&[version, 0, 0, 0]), Some(3));
        assert_eq!(number(&[version, 0, 0, 0, 1]), refusal.or(Some(3)));
        assert_eq!(number(&[version, 255, 255, 255, 255]), refusal.or(Some(3)));
    }
    assert_eq!(number(&[]), Some(3));
    let wrong: [&[Run]; 6] = [
        &[[4, 3]],
        &[[2, 3], [4, 5]],
        &[[2, 3], [3, 9]],
        &[[8, 9], [2, 3]],
        &[[2, M], [0, 0]],
        &[[0, 0], [2, 2], [M, 4]],
    ];
    for runs in wrong {
        for edition in EDITIONS {
            let mut bytes = encode(edition, runs);
            assert_eq!(number(&bytes), Some(5), "{runs:?}, {edition:?}");
            bytes.push(0);
            assert_eq!(number(&bytes), Some(3));
            bytes[0] = 3;
            assert_eq!(number(&bytes), Some(4));
        }
    }
    // The bytes of one edition with the version of the other tell other runs, or none.
    let mut bytes = encode(Edition::Columns, &[[2, 3], [8, 9]]);
    bytes[0] = 1;
    assert_eq!(number(&bytes), Some(5));
}

// The example that the converter's documentation shows.
#[test]
fn the_converters_example() -> Answer<()> {
    let mut slots = SetBuf::with_capacity(8)?;
    slots.set(2..4, true)?;
    slots.set(8..10, true)?;
    let [mut rows, mut columns, mut again] = [[0; 64]; 3];
    let rows = slots.write(Edition::Rows, &mut rows)?;
    let columns = convert(rows, &mut columns)?;
    assert_eq!((columns[0], &columns[5 + 2 * 7..][..2], &columns[5 + 2 * 15..]), (2, &[2, 8][..], &[3, 9][..]));
    assert_eq!(columns, slots.write(Edition::Columns, &mut again)?);
    assert_eq!(convert(columns, &mut again)?, rows);
    Ok(())
}
