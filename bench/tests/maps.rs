//! Request 2026-07: which reservations lie here. What is expected in all tests but the last is worked
//! out from the request by hand; every version must answer it.

use cetomuhi_bench::generate::{queries, Random};
use cetomuhi_bench::plain::maps::Cause::{self, *};
use cetomuhi_bench::proved;
use cetomuhi_bench::queries::{Kind, Queries, Query, Reply, KINDS, LOOPS, PROVED};

/// Base, length and state.
type Record = (u64, u64, u64);

/// Holder 255 and taker 254, which no table has, and all bits above them: none of them is judged.
fn rows(records: &[Record]) -> Box<[u64]> {
    let row = |(base, length, state): &Record| base | length << 16 | state << 32 | 0xFF_FEFF << 40;
    records.iter().map(row).collect()
}

/// What is found cell by cell; the other versions must answer the same.
fn answer(query: &Query) -> (Reply, Vec<Cause>) {
    let (expected, causes) = query.expected();
    assert_eq!(query.fault(&LOOPS, &expected), None);
    if proved::LINKED {
        assert_eq!(query.fault(&PROVED, &expected), None);
    }
    (expected, causes)
}

/// The bases listed, in a slice of 65 entries whose rest is kept.
fn list(kind: Kind, records: &[Record], first: u64, cells: u64) -> Vec<u16> {
    let (reply, _) = answer(&Query { kind, rows: rows(records), first, cells, room: 65 });
    let count = reply.numbers[0] as usize;
    let rest = Reply::unwritten(65).bases;
    assert_eq!((reply.code, &reply.bases[count..]), (0, &rest[count..]), "{first} {cells}");
    reply.bases[..count].to_vec()
}

fn nearest(records: &[Record], cell: u64, cells: u64) -> Option<u64> {
    let rows = rows(records);
    let (reply, _) = answer(&Query { kind: Kind::Nearest, rows, first: cell, cells, room: 0 });
    match (reply.code, reply.numbers) {
        (0, [0, 0]) => None,
        (0, [1, base]) => Some(base),
        other => panic!("{cell} {cells}: {other:?}"),
    }
}

/// Why a query is refused, which must leave everything as it was.
fn causes(kind: Kind, records: &[Record], first: u64, cells: u64, room: usize) -> Vec<Cause> {
    let (reply, causes) = answer(&Query { kind, rows: rows(records), first, cells, room });
    let code = if causes.is_empty() { 0 } else { 25 };
    assert_eq!(reply.code, code, "{causes:?}");
    assert!(code == 0 || reply == Reply { code, ..Reply::unwritten(room) }, "{causes:?}");
    causes
}

/// Open, Taken, Open, Revoking, Open, up to cell 40.
const FIVE: [Record; 5] = [(0, 10, 0), (10, 1, 1), (11, 20, 0), (31, 5, 2), (36, 4, 0)];

#[test]
fn those_that_share_a_cell() {
    let sharing = |first, cells| list(Kind::Sharing, &FIVE, first, cells);
    assert_eq!(sharing(0, 1), [0]);
    assert_eq!(sharing(9, 1), [0]);
    assert_eq!(sharing(9, 2), [0, 10]);
    assert_eq!(sharing(9, 3), [0, 10, 11]);
    assert_eq!(sharing(10, 1), [10]);
    assert_eq!(sharing(12, 3), [11]);
    assert_eq!(sharing(30, 1), [11]);
    assert_eq!(sharing(30, 2), [11, 31]);
    assert_eq!(sharing(30, 7), [11, 31, 36]);
    assert_eq!(sharing(39, 1), [36]);
    assert_eq!(sharing(0, 40), [0, 10, 11, 31, 36]);
}

#[test]
fn those_within() {
    let within = |first, cells| list(Kind::Within, &FIVE, first, cells);
    assert_eq!(within(0, 9), []);
    assert_eq!(within(0, 10), [0]);
    assert_eq!(within(1, 9), []);
    assert_eq!(within(1, 10), [10]);
    assert_eq!(within(10, 1), [10]);
    assert_eq!(within(10, 20), [10]);
    assert_eq!(within(10, 21), [10, 11]);
    assert_eq!(within(12, 19), []);
    assert_eq!(within(9, 27), [10, 11, 31]);
    assert_eq!(within(36, 4), [36]);
    assert_eq!(within(37, 3), []);
    assert_eq!(within(0, 39), [0, 10, 11, 31]);
    assert_eq!(within(0, 40), [0, 10, 11, 31, 36]);
}

#[test]
fn the_nearest_open_one() {
    let nearest = |cell, cells| nearest(&FIVE, cell, cells);
    for (cell, base) in [(0, 0), (9, 0), (11, 11), (30, 11), (32, 11), (34, 36), (39, 36)] {
        assert_eq!(nearest(cell, 1), Some(base), "{cell}");
    }
    // Cell 10 is 1 from 9 and from 11; cell 33 is 3 from 30 and from 36.
    assert_eq!((nearest(10, 1), nearest(33, 1)), (Some(0), Some(11)));
    for cell in [40, 41, 4_096, 1 << 16, 1 << 32, 1 << 63, u64::MAX] {
        assert_eq!((nearest(cell, 4), nearest(cell, 5)), (Some(36), Some(11)), "{cell}");
    }
    assert_eq!((nearest(0, 10), nearest(0, 11)), (Some(0), Some(11)));
    assert_eq!((nearest(0, 20), nearest(0, 21)), (Some(11), None));
    for cells in [4_096, (1 << 16) + 1, (1 << 32) + 1, u64::MAX] {
        assert_eq!(nearest(12, cells), None, "{cells}");
    }
}

#[test]
fn state_0_alone_is_open() {
    for state in [1, 2, 3, 4, 5, 16, 128, 255] {
        let records = [(0, 8, state), (8, 4, 0), (12, 8, state)];
        assert_eq!(nearest(&records, 0, 1), Some(8), "{state}");
        assert_eq!(nearest(&records, 0, 5), None, "{state}");
        assert_eq!(nearest(&records[..1], 0, 1), None, "{state}");
        assert_eq!(list(Kind::Within, &records, 0, 20), [0, 8, 12], "{state}");
        assert_eq!(list(Kind::Sharing, &records, 7, 6), [0, 8, 12], "{state}");
    }
}

/// So many records of equal length.
fn equal(count: u64, length: u64) -> Vec<Record> {
    (0..count).map(|place| (place * length, length, 0)).collect()
}

#[test]
fn full_tables() {
    let bases: Vec<u16> = (0..64).map(|place| 64 * place).collect();
    for kind in [Kind::Sharing, Kind::Within] {
        assert_eq!(list(kind, &equal(64, 64), 0, 4_096), bases);
        assert_eq!(list(kind, &equal(1, 4_096), 0, 4_096), [0]);
    }
    assert_eq!(list(Kind::Sharing, &equal(64, 64), 4_095, 1), [4_032]);
    assert_eq!(list(Kind::Within, &equal(64, 64), 63, 65), [64]);
    assert_eq!(nearest(&equal(64, 64), u64::MAX, 64), Some(4_032));
    assert_eq!(nearest(&equal(1, 4_096), 0, 4_096), Some(0));
}

#[test]
fn records_that_are_no_table() {
    let shifted: Vec<Record> = FIVE.iter().map(|(base, n, state)| (base + 1, *n, *state)).collect();
    let tables: [(&[Record], &[Cause]); 16] = [
        (&[], &[NoRecords]),
        (&equal(65, 1), &[Over64Records]),
        (&equal(65, 63), &[Over64Records]),
        (&equal(65, 64), &[Over64Records, EndAbove4096]),
        (&[(0, 0, 0)], &[LengthZero]),
        (&[(0, 4, 0), (4, 0, 0), (4, 4, 0)], &[LengthZero]),
        (&[(0, 4, 0), (4, 4, 0), (8, 0, 1)], &[LengthZero]),
        (&[(0, 4, 0), (5, 4, 0)], &[NotTiling]),
        (&[(0, 4, 0), (3, 4, 0)], &[NotTiling]),
        (&[(4, 4, 0), (0, 4, 0)], &[NotTiling]),
        (&[(0, 4, 0), (0, 4, 0)], &[NotTiling]),
        (&shifted, &[NotTiling]),
        (&[(0, 4_096, 0), (4_096, 1, 0)], &[EndAbove4096]),
        (&[(0, 65_535, 0)], &[EndAbove4096]),
        // It ends at 65,536, which is 0 in 16 bits.
        (&[(0, 4_000, 0), (4_000, 61_536, 0)], &[EndAbove4096]),
        (&[(0, 4_000, 0), (4_000, 61_537, 0), (1, 9, 0)], &[NotTiling, EndAbove4096]),
    ];
    for (records, expected) in tables {
        for kind in KINDS {
            assert_eq!(causes(kind, records, 0, 1, 64), expected, "{kind:?} of {records:?}");
        }
    }
}

#[test]
fn ranges_and_slices_that_will_not_do() {
    for kind in [Kind::Sharing, Kind::Within] {
        let causes = |first, cells, room| causes(kind, &FIVE, first, cells, room);
        for first in [0, 10, 39, 40] {
            assert_eq!(causes(first, 0, 64), [EmptyRange], "{first}");
        }
        let past = [(0, 41), (39, 2), (40, 1), (41, 1), (1 << 16, 1), (1 << 32, 1), (u64::MAX, 1)];
        let cut = [(0, (1 << 16) + 1), (0, (1 << 32) + 1), (1, u64::MAX), (u64::MAX, 2)];
        for (first, cells) in past.into_iter().chain(cut) {
            assert_eq!(causes(first, cells, 64), [RangePastEnd], "{first} {cells}");
        }
        for room in [0, 1, 63] {
            assert_eq!(causes(0, 1, room), [SliceBelow64], "{room}");
        }
        for room in [64, 65, 100] {
            assert_eq!(causes(0, 40, room), [], "{room}");
        }
        assert_eq!(causes(41, 0, 63), [EmptyRange, RangePastEnd, SliceBelow64]);
    }
}

#[test]
fn nearest_wants_a_cell() {
    for cell in [0, 10, 40, u64::MAX] {
        assert_eq!(causes(Kind::Nearest, &FIVE, cell, 0, 0), [NoCells]);
        assert_eq!(causes(Kind::Nearest, &FIVE, cell, 1, 0), []);
    }
    assert_eq!(causes(Kind::Nearest, &FIVE[1..], 0, 0, 0), [NotTiling, NoCells]);
}

#[test]
fn generated_queries_are_of_all_sorts() {
    let (mut random, mut tally) = (Random::new(8), Queries::default());
    for _ in 0..1_000 {
        for query in queries::over_a_table(&mut random) {
            let (expected, causes) = answer(&query);
            tally.count(&query, &expected, &causes);
        }
    }
    // Sharing is never empty; every kind has five causes in its records.
    assert_eq!((tally.cases.len(), tally.causes.len()), (5 + 6 + 5, 8 + 8 + 6), "{tally}");
    assert!(tally.cases.values().all(|count| *count > 50), "{tally}");
    assert!(tally.causes.values().all(|[_, alone]| *alone > 50), "{tally}");
}
