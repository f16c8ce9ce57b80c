//! Queries over reservation records, at the borders of these and beyond, some of them refused.

use super::tables::{base, broken_table, end, is_open, length, one_changed, table};
use super::Random;
use crate::queries::{Kind, Query, KINDS};

/// Eight queries of each kind over one table, which one in six times is broken.
pub fn over_a_table(random: &mut Random) -> Vec<Query> {
    let rows = if random.one_in(6) { broken_table(random) } else { table(random) };
    KINDS.iter().cycle().take(24).map(|kind| query(random, *kind, &rows)).collect()
}

/// A query over the records of a state, over a table or over any numbers, and often with any operands.
pub fn odd(random: &mut Random, kind: Kind, of_state: &[u64]) -> Query {
    let rows = match random.below(8) {
        0 => (0..random.below(70)).map(|_| any_number(random)).collect(),
        1 => broken_table(random),
        2 => one_changed(random),
        3 => table(random),
        _ => of_state.to_vec(),
    };
    let mut query = query(random, kind, &rows);
    if random.one_in(4) {
        (query.first, query.cells) = (any_number(random), any_number(random));
        query.room = random.below(130);
    }
    query
}

/// Of any size.
fn any_number(random: &mut Random) -> u64 {
    random.number() >> random.below(64)
}

fn query(random: &mut Random, kind: Kind, rows: &[u64]) -> Query {
    let (first, cells) = match kind {
        Kind::Nearest => (near(random, rows), fitting(random, rows)),
        _ if random.one_in(6) => broken_range(random, rows),
        _ => range(random, rows),
    };
    let rooms = if random.one_in(12) { [0, 1, 63, 63] } else { [64, 64, 65, 100] };
    Query { kind, rows: rows.into(), first, cells, room: *random.pick(&rooms) }
}

fn any_record(random: &mut Random, rows: &[u64]) -> u64 {
    random.pick_any(rows.iter().copied()).unwrap_or(0)
}

fn last_end(rows: &[u64]) -> u64 {
    rows.last().map_or(0, |row| end(*row))
}

/// About the borders of a record, its middle, about the last cell, or any.
fn place(random: &mut Random, rows: &[u64]) -> u64 {
    let row = any_record(random, rows);
    match random.below(8) {
        0 => base(row).saturating_sub(1),
        1 => base(row),
        2 => base(row) + 1,
        3 => end(row).saturating_sub(1),
        4 => end(row),
        5 => base(row) + length(row) / 2,
        6 => last_end(rows).saturating_sub(random.below(2) as u64),
        _ => random.below(last_end(rows) as usize + 1) as u64,
    }
}

/// First cell and length, within the table: all cells, one, those of a record or of several, or those
/// between two places.
fn range(random: &mut Random, rows: &[u64]) -> (u64, u64) {
    let (one, other) = (any_record(random, rows), any_record(random, rows));
    let (from, to) = match random.below(6) {
        0 => (0, last_end(rows)),
        1 => (place(random, rows), 0),
        2 => (base(one), end(one)),
        3 => (base(one).min(base(other)), end(one).max(end(other))),
        _ => {
            let (one, other) = (place(random, rows), place(random, rows));
            (one.min(other), one.max(other))
        }
    };
    let from = from.min(last_end(rows).saturating_sub(1));
    (from, to.max(from + 1) - from)
}

/// Ranges that are empty or run past the end, some of which would not if a number were cut.
fn broken_range(random: &mut Random, rows: &[u64]) -> (u64, u64) {
    let (first, cells) = range(random, rows);
    let end = last_end(rows);
    let bit = *random.pick(&[1 << 16, 1 << 32, 1 << 63]);
    match random.below(8) {
        0 | 1 => (first, 0),
        2 => (first, end.saturating_sub(first) + 1),
        3 => (end, 1),
        4 => (first + bit, cells),
        5 => (first, cells + bit),
        // The sum is a place in the table if it is cut to 64 bits.
        6 => (u64::MAX - first, first + 1 + cells),
        _ => (*random.pick(&[first, u64::MAX]), u64::MAX - random.below(2) as u64),
    }
}

/// A place in the table, one between two Open records, one past the end, or a number far above.
fn near(random: &mut Random, rows: &[u64]) -> u64 {
    let (place, any) = (place(random, rows), random.number());
    let open: Vec<u64> = rows.iter().copied().filter(|row| is_open(*row)).collect();
    let halfway = |two: &[u64]| (end(two[0]).saturating_sub(1) + base(two[1])) / 2;
    match random.below(10) {
        8 | 9 => random.pick_any(open.windows(2)).map_or(place, halfway),
        0 => place + *random.pick(&[1 << 12, 1 << 16, 1 << 32, 1 << 63]),
        1 => *random.pick(&[u64::MAX, u64::MAX - 1, 1 << 63, (1 << 63) - 1, any]),
        _ => place,
    }
}

/// As many cells as a record has or the longest Open one, one more, one less, few, or more than any
/// has; at times none.
fn fitting(random: &mut Random, rows: &[u64]) -> u64 {
    let length_of_any = length(any_record(random, rows));
    let open = rows.iter().filter(|row| is_open(**row));
    let longest = open.map(|row| length(*row)).max().unwrap_or(0);
    match random.below(12) {
        0 | 1 => 0,
        2 => *random.pick(&[4_096, 4_097, (1 << 16) + 1, (1 << 32) + 1, u64::MAX]),
        3 => length_of_any + 1,
        4 => length_of_any.max(2) - 1,
        5 => length_of_any.max(1),
        6 => 1 + random.below(70) as u64,
        7 => longest.max(1),
        8 => longest + 1,
        _ => 1,
    }
}
