//! Reservation records in their numbers: those that tile from cell 0, of all shapes, and broken ones.

use super::Random;
use crate::plain::maps::LAST_END;
use crate::plain::table::ROWS;
use std::collections::BTreeSet;

/// One to 64 records that tile from cell 0 and end at 4,096 or below.
pub fn table(random: &mut Random) -> Vec<u64> {
    let lengths = lengths(random);
    records(random, &lengths)
}

fn lengths(random: &mut Random) -> Vec<usize> {
    let any = 1 + random.below(ROWS);
    let count = *random.pick(&[1, 2, 3, 8, 63, 64, any, any]);
    match random.below(6) {
        0 => vec![1 + random.below(LAST_END / count); count],
        1 => vec![LAST_END / count; count],
        2 => (0..count).map(|_| 1 + random.below(5)).collect(),
        3 => one_large(random, count),
        _ => cut(random, count),
    }
}

/// All of one cell but one, which often makes them end at 4,096.
fn one_large(random: &mut Random, count: usize) -> Vec<usize> {
    let most = LAST_END - (count - 1);
    let some = 1 + random.below(most);
    let mut lengths = vec![1; count];
    lengths[random.below(count)] = *random.pick(&[most, some]);
    lengths
}

/// Cells up to 4,096 or to any end, cut at any places.
fn cut(random: &mut Random, count: usize) -> Vec<usize> {
    let some = count + random.below(LAST_END - count + 1);
    let end = *random.pick(&[LAST_END, some, some]);
    let mut cuts = BTreeSet::from([end]);
    while cuts.len() < count {
        cuts.insert(1 + random.below(end));
    }
    let mut base = 0;
    cuts.into_iter().map(|cut| cut - std::mem::replace(&mut base, cut)).collect()
}

/// Records of these lengths one behind the other, their bases cut to 16 bits. States, holders and
/// takers are of all sorts, and at times the bits above them are set.
fn records(random: &mut Random, lengths: &[usize]) -> Vec<u64> {
    let mood = random.below(8);
    let has_high_bits = random.one_in(8);
    let mut base = 0;
    let record = |(place, length): (usize, &usize)| {
        let state = match mood {
            0 => 0,
            1 => place % 2,
            2 => usize::from(!random.one_in(8)),
            3 => 1 + random.below(4),
            4 => random.below(2) * random.below(256),
            5 => usize::from(random.one_in(3)),
            _ => random.below(5),
        };
        let rest = random.number() & if has_high_bits { 0xFF_FFFF } else { 0xFFFF };
        let row = with_length(with_base(0, base as u64), *length as u64);
        base += length;
        row | (state as u64) << 32 | rest << 40
    };
    lengths.iter().enumerate().map(record).collect()
}

pub fn base(row: u64) -> u64 {
    row & 0xFFFF
}

pub fn length(row: u64) -> u64 {
    row >> 16 & 0xFFFF
}

pub fn end(row: u64) -> u64 {
    base(row) + length(row)
}

pub fn is_open(row: u64) -> bool {
    row >> 32 & 0xFF == 0
}

fn with_base(row: u64, base: u64) -> u64 {
    row & !0xFFFF | base & 0xFFFF
}

fn with_length(row: u64, length: u64) -> u64 {
    row & !(0xFFFF << 16) | (length & 0xFFFF) << 16
}

/// Records broken in one of the ways that the request names, some of them in another too.
pub fn broken_table(random: &mut Random) -> Vec<u64> {
    match random.below(8) {
        0 => vec![],
        1 => {
            let count = *random.pick(&[65, 65, 66, 100, 300]);
            let lengths: Vec<usize> = (0..count).map(|_| 1 + random.below(13)).collect();
            records(random, &lengths)
        }
        2 => with_another(random, 0),
        // All lengths together, cut to 16 bits, are one less than before.
        3 => with_another(random, 0xFFFF),
        4 => reaching_above(random),
        5 => one_changed(random),
        _ => not_tiling(random),
    }
}

/// Records one behind the other, among them one of this length.
fn with_another(random: &mut Random, length: usize) -> Vec<u64> {
    let mut lengths = lengths(random);
    lengths.truncate(ROWS - 1);
    lengths.insert(random.below(lengths.len() + 1), length);
    records(random, &lengths)
}

/// The last record ends at 4,097 or beyond, its end cut to 16 bits at times below.
fn reaching_above(random: &mut Random) -> Vec<u64> {
    let mut rows = table(random);
    let last = rows.len() - 1;
    let from = base(rows[last]);
    let over = LAST_END as u64 + 1 - from;
    let far = over + random.below(60_000) as u64;
    let cut = 0x1_0000 - from + random.below(100) as u64;
    let longer = *random.pick(&[over, over, far, cut, 0xFFFF]);
    rows[last] = with_length(rows[last], longer.min(0xFFFF));
    rows
}

/// One bit of one record is another, which may break nothing.
pub fn one_changed(random: &mut Random) -> Vec<u64> {
    let mut rows = table(random);
    let place = random.below(rows.len());
    rows[place] ^= 1 << random.below(64);
    rows
}

/// A gap, an overlap or another order.
fn not_tiling(random: &mut Random) -> Vec<u64> {
    let mut rows = table(random);
    let place = random.below(rows.len());
    let most = *random.pick(&[1, 100]);
    let by = 1 + random.below(most) as u64;
    match random.below(5) {
        0 => rows[place..].iter_mut().for_each(|row| *row = with_base(*row, base(*row) + by)),
        1 => rows[place] = with_base(rows[place], base(rows[place]).wrapping_sub(by)),
        2 => rows[place] = with_length(rows[place], length(rows[place]) + by),
        3 if rows.len() > 1 => _ = rows.remove(random.below(rows.len() - 1)),
        _ => rows.swap(place, 0),
    }
    rows
}
