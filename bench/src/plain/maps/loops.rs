//! The queries by ordinary loops over the records, as one would write them: what the proved ones are
//! timed against. The code is 0, or 25 with nothing written.

use super::{LAST_END, LIST_ROOM, REFUSED};
use crate::plain::table::ROWS;

fn base(row: u64) -> u64 {
    row & 0xFFFF
}

fn length(row: u64) -> u64 {
    row >> 16 & 0xFFFF
}

fn is_open(row: u64) -> bool {
    (row >> 32) as u8 == 0
}

/// Where the records end, if they tile from cell 0 and are as many and as long as they may be.
fn end(rows: &[u64]) -> Option<u64> {
    if rows.is_empty() || rows.len() > ROWS {
        return None;
    }
    let mut end = 0;
    for row in rows {
        if base(*row) != end || length(*row) == 0 {
            return None;
        }
        end += length(*row);
    }
    (end <= LAST_END as u64).then_some(end)
}

/// One past the last cell of a range, if the range and the room for a list will do.
fn range_end(rows: &[u64], first: u64, cells: u64, room: usize) -> Option<u64> {
    let (end, last) = (end(rows)?, first.checked_add(cells)?);
    (cells > 0 && last <= end && room >= LIST_ROOM).then_some(last)
}

pub fn sharing(rows: &[u64], first: u64, cells: u64, bases: &mut [u16], count: &mut u64) -> u8 {
    let Some(last) = range_end(rows, first, cells, bases.len()) else { return REFUSED };
    let mut listed = 0;
    for row in rows {
        if base(*row) < last && first < base(*row) + length(*row) {
            bases[listed] = base(*row) as u16;
            listed += 1;
        }
    }
    *count = listed as u64;
    0
}

pub fn within(rows: &[u64], first: u64, cells: u64, bases: &mut [u16], count: &mut u64) -> u8 {
    let Some(last) = range_end(rows, first, cells, bases.len()) else { return REFUSED };
    let mut listed = 0;
    for row in rows {
        if first <= base(*row) && base(*row) + length(*row) <= last {
            bases[listed] = base(*row) as u16;
            listed += 1;
        }
    }
    *count = listed as u64;
    0
}

pub fn nearest(rows: &[u64], cell: u64, cells: u64, found: &mut u64, nearest: &mut u64) -> u8 {
    if cells == 0 || end(rows).is_none() {
        return REFUSED;
    }
    let mut best: Option<(u64, u64)> = None;
    for row in rows {
        if !is_open(*row) || length(*row) < cells {
            continue;
        }
        let (first, last) = (base(*row), base(*row) + length(*row) - 1);
        let distance = if cell < first { first - cell } else { cell.saturating_sub(last) };
        // In rising base, so that of equal distances the first stays.
        if best.is_none_or(|(least, _)| distance < least) {
            best = Some((distance, first));
        }
    }
    (*found, *nearest) = best.map_or((0, 0), |(_, base)| (1, base));
    0
}
