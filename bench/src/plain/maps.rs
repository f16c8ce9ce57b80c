//! Request 2026-07: which reservations lie here. Found cell by cell from the document alone, so that
//! no border is worked out by arithmetic; `loops` has the quick version, which is timed.

pub mod loops;

use super::table::ROWS;
use std::ops::Range;

/// The refusal of every query that is turned down.
pub const REFUSED: u8 = 25;
/// Where records end at most.
pub const LAST_END: usize = 4_096;
/// How long the slice for a list is at least.
pub const LIST_ROOM: usize = 64;

/// What the request turns a query down for.
#[derive(Clone, Copy, Debug, PartialEq, Eq, PartialOrd, Ord)]
pub enum Cause {
    NoRecords,
    Over64Records,
    LengthZero,
    NotTiling,
    EndAbove4096,
    EmptyRange,
    RangePastEnd,
    NoCells,
    SliceBelow64,
}

/// What of a reservation's number matters here; holder and taker do not.
#[derive(Clone, Copy)]
struct Record {
    base: u16,
    length: u16,
    state: u8,
}

impl Record {
    fn of(row: &u64) -> Record {
        Record { base: *row as u16, length: (row >> 16) as u16, state: (row >> 32) as u8 }
    }

    fn cells(self) -> Range<usize> {
        let base = usize::from(self.base);
        base..base + usize::from(self.length)
    }

    fn is_open(self) -> bool {
        self.state == 0
    }
}

/// Records that tile, and the record of each cell, by its place among them.
struct Map {
    records: Vec<Record>,
    owners: Vec<usize>,
}

impl Map {
    fn of(rows: &[u64]) -> Result<Map, Vec<Cause>> {
        let records: Vec<Record> = rows.iter().map(Record::of).collect();
        let owners = painted(&records);
        let causes = applying(&[
            (Cause::NoRecords, records.is_empty()),
            (Cause::Over64Records, records.len() > ROWS),
            (Cause::LengthZero, records.iter().any(|record| record.cells().is_empty())),
            (Cause::NotTiling, owners.is_none()),
            (Cause::EndAbove4096, records.iter().any(|record| record.cells().end > LAST_END)),
        ]);
        match owners {
            Some(owners) if causes.is_empty() => Ok(Map { records, owners }),
            _ => Err(causes),
        }
    }

    /// The map and the range of a list, whose slice has so much room.
    fn listed(
        rows: &[u64],
        first: u64,
        cells: u64,
        room: usize,
    ) -> Result<(Map, Range<usize>), Vec<Cause>> {
        let map = Map::of(rows);
        // A true sum, which 64 bits need not hold. Without a map there is no end to run past.
        let end = u128::from(first) + u128::from(cells);
        let is_past = |map: &Map| end > map.owners.len() as u128;
        let causes = applying(&[
            (Cause::EmptyRange, cells == 0),
            (Cause::RangePastEnd, map.as_ref().is_ok_and(is_past)),
            (Cause::SliceBelow64, room < LIST_ROOM),
        ]);
        Ok((judged(map, causes)?, first as usize..end as usize))
    }

    /// Puts the bases of the chosen records first in the slice: how many.
    fn put(&self, chosen: &[bool], bases: &mut [u16]) -> u64 {
        let records = self.records.iter().zip(chosen).filter(|(_, chosen)| **chosen);
        let put = bases.iter_mut().zip(records).map(|(entry, (record, _))| *entry = record.base);
        put.count() as u64
    }
}

/// The record of each cell, as the records paint them in their order. None if a cell is painted twice
/// or left out, or a later record lies lower. Cells from 4,096 on are another cause.
fn painted(records: &[Record]) -> Option<Vec<usize>> {
    let mut owners = vec![None; LAST_END];
    for (place, record) in records.iter().enumerate() {
        for cell in record.cells().take_while(|cell| *cell < LAST_END) {
            if owners[cell].replace(place).is_some() {
                return None;
            }
        }
    }
    let end = owners.iter().rposition(Option::is_some).map_or(0, |last| last + 1);
    owners.truncate(end);
    owners.into_iter().collect::<Option<Vec<usize>>>().filter(|owners| owners.is_sorted())
}

fn applying(causes: &[(Cause, bool)]) -> Vec<Cause> {
    causes.iter().filter(|(_, applies)| *applies).map(|(cause, _)| *cause).collect()
}

/// The map, or all causes to turn its query down.
fn judged(map: Result<Map, Vec<Cause>>, causes: Vec<Cause>) -> Result<Map, Vec<Cause>> {
    match map {
        Ok(map) if causes.is_empty() => Ok(map),
        Ok(_) => Err(causes),
        Err(of_map) => Err([of_map, causes].concat()),
    }
}

/// Lists the reservations that share a cell with the range: its cells are walked and their records
/// collected.
pub fn sharing(rows: &[u64], first: u64, cells: u64, bases: &mut [u16]) -> Result<u64, Vec<Cause>> {
    let (map, range) = Map::listed(rows, first, cells, bases.len())?;
    let mut shares = vec![false; map.records.len()];
    range.for_each(|cell| shares[map.owners[cell]] = true);
    Ok(map.put(&shares, bases))
}

/// Lists the reservations within the range: those without a cell outside it.
pub fn within(rows: &[u64], first: u64, cells: u64, bases: &mut [u16]) -> Result<u64, Vec<Cause>> {
    let (map, range) = Map::listed(rows, first, cells, bases.len())?;
    let mut is_within = vec![true; map.records.len()];
    for (cell, owner) in map.owners.iter().enumerate() {
        is_within[*owner] &= range.contains(&cell);
    }
    Ok(map.put(&is_within, bases))
}

/// The base of the Open reservation of at least so many cells that is nearest to a cell.
pub fn nearest(rows: &[u64], cell: u64, cells: u64) -> Result<Option<u16>, Vec<Cause>> {
    Ok(distances(rows, cell, cells)?.into_iter().min().map(|(_, base)| base))
}

/// How far each cell of an Open reservation of at least so many cells lies from a cell, with the
/// reservation's base.
pub fn distances(rows: &[u64], cell: u64, cells: u64) -> Result<Vec<(u64, u16)>, Vec<Cause>> {
    let map = judged(Map::of(rows), applying(&[(Cause::NoCells, cells == 0)]))?;
    let fits = |record: &Record| record.is_open() && u64::from(record.length) >= cells;
    let owned = (0u64..).zip(map.owners.iter().map(|owner| map.records[*owner]));
    let fitting = owned.filter(|(_, record)| fits(record));
    Ok(fitting.map(|(other, record)| (cell.abs_diff(other), record.base)).collect())
}
