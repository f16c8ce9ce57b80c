//! The table of reservations, in rising base.

use super::answer::Refusal;
use super::capability::Range;

pub const ROWS: usize = 64;

/// The taker of a reservation joined from ones that different parties took.
pub const SEVERAL: u8 = 8;
/// The taker of an Open reservation.
pub const NOBODY: u8 = 9;

#[derive(Clone, Copy, Debug, Default, PartialEq, Eq)]
pub enum Standing {
    #[default]
    Open,
    Taken,
    Revoking,
}

#[derive(Clone, Copy, Debug, Default, PartialEq, Eq)]
pub struct Reservation {
    pub base: u16,
    pub length: u16,
    pub standing: Standing,
    pub holder: u8,
    /// The party that took it, SEVERAL or NOBODY; 0 of one that was revoked when Open.
    pub taker: u8,
}

impl Reservation {
    pub fn range(self) -> Range {
        Range { base: self.base, length: self.length }
    }

    fn joins(self, next: Reservation) -> bool {
        self.holder == next.holder
            && self.standing == next.standing
            && self.standing != Standing::Revoking
    }

    /// The taker of the two joined.
    fn joined_taker(self, next: Reservation) -> u8 {
        if self.taker == next.taker {
            self.taker
        } else {
            SEVERAL
        }
    }

    /// All 0. Joined numbers take fewer tests than one a field.
    fn is_unused(self) -> bool {
        self.base | self.length == 0 && self.standing as u8 | self.holder | self.taker == 0
    }

    /// Whether holder and taker are such as its standing wants.
    fn has_fitting_parties(self) -> bool {
        match self.standing {
            Standing::Open => self.holder <= 7 && self.taker == NOBODY,
            Standing::Taken | Standing::Revoking => self.holder == 0 && self.taker <= SEVERAL,
        }
    }
}

#[derive(Clone, Debug, PartialEq, Eq)]
pub struct Table {
    rows: [Reservation; ROWS],
    count: usize,
}

impl Table {
    /// One Open reservation of party 0 over all cells.
    pub fn fresh(length: u16) -> Table {
        let mut rows = [Reservation::default(); ROWS];
        rows[0].length = length;
        rows[0].taker = NOBODY;
        Table { rows, count: 1 }
    }

    /// Any rows, well formed or not; None if more are in use than there are.
    pub fn of(rows: [Reservation; ROWS], count: usize) -> Option<Table> {
        (count <= ROWS).then_some(Table { rows, count })
    }

    pub fn rows(&self) -> &[Reservation] {
        &self.rows[..self.count]
    }

    pub fn row(&mut self, index: usize) -> &mut Reservation {
        &mut self.rows[index]
    }

    /// Refusal 6: no reservation held by the caller begins at the base.
    pub fn held(&self, party: u8, base: u16) -> Result<usize, Refusal> {
        match self.rows().binary_search_by_key(&base, |row| row.base) {
            Ok(index) if self.rows[index].holder == party => Ok(index),
            _ => Err(Refusal::NotHeld),
        }
    }

    /// Refusals 6 and 7 of take, split and give.
    pub fn held_open(&self, party: u8, base: u16) -> Result<usize, Refusal> {
        let index = self.held(party, base)?;
        match self.rows[index].standing {
            Standing::Open => Ok(index),
            _ => Err(Refusal::WrongStanding),
        }
    }

    pub fn split(&mut self, party: u8, base: u16, length: u16) -> Result<(), Refusal> {
        let index = self.held_open(party, base)?;
        let whole = self.rows[index];
        if length == 0 || length >= whole.length {
            return Err(Refusal::SplitLength);
        }
        if self.count == ROWS {
            return Err(Refusal::TableFull);
        }
        self.rows.copy_within(index + 1..self.count, index + 2);
        self.rows[index].length = length;
        self.rows[index + 1] =
            Reservation { base: base + length, length: whole.length - length, ..whole };
        self.count += 1;
        Ok(())
    }

    pub fn merge(&mut self, party: u8, base: u16) -> Result<(), Refusal> {
        let index = self.held(party, base)?;
        let next = match self.rows().get(index + 1) {
            Some(&next) if self.rows[index].joins(next) => next,
            _ => return Err(Refusal::WrongStanding),
        };
        self.rows[index].taker = self.rows[index].joined_taker(next);
        self.rows[index].length += next.length;
        self.rows.copy_within(index + 2..self.count, index + 1);
        self.count -= 1;
        self.rows[self.count] = Reservation::default();
        Ok(())
    }

    /// The rows tile the cells from 0 to `end`, holder and taker fit the standing, the rest is 0.
    pub fn is_well_formed(&self, end: u16) -> bool {
        let mut next = 0u32;
        for row in self.rows() {
            if u32::from(row.base) != next || row.length == 0 || !row.has_fitting_parties() {
                return false;
            }
            next += u32::from(row.length);
        }
        let unused = &self.rows[self.count..];
        next == u32::from(end) && unused.iter().all(|row| row.is_unused())
    }
}
