//! The whole state, a fresh start, and when a state is well formed.

use super::answer::Refusal;
use super::capability::Range;
use super::claims::Claims;
use super::pages::Pages;
use super::table::{Standing, Table};

/// A cell and its tag, as registers and mailboxes hold them.
#[derive(Clone, Copy, Debug, Default, PartialEq, Eq)]
pub struct Slot {
    pub cell: u64,
    pub tag: bool,
}

/// The running revocation: its range, and how many lent cells the sweep has passed.
#[derive(Clone, Copy, Debug, PartialEq, Eq)]
pub struct Revocation {
    pub range: Range,
    pub place: usize,
}

#[derive(Clone, Debug, PartialEq, Eq)]
pub struct State {
    pub pages: Pages,
    pub table: Table,
    /// The Revoking row of the table again, so that a store need not look for it.
    pub revocation: Option<Revocation>,
    pub registers: [[Slot; 8]; 8],
    pub mailboxes: [Slot; 8],
    pub claims: Claims,
}

/// Lent memory: cells and as many tag bytes.
pub struct Memory<'a> {
    pub cells: &'a mut [u64],
    pub tags: &'a mut [u8],
}

impl State {
    pub fn start(v: u16, f: u8) -> Result<State, Refusal> {
        if !(1..=256).contains(&v) || !(1..=128).contains(&f) {
            return Err(Refusal::IllFormed);
        }
        let pages = Pages::fresh(v, f);
        Ok(State {
            table: Table::fresh(pages.virtual_cells()),
            pages,
            revocation: None,
            registers: [[Slot::default(); 8]; 8],
            mailboxes: [Slot::default(); 8],
            claims: Claims::fresh(),
        })
    }

    pub fn is_well_formed(&self) -> bool {
        self.pages.is_well_formed()
            && self.table.is_well_formed(self.pages.virtual_cells())
            && self.revocation_is_well_formed()
            && self.mailboxes.iter().all(|slot| slot.tag || slot.cell == 0)
            && self.claims.is_well_formed(self.pages.pages().len())
    }

    /// At most one row is Revoking, and then the running revocation is that row's.
    fn revocation_is_well_formed(&self) -> bool {
        let rows = self.table.rows().iter();
        let mut revoking = rows.filter(|row| row.standing == Standing::Revoking);
        match (revoking.next(), revoking.next(), self.revocation) {
            (None, None, None) => true,
            (Some(row), None, Some(running)) => {
                running.range == row.range()
                    && running.range.is_whole_pages()
                    && self.pages.are_all_freed(running.range)
                    && running.place <= self.pages.lent_cells()
            }
            _ => false,
        }
    }
}
