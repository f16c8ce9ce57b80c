//! A revocation with something to clear: copies of a capability in memory, then the revoke.

use super::granted::Mood;
use super::Author;
use crate::plain::capability as cap;
use crate::plain::pages::Page;
use crate::plain::table::{Reservation, Standing};
use crate::plain::{Action, Call, Slot};

impl Author {
    /// Stores copies of a capability outside its own reservation and revokes that one, if some
    /// party has registers for it. Seldom are claims on its pages left, which the revoke then meets.
    pub(super) fn begin_revocation(&mut self) {
        if self.state.revocation.is_some() {
            return;
        }
        let Some((party, a, s)) = self.registers_for_copies() else { return };
        let Some(row) = self.revocable_row(self.register(party, s)) else { return };
        for _ in 0..1 + self.random.below(6) {
            if let Some(off) = self.mapped_offset(party, a) {
                self.make(Call { party, action: Action::Store { a, off, s } });
            }
        }
        if !self.random.one_in(6) && !self.let_go(row) {
            return;
        }
        self.unmap_all(row);
        self.make(Call { party: 0, action: Action::Revoke { base: row.base } });
        self.mood = Mood::Revoking;
    }

    /// A party, a register to store through, and one whose capability can be revoked without it.
    fn registers_for_copies(&mut self) -> Option<(u8, u8, u8)> {
        let triples = (0..512u16).map(|n| ((n / 64) as u8, (n / 8 % 8) as u8, (n % 8) as u8));
        let fit: Vec<(u8, u8, u8)> = triples
            .filter(|(party, a, s)| {
                let (through, stored) = (self.register(*party, *a), self.register(*party, *s));
                let row = self.revocable_row(stored);
                let permissions = cap::STORE | cap::STORE_CAPABILITY;
                through.tag
                    && cap::permissions(through.cell) & permissions == permissions
                    && row.is_some_and(|row| !row.range().kills(through.cell))
            })
            .collect();
        self.random.pick_any(fit.into_iter())
    }

    /// The reservation of a capability, if party 0 could revoke it once its pages are unmapped.
    fn revocable_row(&self, slot: Slot) -> Option<Reservation> {
        let row = self.state.table.rows()[self.row_at(cap::base(slot.cell))?];
        let is_fit = row.standing == Standing::Taken && row.range().is_whole_pages();
        (slot.tag && is_fit).then_some(row)
    }

    fn unmap_all(&mut self, row: Reservation) {
        for page in row.range().pages() {
            if matches!(self.state.pages.pages()[page], Page::Mapped(_)) {
                self.make(Call { party: 0, action: Action::Unmap { page: page as u8 } });
            }
        }
    }

    fn register(&self, party: u8, register: u8) -> Slot {
        self.state.registers[usize::from(party)][usize::from(register)]
    }
}
