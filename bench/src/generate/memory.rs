//! Loads and stores that will be granted.

use super::granted::{by, registers};
use super::Author;
use crate::plain::capability::{self as cap, Range};
use crate::plain::pages::{Frame, Page, CELLS_A_PAGE};
use crate::plain::{Action, Call};

impl Author {
    /// While a revocation runs, mostly of a dying capability. Of the others half from a cell with
    /// something in it, so that a sweep's work is seen.
    pub(super) fn load(&mut self) -> Option<Call> {
        let dying = match self.random.one_in(4) {
            true => None,
            false => self.dying_place(),
        };
        let written = match dying.is_none() && self.random.one_in(2) {
            true => self.written_place(),
            false => dying,
        };
        let at_place = written.and_then(|place| self.load_of_place(place));
        at_place.or_else(|| self.load_of_any())
    }

    fn load_of_any(&mut self) -> Option<Call> {
        let (party, a) = self.capability_with(cap::LOAD)?;
        let off = self.mapped_offset(party, a)?;
        let d = self.register_to_fill(party);
        by(party, Action::Load { a, off, d })
    }

    /// A load of a lent cell, where a Mapped page shows it and a register reaches it.
    fn load_of_place(&mut self, place: usize) -> Option<Call> {
        let frame = Page::Mapped(Frame((place / CELLS_A_PAGE) as u8));
        let page = self.state.pages.pages().iter().position(|page| *page == frame)?;
        let cell = (page * CELLS_A_PAGE + place % CELLS_A_PAGE) as u16;
        let through = registers().filter(|(party, a)| {
            let slot = self.state.registers[usize::from(*party)][usize::from(*a)];
            let range = Range { base: cap::base(slot.cell), length: cap::length(slot.cell) };
            slot.tag && cap::allows(slot.cell, cap::LOAD) && range.holds(cell)
        });
        let (party, a) = self.random.pick_any(through)?;
        let base = cap::base(self.state.registers[usize::from(party)][usize::from(a)].cell);
        let d = self.register_to_fill(party);
        by(party, Action::Load { a, off: cell - base, d })
    }

    /// A lent cell with a tag, or with a capability's number that lost it.
    fn written_place(&mut self) -> Option<usize> {
        let untagged_too = self.random.one_in(3);
        let is_written = |(tag, cell): (&u8, &u64)| {
            *tag != 0 || untagged_too && (1 << 16..1 << 36).contains(cell)
        };
        let memory = self.tags.iter().zip(&self.cells).enumerate();
        let written = memory.filter(|(_, pair)| is_written(*pair));
        self.random.pick_any(written.map(|(place, _)| place))
    }

    /// A lent cell with a capability that dies with the revocation that runs.
    fn dying_place(&mut self) -> Option<usize> {
        let range = self.state.revocation?.range;
        let memory = self.tags.iter().zip(&self.cells).enumerate();
        let dying = memory.filter(|(_, (tag, cell))| **tag != 0 && range.kills(**cell));
        self.random.pick_any(dying.map(|(place, _)| place))
    }

    /// While a revocation runs, mostly a store of a dying capability.
    pub(super) fn store(&mut self) -> Option<Call> {
        let old = match self.random.one_in(4) {
            true => None,
            false => self.store_of_a_dying_one(),
        };
        old.or_else(|| self.store_of_any())
    }

    fn store_of_a_dying_one(&mut self) -> Option<Call> {
        let range = self.state.revocation?.range;
        let dying = registers().filter(|(party, s)| {
            let slot = self.state.registers[usize::from(*party)][usize::from(*s)];
            slot.tag && range.kills(slot.cell)
        });
        let (party, s) = self.random.pick_any(dying)?;
        let registers = self.state.registers[usize::from(party)];
        let places = (0..8u8).filter(|a| {
            let slot = registers[usize::from(*a)];
            let both =
                cap::allows(slot.cell, cap::STORE) && cap::allows(slot.cell, cap::STORE_CAPABILITY);
            slot.tag && both && !range.kills(slot.cell)
        });
        let a = self.random.pick_any(places)?;
        let off = self.mapped_offset(party, a)?;
        by(party, Action::Store { a, off, s })
    }

    fn store_of_any(&mut self) -> Option<Call> {
        let (party, a) = self.capability_with(cap::STORE)?;
        let off = self.mapped_offset(party, a)?;
        let registers = self.state.registers[usize::from(party)];
        let takes_tags = cap::allows(registers[usize::from(a)].cell, cap::STORE_CAPABILITY);
        let storable = |s: &u8| takes_tags || !registers[usize::from(*s)].tag;
        let home = self.row_at(cap::base(registers[usize::from(a)].cell));
        let is_foreign = |s: &u8| {
            let slot = registers[usize::from(*s)];
            slot.tag && self.row_at(cap::base(slot.cell)) != home
        };
        let foreign: Vec<u8> = (0..8).filter(is_foreign).collect();
        let tagged = match takes_tags && !self.random.one_in(3) {
            true => self.random.pick_any(foreign.into_iter()),
            false => None,
        };
        let s = tagged.or_else(|| self.random.pick_any((0..8).filter(storable)))?;
        by(party, Action::Store { a, off, s })
    }

    pub(super) fn mapped_offset(&mut self, party: u8, a: u8) -> Option<u16> {
        let cell = self.state.registers[usize::from(party)][usize::from(a)].cell;
        let (base, length) = (usize::from(cap::base(cell)), usize::from(cap::length(cell)));
        let mut offsets = (0..6).map(|_| self.random.below(length));
        let is_mapped = |off: &usize| self.state.pages.lent_place(base + off).is_ok();
        offsets.find(is_mapped).map(|off| off as u16)
    }
}
