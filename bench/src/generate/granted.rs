//! Calls that the state at hand will grant.

use super::random::Random;
use super::Author;
use crate::plain::capability as cap;
use crate::plain::pages::{Frame, FrameUse, Page, CELLS_A_PAGE};
use crate::plain::state::Revocation;
use crate::plain::table::{Reservation, Standing, ROWS};
use crate::plain::{Action, Call, KINDS};

/// What the calls of a stretch are mostly about.
#[derive(Clone, Copy)]
pub enum Mood {
    Settling,
    Mixed,
    Splitting,
    Merging,
    Mailing,
    Storing,
    Revoking,
    Founding,
    Claiming,
}

impl Mood {
    pub fn any(random: &mut Random) -> Mood {
        use Mood::*;
        let moods = [Settling, Mixed, Mixed, Splitting, Merging, Mailing, Storing, Revoking];
        match random.below(10) {
            8 => Founding,
            9 => Claiming,
            index => moods[index],
        }
    }

    /// How often each command is tried, in the order of their numbers; one behind the list once.
    fn weights(self) -> &'static [u8] {
        match self {
            Mood::Settling => &[2, 8, 0, 6, 0, 2, 2, 9, 0, 9, 2, 3, 2, 2, 2, 2, 4, 1, 2, 1, 0],
            Mood::Mixed => &[2, 3, 2, 3, 3, 6, 6, 6, 1, 6, 14, 16, 8, 6, 6, 8, 3, 2, 5, 5, 1],
            Mood::Splitting => &[1, 60, 1, 4, 0, 1, 1, 2, 0, 2, 3, 3, 2, 2, 1, 1, 1, 0, 1, 1, 0],
            Mood::Merging => &[1, 3, 40, 8, 2, 2, 2, 2, 1, 2, 2, 2, 2, 2, 1, 1, 1, 0, 1, 1, 0],
            Mood::Mailing => &[1, 1, 1, 1, 0, 1, 1, 1, 0, 1, 4, 6, 12, 3, 40, 20, 2, 0, 1, 1, 0],
            Mood::Storing => &[1, 0, 0, 0, 0, 1, 1, 3, 0, 3, 30, 40, 8, 6, 2, 2, 2, 0, 1, 1, 0],
            Mood::Revoking => &[1, 1, 1, 1, 12, 8, 4, 5, 0, 5, 12, 40, 4, 1, 5, 6, 3, 0, 1, 2, 0],
            Mood::Founding => &[1, 1, 0, 1, 0, 1, 1, 2, 0, 2, 1, 1, 0, 0, 0, 0, 1, 60, 12, 3, 1],
            Mood::Claiming => &[1, 1, 1, 1, 1, 2, 2, 5, 2, 5, 2, 2, 1, 1, 1, 1, 1, 16, 40, 24, 4],
        }
    }

    fn command(self, random: &mut Random) -> usize {
        let listed = self.weights();
        let weights = (0..KINDS).map(|index| usize::from(listed.get(index).copied().unwrap_or(1)));
        let mut left = random.below(weights.clone().sum());
        for (index, weight) in weights.enumerate() {
            if left < weight {
                return index + 1;
            }
            left -= weight;
        }
        KINDS
    }
}

/// Every party with each of its registers.
pub(super) fn registers() -> impl Iterator<Item = (u8, u8)> {
    (0..64).map(|index| (index / 8, index % 8))
}

pub(super) fn by(party: u8, action: Action) -> Option<Call> {
    Some(Call { party, action })
}

impl Author {
    pub(super) fn call_to_be_granted(&mut self) -> Call {
        for _ in 0..12 {
            let command = self.mood.command(&mut self.random);
            if let Some(call) = self.granted(command) {
                return call;
            }
        }
        self.mood = Mood::any(&mut self.random);
        self.number()
    }

    fn granted(&mut self, command: usize) -> Option<Call> {
        match command {
            0x01 => self.take(),
            0x02 => self.split(),
            0x03 => self.merge(),
            0x04 => self.give(),
            0x05 => self.revoke(),
            0x06 => self.sweep(),
            0x07 => self.collect(),
            0x08 => self.map(),
            0x09 => self.unmap(),
            0x0A => self.zero(),
            0x0B => self.load(),
            0x0C => self.store(),
            0x0D => self.narrow(),
            0x0E => Some(self.number()),
            0x0F => self.grant(),
            0x10 => self.receive(),
            0x11 => self.take_masked(),
            0x12 => self.create(),
            0x13 => self.claim(),
            0x14 => self.release(),
            0x15 => self.destroy(),
            _ => None,
        }
    }

    fn take(&mut self) -> Option<Call> {
        let (row, reg) = self.row_to_take()?;
        by(row.holder, Action::Take { base: row.base, reg })
    }

    /// Mostly with all permissions, so that capabilities are stored and loaded; masks of all sorts too.
    fn take_masked(&mut self) -> Option<Call> {
        let (row, reg) = self.row_to_take()?;
        let any = self.random.below(256) as u8;
        let mask =
            *self.random.pick(&[15, 15, 15, 15, 15, 15, 0xFF, 0xFF, 11, 7, 14, 3, 0, 0xF0, any]);
        by(row.holder, Action::TakeMasked { base: row.base, reg, mask })
    }

    /// An Open reservation, seldom one of all cells, and the register for its capability.
    fn row_to_take(&mut self) -> Option<(Reservation, u8)> {
        let row = self.open_row(|_| true)?;
        let everything = row.length == self.state.pages.virtual_cells();
        if everything && row.length > 16 && !self.random.one_in(8) {
            return None;
        }
        Some((row, self.register_to_fill(row.holder)))
    }

    fn split(&mut self) -> Option<Call> {
        match self.state.table.rows().len() == ROWS {
            true => None,
            false => self.fitting_split(),
        }
    }

    /// A split that nothing but a full table can turn down.
    pub(super) fn fitting_split(&mut self) -> Option<Call> {
        let Reservation { base, length, holder, .. } = self.open_row(|row| row.length > 1)?;
        let pages = usize::from(length - 1) / 16;
        let len = match pages > 0 && !self.random.one_in(4) {
            true => 16 * (1 + self.random.below(pages)) as u16,
            false => 1 + self.random.below(usize::from(length) - 1) as u16,
        };
        by(holder, Action::Split { base, len })
    }

    fn merge(&mut self) -> Option<Call> {
        let pairs = self.state.table.rows().windows(2);
        let joined = pairs.filter(|pair| {
            pair[0].holder == pair[1].holder
                && pair[0].standing == pair[1].standing
                && pair[0].standing != Standing::Revoking
        });
        let row = self.random.pick_any(joined.map(|pair| pair[0]))?;
        by(row.holder, Action::Merge { base: row.base })
    }

    fn give(&mut self) -> Option<Call> {
        let row = self.open_row(|_| true)?;
        let back = matches!(self.mood, Mood::Merging) && !self.random.one_in(4);
        let to = if back { 0 } else { self.party() };
        by(row.holder, Action::Give { base: row.base, to })
    }

    /// A revoke, or the unmapping of a page that stands in its way, or an end of the claims on it.
    fn revoke(&mut self) -> Option<Call> {
        if self.state.revocation.is_some() {
            return None;
        }
        let row = self.row_to_revoke()?;
        let pages = &self.state.pages.pages()[row.range().pages()];
        match pages.iter().position(|page| matches!(page, Page::Mapped(_))) {
            Some(index) => {
                let page = row.range().pages().start + index;
                let unmap = Call { party: 0, action: Action::Unmap { page: page as u8 } };
                Some(self.letting_go(page).unwrap_or(unmap))
            }
            None => by(0, Action::Revoke { base: row.base }),
        }
    }

    /// Mostly one with capabilities in memory, so that the sweep has something to clear.
    fn row_to_revoke(&mut self) -> Option<Reservation> {
        let open_too = self.random.one_in(5);
        let is_fit = |row: &Reservation| {
            row.holder == 0
                && row.range().is_whole_pages()
                && (open_too || row.standing == Standing::Taken)
        };
        let rows: Vec<Reservation> =
            self.state.table.rows().iter().copied().filter(is_fit).collect();
        let referred = rows.iter().copied().filter(|row| self.memory_refers_to(row));
        let referred: Vec<Reservation> = referred.collect();
        match referred.is_empty() || self.random.one_in(4) {
            true => self.random.pick_any(rows.into_iter()),
            false => self.random.pick_any(referred.into_iter()),
        }
    }

    /// Whether a capability of the row lies in memory that a page outside the row shows.
    fn memory_refers_to(&self, row: &Reservation) -> bool {
        let own = row.range().pages();
        let pages = self.state.pages.pages().iter().enumerate();
        let others = pages.filter(|(index, _)| !own.contains(index));
        let frames = others.filter_map(|(_, page)| match page {
            Page::Mapped(Frame(frame)) => Some(usize::from(*frame)),
            _ => None,
        });
        let mut places = frames.flat_map(|frame| {
            let first = frame * CELLS_A_PAGE;
            first..first + CELLS_A_PAGE
        });
        places.any(|place| self.tags[place] != 0 && row.range().kills(self.cells[place]))
    }

    /// The place in the table of the reservation with this cell.
    pub(super) fn row_at(&self, cell: u16) -> Option<usize> {
        self.state.table.rows().iter().position(|row| row.range().holds(cell))
    }

    fn sweep(&mut self) -> Option<Call> {
        let running = self.state.revocation?;
        let most = *self.random.pick(&[8, 20, 20, 20, 200, 200, 0xFFFF]);
        let any = self.random.below(most + 1);
        let count = match self.random.one_in(2) {
            true => self.count_to_a_dying_cell(running).unwrap_or(any),
            false => any,
        };
        by(0, Action::Sweep { n: count as u16 })
    }

    /// The count of a sweep that ends right before or right after a cell to be cleared.
    fn count_to_a_dying_cell(&mut self, running: Revocation) -> Option<usize> {
        let ahead = running.place..self.tags.len();
        let dying =
            ahead.filter(|place| self.tags[*place] != 0 && running.range.kills(self.cells[*place]));
        let place = self.random.pick_any(dying)?;
        Some(place - running.place + self.random.below(2))
    }

    fn collect(&mut self) -> Option<Call> {
        let running = self.state.revocation?;
        match running.place == self.state.pages.lent_cells() {
            true => by(0, Action::Collect),
            false => self.sweep(),
        }
    }

    fn map(&mut self) -> Option<Call> {
        let pages = self.state.pages.pages().iter().enumerate();
        let unmapped = pages.filter(|(_, page)| **page == Page::Unmapped);
        let page = self.random.pick_any(unmapped.map(|(index, _)| index as u8))?;
        match self.frame_in(FrameUse::Free) {
            Some(frame) => by(0, Action::Map { page, frame }),
            None => self.zero(),
        }
    }

    fn unmap(&mut self) -> Option<Call> {
        let page = self.page_with(true, false)?;
        by(0, Action::Unmap { page })
    }

    fn zero(&mut self) -> Option<Call> {
        let frame = self.frame_in(FrameUse::Dirty)?;
        by(0, Action::Zero { frame })
    }

    fn narrow(&mut self) -> Option<Call> {
        let (party, s) = self.capability_with(0xFF)?;
        let length = cap::length(self.state.registers[usize::from(party)][usize::from(s)].cell);
        let off = self.random.below(usize::from(length)) as u16;
        let len = 1 + self.random.below(usize::from(length - off)) as u16;
        let mask = *self.random.pick(&[15, 15, 15, 15, 0xFF, 3, 7, 11, 2, 1, 14]);
        let d = self.register_to_fill(party);
        by(party, Action::Narrow { s, off, len, mask, d })
    }

    fn number(&mut self) -> Call {
        let party = self.party();
        let d = self.register_to_fill(party);
        let value = match self.random.below(3) {
            0 => self.random.number(),
            1 => self.random.below(100) as u64,
            _ => cap::make(self.random.below(64) as u16, 16, 15),
        };
        Call { party, action: Action::Number { d, value } }
    }

    fn grant(&mut self) -> Option<Call> {
        let (party, s) = self.capability_with(0xFF)?;
        let empty = (0..8u8).filter(|to| !self.state.mailboxes[usize::from(*to)].tag);
        let to = self.random.pick_any(empty)?;
        by(party, Action::Grant { s, to })
    }

    fn receive(&mut self) -> Option<Call> {
        let full = (0..8u8).filter(|party| self.state.mailboxes[usize::from(*party)].tag);
        let party = self.random.pick_any(full)?;
        let d = self.register_to_fill(party);
        by(party, Action::Receive { d })
    }

    fn open_row(&mut self, is_fit: impl Fn(&Reservation) -> bool) -> Option<Reservation> {
        let rows = self.state.table.rows().iter().copied();
        let open = rows.filter(|row| row.standing == Standing::Open && is_fit(row));
        self.random.pick_any(open)
    }

    fn frame_in(&mut self, used: FrameUse) -> Option<u8> {
        let frames = self.state.pages.frames().iter().enumerate();
        self.random.pick_any(frames.filter(|(_, f)| **f == used).map(|(index, _)| index as u8))
    }

    /// A party and a register with a capability that has one of the permissions.
    pub(super) fn capability_with(&mut self, permissions: u8) -> Option<(u8, u8)> {
        let fit = registers().filter(|(party, register)| {
            let slot = self.state.registers[usize::from(*party)][usize::from(*register)];
            slot.tag && (permissions == 0xFF || cap::allows(slot.cell, permissions))
        });
        self.random.pick_any(fit)
    }

    /// Mostly a register without a capability, so that capabilities gather.
    pub(super) fn register_to_fill(&mut self, party: u8) -> u8 {
        let registers = self.state.registers[usize::from(party)];
        let untagged = (0..8u8).filter(|index| !registers[usize::from(*index)].tag);
        let any = self.random.below(8) as u8;
        match self.random.one_in(6) {
            true => any,
            false => self.random.pick_any(untagged).unwrap_or(any),
        }
    }
}
