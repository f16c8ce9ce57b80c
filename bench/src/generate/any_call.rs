//! Calls with likely operands, and among them those that a refusal meets.

use super::Author;
use crate::plain::capability as cap;
use crate::plain::table::ROWS;
use crate::plain::{Action, Call};

impl Author {
    /// A call that gets a refusal chosen beforehand, if a few tries find one.
    pub(super) fn call_to_be_refused(&mut self) -> Call {
        let full = self.state.table.rows().len() == ROWS;
        if full && self.random.one_in(3) {
            return self.fitting_split().unwrap_or_else(|| self.any_call());
        }
        let wanted = 4 + self.random.below(19) as u8;
        let any = match wanted {
            20 | 21 => Author::any_claiming,
            _ => Author::any_call,
        };
        let unmap = match wanted {
            13 | 22 => self.unmap_of_a_claimed_page(wanted == 22),
            _ => None,
        };
        let mut call = unmap.unwrap_or_else(|| any(self));
        for _ in 0..40 {
            if self.code_of(call) == wanted {
                break;
            }
            call = any(self);
        }
        call
    }

    fn any_call(&mut self) -> Call {
        if self.random.one_in(5) {
            return self.any_claiming();
        }
        let party = self.any_party();
        let action = self.any_action(party);
        Call { party, action }
    }

    pub(super) fn any_party(&mut self) -> u8 {
        match self.random.one_in(30) {
            true => 8 + self.random.below(248) as u8,
            false => self.party(),
        }
    }

    /// Of those that are on no principal.
    fn any_action(&mut self, party: u8) -> Action {
        match 1 + self.random.below(17) {
            0x01 => Action::Take { base: self.any_base(), reg: self.any_register() },
            0x02 => Action::Split { base: self.any_base(), len: self.any_length() },
            0x03 => Action::Merge { base: self.any_base() },
            0x04 => Action::Give { base: self.any_base(), to: self.any_register() },
            0x05 => Action::Revoke { base: self.any_base() },
            0x06 => Action::Sweep { n: self.any_length() },
            0x07 => Action::Collect,
            0x08 => Action::Map { page: self.any_page(), frame: self.any_frame() },
            0x09 => Action::Unmap { page: self.any_page() },
            0x0A => Action::Zero { frame: self.any_frame() },
            0x0B => {
                let a = self.any_register();
                Action::Load { a, off: self.any_offset(party, a), d: self.any_register() }
            }
            0x0C => {
                let a = self.any_register();
                Action::Store { a, off: self.any_offset(party, a), s: self.any_register() }
            }
            0x0D => {
                let s = self.any_register();
                let (off, len) = (self.any_offset(party, s), self.any_length());
                let mask = self.random.below(256) as u8;
                Action::Narrow { s, off, len, mask, d: self.any_register() }
            }
            0x0E => Action::Number { d: self.any_register(), value: self.random.number() },
            0x0F => Action::Grant { s: self.any_register(), to: self.any_register() },
            0x10 => Action::Receive { d: self.any_register() },
            _ => {
                let mask = self.random.below(256) as u8;
                Action::TakeMasked { base: self.any_base(), reg: self.any_register(), mask }
            }
        }
    }

    fn any_base(&mut self) -> u16 {
        let row = *self.random.pick(self.state.table.rows());
        match self.random.below(10) {
            0 => row.base.wrapping_add(1),
            1 => row.base.wrapping_sub(1),
            2 => self.state.pages.virtual_cells(),
            3 => self.random.number() as u16,
            _ => row.base,
        }
    }

    fn any_length(&mut self) -> u16 {
        let row = *self.random.pick(self.state.table.rows());
        match self.random.below(6) {
            0 => 0,
            1 => row.length,
            2 => row.length - 1,
            3 => self.random.number() as u16,
            _ => 1 + self.random.below(20) as u16,
        }
    }

    /// An offset near the end of the capability, within it, or anywhere.
    fn any_offset(&mut self, party: u8, register: u8) -> u16 {
        let slot = match self.state.registers.get(usize::from(party)) {
            Some(registers) => registers.get(usize::from(register)).copied().unwrap_or_default(),
            None => Default::default(),
        };
        let length = cap::length(slot.cell);
        match self.random.below(8) {
            0 => length,
            1 => self.random.number() as u16,
            _ => self.random.below(usize::from(length).max(1)) as u16,
        }
    }

    pub(super) fn any_register(&mut self) -> u8 {
        match self.random.one_in(40) {
            true => *self.random.pick(&[8, 9, 15, 64, 128, 255]),
            false => self.random.below(8) as u8,
        }
    }

    pub(super) fn any_page(&mut self) -> u8 {
        let v = self.state.pages.pages().len();
        match self.random.one_in(6) {
            true => v as u8,
            false => self.random.below(v) as u8,
        }
    }

    fn any_frame(&mut self) -> u8 {
        let f = self.state.pages.frames().len();
        match self.random.one_in(6) {
            true => *self.random.pick(&[f as u8, 128, 255]),
            false => self.random.below(f) as u8,
        }
    }
}
