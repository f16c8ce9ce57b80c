//! The kinds of call, and their bytes by the library's writer and reader.

use crate::boundary;
use crate::Refusal;
use std::fmt;

/// The number of a virtual page.
#[derive(Clone, Copy, Debug, PartialEq, Eq, PartialOrd, Ord, Hash)]
pub struct VirtualPage(pub u8);

/// The number of a frame, which never stands for a page's.
#[derive(Clone, Copy, Debug, PartialEq, Eq, PartialOrd, Ord, Hash)]
pub struct Frame(pub u8);

impl fmt::Display for VirtualPage {
    fn fmt(&self, out: &mut fmt::Formatter) -> fmt::Result {
        write!(out, "page {}", self.0)
    }
}

impl fmt::Display for Frame {
    fn fmt(&self, out: &mut fmt::Formatter) -> fmt::Result {
        write!(out, "frame {}", self.0)
    }
}

/// A call by a party: its kind, and its operands in the order of their bytes.
///
/// Any operands make a call; the machine judges them.
#[derive(Clone, Copy, Debug, PartialEq, Eq, Hash)]
#[rustfmt::skip]
#[allow(missing_docs)]
pub enum Call {
    /// 01: an Open reservation becomes Taken, and `reg` gets a capability for it, to load and store
    /// numbers. Answers the length.
    Take { party: u8, base: u16, reg: u8 },
    /// 02: two Open reservations of one; the lower has `len` cells.
    Split { party: u8, base: u16, len: u16 },
    /// 03: joins a reservation with the next one above.
    Merge { party: u8, base: u16 },
    /// 04: the holder becomes `to`.
    Give { party: u8, base: u16, to: u8 },
    /// 05: a revocation of the reservation begins.
    Revoke { party: u8, base: u16 },
    /// 06: passes the next `n` cells of lent memory. Answers the cells left.
    Sweep { party: u8, n: u16 },
    /// 07: the revocation ends; no capability into its range is left, and it is Open again.
    Collect { party: u8 },
    /// 08: the page shows the frame.
    Map { party: u8, page: VirtualPage, frame: Frame },
    /// 09: the page is Freed, its frame Dirty.
    Unmap { party: u8, page: VirtualPage },
    /// 0A: the frame is all 0 and Free.
    Zero { party: u8, frame: Frame },
    /// 0B: register `d` gets the cell at `off` of the capability in `a`. Answers it. Its tag is
    /// dropped without permission 4, and while a revocation runs whose range holds its base.
    Load { party: u8, a: u8, off: u16, d: u8 },
    /// 0C: register `s` goes to the cell at `off` of the capability in `a`. Its tag is dropped while
    /// a revocation runs whose range holds its base.
    Store { party: u8, a: u8, off: u16, s: u8 },
    /// 0D: register `d` gets a part of the capability in `s`, with the permissions also in `mask`.
    Narrow { party: u8, s: u8, off: u16, len: u16, mask: u8, d: u8 },
    /// 0E: register `d` holds the value, untagged.
    Number { party: u8, d: u8, value: u64 },
    /// 0F: the capability in `s` is copied into the mailbox of `to`.
    Grant { party: u8, s: u8, to: u8 },
    /// 10: the caller's mailbox moves to register `d`. Answers it.
    Receive { party: u8, d: u8 },
    /// 11: a take whose capability has the permissions also in `mask`; bits above 15 are ignored.
    /// Who keeps capabilities in its range takes it with [`Capability::ALL`](crate::Capability::ALL).
    TakeMasked { party: u8, base: u16, reg: u8, mask: u8 },
    /// 12: principal `child` comes into being below `parent`, which pays its limit; `holder` holds it.
    /// The caller holds the parent.
    Create { party: u8, parent: u8, child: u8, limit: u16, holder: u8 },
    /// 13: the principal, which the caller holds, counts the page once more; the first count of a
    /// page spends 1 of its limit. A claimed page is not unmapped.
    Claim { party: u8, principal: u8, page: VirtualPage },
    /// 14: the principal counts the page once less; the last one gives 1 back.
    Release { party: u8, principal: u8, page: VirtualPage },
    /// 15: the principal and all below it are no more, nor their claims, and the parent, which the
    /// caller holds, gets their limits.
    Destroy { party: u8, principal: u8 },
}

/// How many numbers a call has at the boundary: the command, its operands, and 0 after them.
pub const CALL_NUMBERS: usize = 7;

/// The length of the longest command in bytes.
pub const LONGEST: usize = 11;

impl Call {
    /// The call at a place of the input, and how many bytes it has.
    ///
    /// # Errors
    /// [`Refusal::NoCommand`] if no whole command is there.
    pub fn read(input: &[u8], at: usize) -> Result<(Call, usize), Refusal> {
        let mut numbers = [0; CALL_NUMBERS];
        let used = boundary::read(input, at, &mut numbers);
        match Call::of(numbers) {
            Some(call) if used > 0 => Ok((call, used)),
            _ => Err(Refusal::NoCommand),
        }
    }

    /// Puts the call's bytes first in a buffer, keeps the rest and answers their length.
    ///
    /// # Errors
    /// [`Refusal::NoCommand`] if the buffer is too short, which is then as it was.
    pub fn write(&self, out: &mut [u8]) -> Result<usize, Refusal> {
        match boundary::write(&self.numbers(), out) {
            0 => Err(Refusal::NoCommand),
            written => Ok(written),
        }
    }

    /// Puts the call's bytes behind those of a queue.
    pub fn append(&self, queue: &mut Vec<u8>) {
        let (bytes, length) = self.padded();
        queue.extend_from_slice(&bytes[..length]);
    }

    /// The call's bytes.
    pub fn bytes(&self) -> Vec<u8> {
        let (bytes, length) = self.padded();
        bytes[..length].to_vec()
    }

    /// The call's bytes with 0 after them, and how many they are.
    pub(crate) fn padded(&self) -> ([u8; LONGEST], usize) {
        let mut bytes = [0; LONGEST];
        let length = self.write(&mut bytes).expect("every call fits eleven bytes");
        (bytes, length)
    }
}

pub(crate) fn byte(number: u64) -> Option<u8> {
    number.try_into().ok()
}

pub(crate) fn two(number: u64) -> Option<u16> {
    number.try_into().ok()
}
