//! What a state holds, for showing it. Every state can be shown, well formed or not.

use crate::{Frame, State, VirtualPage, Word};
use std::fmt;

/// What may be done with a reservation.
#[derive(Clone, Copy, Debug, PartialEq, Eq, Hash)]
pub enum ReservationState {
    /// Nobody has it; its holder may take it.
    Open,
    /// Lent out as a capability.
    Taken,
    /// Being taken back.
    Revoking,
}

/// Who took a reservation, as its row says.
#[derive(Clone, Copy, Debug, PartialEq, Eq, Hash)]
pub enum Taker {
    /// Nobody: it is Open.
    Nobody,
    /// One party. Of a Revoking reservation `Party(0)` may be nobody: a revoke of an Open one
    /// writes 0.
    Party(u8),
    /// Different parties, whose reservations a merge has joined.
    Several,
}

/// `length` virtual cells from `base` on, the party that holds them, and who took them.
#[derive(Clone, Copy, Debug, PartialEq, Eq, Hash)]
#[allow(missing_docs)]
pub struct Reservation {
    pub base: u16,
    pub length: u16,
    pub state: ReservationState,
    pub holder: u8,
    pub taker: Taker,
}

/// What a virtual page shows.
#[derive(Clone, Copy, Debug, PartialEq, Eq, Hash)]
pub enum PageState {
    /// Nothing; it may be mapped.
    Unmapped,
    /// Nothing, and it must be revoked before it is mapped again.
    Freed,
    /// A frame.
    Mapped(Frame),
}

/// What a frame holds.
#[derive(Clone, Copy, Debug, PartialEq, Eq, Hash)]
pub enum FrameState {
    /// What someone left.
    Dirty,
    /// Zeros; it may be mapped.
    Free,
    /// What a page shows.
    Mapped,
}

/// The revocation that runs: its range, and how many cells of lent memory the sweep has passed.
#[derive(Clone, Copy, Debug, PartialEq, Eq, Hash)]
#[allow(missing_docs)]
pub struct Revocation {
    pub base: u16,
    pub length: u16,
    pub place: u16,
}

/// A register in use, by its party and number.
#[derive(Clone, Copy, Debug, PartialEq, Eq, Hash)]
#[allow(missing_docs)]
pub struct Register {
    pub party: u8,
    pub number: u8,
    pub word: Word,
}

/// A full mailbox and its party.
#[derive(Clone, Copy, Debug, PartialEq, Eq, Hash)]
#[allow(missing_docs)]
pub struct Mailbox {
    pub party: u8,
    pub word: Word,
}

/// A principal in being. Its limit is what it has spent, 1 for each page that it claims, and what is
/// unspent.
#[derive(Clone, Copy, Debug, PartialEq, Eq, Hash)]
#[allow(missing_docs)]
pub struct Principal {
    pub number: u8,
    pub holder: u8,
    /// Principal 0 has none.
    pub parent: Option<u8>,
    pub spent: u16,
    pub unspent: u16,
}

/// How often a principal claims a page that it claims.
#[derive(Clone, Copy, Debug, PartialEq, Eq, Hash)]
#[allow(missing_docs)]
pub struct Claim {
    pub principal: u8,
    pub page: VirtualPage,
    pub count: u16,
}

impl State {
    /// V, the number of virtual pages.
    pub fn page_count(&self) -> usize {
        self.numbers[0].into()
    }

    /// F, the number of frames.
    pub fn frame_count(&self) -> usize {
        self.numbers[1].into()
    }

    /// The reservations, in rising base.
    pub fn reservations(&self) -> impl Iterator<Item = Reservation> + '_ {
        self.rows.iter().take(self.numbers[2].into()).map(|row| Reservation::of(*row))
    }

    /// The revocation that runs, if one does.
    pub fn revocation(&self) -> Option<Revocation> {
        let [_, _, _, place, base, length] = self.numbers;
        (length > 0).then_some(Revocation { base, length, place })
    }

    /// The virtual pages below V, in order.
    pub fn pages(&self) -> impl Iterator<Item = (VirtualPage, PageState)> + '_ {
        let pages = (0..=u8::MAX).zip(&self.pages).take(self.page_count());
        pages.map(|(page, code)| (VirtualPage(page), PageState::of(*code)))
    }

    /// The frames below F, in order.
    pub fn frames(&self) -> impl Iterator<Item = (Frame, FrameState)> + '_ {
        let frames = (0..=u8::MAX).zip(&self.frames).take(self.frame_count());
        frames.map(|(frame, code)| (Frame(frame), FrameState::of(*code)))
    }

    /// The registers that hold a capability or a number other than 0, by party and number.
    pub fn registers(&self) -> impl Iterator<Item = Register> + '_ {
        let words = words(&self.words, &self.marks);
        let used = words.filter(|(_, word)| *word != Word::default());
        used.map(|(place, word)| Register { party: place / 8, number: place % 8, word })
    }

    /// The full mailboxes, by party.
    pub fn mailboxes(&self) -> impl Iterator<Item = Mailbox> + '_ {
        let full = words(&self.mail, &self.flags).filter(|(_, word)| word.tag);
        full.map(|(party, word)| Mailbox { party, word })
    }

    /// The principals in being, by number.
    pub fn principals(&self) -> impl Iterator<Item = Principal> + '_ {
        let entries = (0..=u8::MAX).zip(self.principals.iter().zip(self.counts.chunks(256)));
        let in_being = entries.filter(|(_, (code, _))| **code >> 32 != 0);
        in_being.map(|(number, (code, counts))| Principal::of(number, *code, counts))
    }

    /// The claims, by principal and page.
    pub fn claims(&self) -> impl Iterator<Item = Claim> + '_ {
        let places = (0..=u16::MAX).zip(&self.counts).filter(|(_, count)| **count > 0);
        places.map(|(place, count)| {
            let [principal, page] = place.to_be_bytes();
            Claim { principal, page: VirtualPage(page), count: *count }
        })
    }
}

fn words<'a>(cells: &'a [u64], tags: &'a [u8]) -> impl Iterator<Item = (u8, Word)> + 'a {
    let words = cells.iter().zip(tags).map(|(cell, tag)| Word { number: *cell, tag: *tag != 0 });
    (0..=u8::MAX).zip(words)
}

impl Reservation {
    /// The reservation that a row's number reads as.
    pub fn of(row: u64) -> Reservation {
        let state = match (row >> 32) as u8 {
            0 => ReservationState::Open,
            1 => ReservationState::Taken,
            _ => ReservationState::Revoking,
        };
        Reservation {
            base: row as u16,
            length: (row >> 16) as u16,
            state,
            holder: (row >> 40) as u8,
            taker: Taker::of((row >> 48) as u8),
        }
    }
}

impl Principal {
    /// The principal that a number and its counts read as.
    fn of(number: u8, code: u64, counts: &[u16]) -> Principal {
        let parent = (code >> 16) as u8;
        Principal {
            number,
            holder: (code >> 24) as u8,
            parent: (number > 0).then_some(parent),
            spent: counts.iter().map(|count| u16::from(*count > 0)).sum(),
            unspent: code as u16,
        }
    }
}

impl Taker {
    /// The taker that the number in a row reads as.
    pub fn of(code: u8) -> Taker {
        match code {
            8 => Taker::Several,
            9 => Taker::Nobody,
            party => Taker::Party(party),
        }
    }
}

impl PageState {
    /// The state that a page's number reads as.
    pub fn of(code: u16) -> PageState {
        match code {
            0 => PageState::Unmapped,
            1 => PageState::Freed,
            mapped => PageState::Mapped(Frame((mapped - 2) as u8)),
        }
    }
}

impl FrameState {
    /// The state that a frame's number reads as.
    pub fn of(code: u8) -> FrameState {
        match code {
            0 => FrameState::Dirty,
            1 => FrameState::Free,
            _ => FrameState::Mapped,
        }
    }
}

impl fmt::Display for ReservationState {
    fn fmt(&self, out: &mut fmt::Formatter) -> fmt::Result {
        out.pad(match self {
            ReservationState::Open => "Open",
            ReservationState::Taken => "Taken",
            ReservationState::Revoking => "Revoking",
        })
    }
}

impl fmt::Display for Taker {
    fn fmt(&self, out: &mut fmt::Formatter) -> fmt::Result {
        match self {
            Taker::Nobody => out.pad("nobody"),
            Taker::Party(party) => write!(out, "party {party}"),
            Taker::Several => out.pad("several parties"),
        }
    }
}

/// Its cells, state, holder and, unless it is Open, who took it.
impl fmt::Display for Reservation {
    fn fmt(&self, out: &mut fmt::Formatter) -> fmt::Result {
        let Reservation { base, length, state, holder, taker } = self;
        write!(out, "{length} cells from {base} on, {state}, held by party {holder}")?;
        match (state, taker) {
            (ReservationState::Open, Taker::Nobody) => Ok(()),
            (ReservationState::Revoking, Taker::Party(0)) => {
                write!(out, ", taken by {taker} or by nobody")
            }
            _ => write!(out, ", taken by {taker}"),
        }
    }
}

impl fmt::Display for PageState {
    fn fmt(&self, out: &mut fmt::Formatter) -> fmt::Result {
        match self {
            PageState::Unmapped => out.pad("Unmapped"),
            PageState::Freed => out.pad("Freed"),
            PageState::Mapped(frame) => write!(out, "Mapped to {frame}"),
        }
    }
}

impl fmt::Display for FrameState {
    fn fmt(&self, out: &mut fmt::Formatter) -> fmt::Result {
        out.pad(match self {
            FrameState::Dirty => "Dirty",
            FrameState::Free => "Free",
            FrameState::Mapped => "Mapped",
        })
    }
}

/// Who holds it, below which principal it stands, and its limit.
impl fmt::Display for Principal {
    fn fmt(&self, out: &mut fmt::Formatter) -> fmt::Result {
        let Principal { number, holder, parent, spent, unspent } = self;
        write!(out, "principal {number}, held by party {holder}")?;
        if let Some(parent) = parent {
            write!(out, ", below principal {parent}")?;
        }
        write!(out, ", {spent} spent and {unspent} unspent")
    }
}

impl fmt::Display for Claim {
    fn fmt(&self, out: &mut fmt::Formatter) -> fmt::Result {
        let Claim { principal, page, count } = self;
        write!(out, "principal {principal} claims {page}, count {count}")
    }
}
