//! What a call answers.

use super::state::Slot;

/// Why a call is turned down, by the documents' numbers. 20 and 21 are judged after 12, 22 after 13.
#[derive(Clone, Copy, Debug, PartialEq, Eq)]
#[repr(u8)]
pub enum Refusal {
    IllFormed = 1,
    LentLength = 2,
    NoCommand = 3,
    AboveSeven = 4,
    NotManager = 5,
    NotHeld = 6,
    WrongStanding = 7,
    SplitLength = 8,
    TableFull = 9,
    NotWholePages = 10,
    RevocationOrder = 11,
    NoSuchPage = 12,
    PageState = 13,
    FrameState = 14,
    Untagged = 15,
    NoPermission = 16,
    OutOfBounds = 17,
    NotMapped = 18,
    Mailbox = 19,
    WrongPrincipal = 20,
    ClaimLimit = 21,
    Claimed = 22,
}

#[derive(Clone, Copy, Debug, Default, PartialEq, Eq)]
pub struct Answer {
    pub code: u8,
    pub number: u64,
    pub tag: bool,
}

impl Answer {
    pub const GRANTED: Answer = Answer::number(0);

    pub const fn number(number: u64) -> Answer {
        Answer { code: 0, number, tag: false }
    }

    /// The answer and the bytes used as four numbers.
    #[inline]
    pub fn numbers(self, used: usize) -> [u64; 4] {
        [self.code.into(), self.number, self.tag.into(), used as u64]
    }

    pub fn slot(slot: Slot) -> Answer {
        Answer { code: 0, number: slot.cell, tag: slot.tag }
    }
}

impl From<Refusal> for Answer {
    fn from(refusal: Refusal) -> Answer {
        Answer { code: refusal as u8, number: 0, tag: false }
    }
}
