//! Why a call is turned down.

use std::error::Error;
use std::fmt;

/// The documents' refusals, by their numbers. A call gets the first that applies: they are judged in
/// the order of their numbers, but 20 and 21 after 12, and 22 after 13. No call gets 25, which is for
/// questions about a table.
#[derive(Clone, Copy, Debug, PartialEq, Eq, PartialOrd, Ord, Hash)]
#[repr(u8)]
pub enum Refusal {
    /// The state is not well formed, or a start names V or F out of range.
    IllFormed = 1,
    /// The lent cells or tags are not 16 F in number.
    LentLength = 2,
    /// No byte is found at the place, the first byte is no command, or the input ends before its
    /// operands do. A buffer too short for a call's bytes too.
    NoCommand = 3,
    /// A party number, a `to`, a holder or a register number is above 7.
    AboveSeven = 4,
    /// A command 05 to 0A comes from a party other than 0.
    NotManager = 5,
    /// In 01 to 05 and 11, no reservation held by the caller begins at the base.
    NotHeld = 6,
    /// Take, split or give names one not Open; revoke names one Revoking; or merge finds no next
    /// one held by the caller with both Open or both Taken.
    WrongReservation = 7,
    /// The split length is 0, or not below the reservation's length.
    SplitLength = 8,
    /// A split finds 64 reservations.
    TableFull = 9,
    /// A revoke names a range whose base or length is no multiple of 16.
    NotWholePages = 10,
    /// A revoke comes while one runs, a sweep or collect while none runs, or a collect while cells
    /// are left.
    RevocationOrder = 11,
    /// A page is V or more, or a frame F or more.
    NoSuchPage = 12,
    /// The page to map is not Unmapped, the page to unmap not Mapped, or a page to revoke is Mapped.
    WrongPage = 13,
    /// The frame to map is not Free, or the frame to zero is not Dirty.
    WrongFrame = 14,
    /// The register that must hold a capability is untagged.
    Untagged = 15,
    /// Load lacks permission 1, store lacks 2, or a capability is stored through one without 8.
    NoPermission = 16,
    /// An offset is not below the length, or a narrowing has length 0, ends past the capability or
    /// begins above 65,535.
    OutOfBounds = 17,
    /// The addressed page is not Mapped, or lies at V or beyond.
    NotMapped = 18,
    /// The mailbox granted to is full, or the one received from is empty.
    Mailbox = 19,
    /// The principal is not in being, or not held as it must be: by the caller, or, to destroy it,
    /// its parent by the caller. Or the number of a principal to create is taken or above 31.
    WrongPrincipal = 20,
    /// A create or a page's first claim finds too little unspent limit, a claim finds a count of
    /// 65,535, or a release one of 0.
    ClaimLimit = 21,
    /// The page to unmap has a claim.
    Claimed = 22,
    /// Records of reservations are none or over 64, have a length 0, do not tile from cell 0 or end
    /// above 4,096. Or of what is asked about them the range is empty or runs past their end, the
    /// length is 0, or a list has no room for 64.
    WrongRange = 25,
}

impl Refusal {
    /// All of them, in the order of their numbers.
    pub const ALL: [Refusal; 23] = [
        Refusal::IllFormed,
        Refusal::LentLength,
        Refusal::NoCommand,
        Refusal::AboveSeven,
        Refusal::NotManager,
        Refusal::NotHeld,
        Refusal::WrongReservation,
        Refusal::SplitLength,
        Refusal::TableFull,
        Refusal::NotWholePages,
        Refusal::RevocationOrder,
        Refusal::NoSuchPage,
        Refusal::WrongPage,
        Refusal::WrongFrame,
        Refusal::Untagged,
        Refusal::NoPermission,
        Refusal::OutOfBounds,
        Refusal::NotMapped,
        Refusal::Mailbox,
        Refusal::WrongPrincipal,
        Refusal::ClaimLimit,
        Refusal::Claimed,
        Refusal::WrongRange,
    ];

    /// The refusal of a number, if there is one.
    pub fn of(number: u64) -> Option<Refusal> {
        let index = Refusal::ALL.binary_search_by_key(&number, |known| known.number().into());
        Some(Refusal::ALL[index.ok()?])
    }

    /// Its number, 1 to 22 or 25.
    pub fn number(self) -> u8 {
        self as u8
    }

    /// Whether a run of commands ends with it: 1 to 3, which no other command would mend.
    pub fn ends_a_run(self) -> bool {
        self <= Refusal::NoCommand
    }

    /// Its fixed phrase.
    pub fn words(self) -> &'static str {
        match self {
            Refusal::IllFormed => "the state is not well formed, or V or F is out of range",
            Refusal::LentLength => "the lent cells or tags are not 16 F in number",
            Refusal::NoCommand => "no whole command stands at this place",
            Refusal::AboveSeven => "a party or a register is above 7",
            Refusal::NotManager => "only party 0 may do this",
            Refusal::NotHeld => "the caller holds no reservation that begins there",
            Refusal::WrongReservation => {
                "the reservation is in the wrong state, or has no next one to merge with"
            }
            Refusal::SplitLength => "the split length is 0, or not below the reservation's length",
            Refusal::TableFull => "the table has 64 reservations already",
            Refusal::NotWholePages => "the range is not made of whole pages",
            Refusal::RevocationOrder => {
                "a revocation runs already, or none runs, or cells are left to sweep"
            }
            Refusal::NoSuchPage => "there is no such page or frame",
            Refusal::WrongPage => "the page is in the wrong state",
            Refusal::WrongFrame => "the frame is in the wrong state",
            Refusal::Untagged => "the register holds no capability",
            Refusal::NoPermission => "the capability lacks a permission",
            Refusal::OutOfBounds => "the offset or the length is past the capability's end",
            Refusal::NotMapped => "the addressed page is not Mapped",
            Refusal::Mailbox => {
                "the mailbox to grant to is full, or the one to receive from is empty"
            }
            Refusal::WrongPrincipal => {
                "the principal is not in being or not held as needed, or its number is not free"
            }
            Refusal::ClaimLimit => {
                "too little limit is unspent, or the count is at its most, or at 0"
            }
            Refusal::Claimed => "the page has a claim",
            Refusal::WrongRange => {
                "the records are no table, the range or length is wrong, or the list has no room"
            }
        }
    }
}

impl fmt::Display for Refusal {
    fn fmt(&self, out: &mut fmt::Formatter) -> fmt::Result {
        out.pad(self.words())
    }
}

impl Error for Refusal {}
