//! Words: a number and its tag, and the capability that a tagged one is.

use std::fmt;

/// What a register, a mailbox, a lent cell or an answer holds. Tagged, it is a capability.
#[derive(Clone, Copy, Debug, Default, PartialEq, Eq, Hash)]
#[allow(missing_docs)]
pub struct Word {
    pub number: u64,
    pub tag: bool,
}

impl Word {
    /// The capability, if the word is tagged.
    pub fn capability(self) -> Option<Capability> {
        self.tag.then(|| Capability::of(self.number))
    }
}

impl fmt::Display for Word {
    fn fmt(&self, out: &mut fmt::Formatter) -> fmt::Result {
        match self.tag {
            true => write!(out, "capability {}", self.number),
            false => write!(out, "{}", self.number),
        }
    }
}

/// The right to some virtual cells.
#[derive(Clone, Copy, Debug, PartialEq, Eq, Hash)]
pub struct Capability {
    /// Its first virtual cell.
    pub base: u16,
    /// How many cells it is for.
    pub length: u16,
    /// A sum of [`LOAD`](Self::LOAD), [`STORE`](Self::STORE) and so on.
    pub permissions: u8,
}

impl Capability {
    /// The permission to load.
    pub const LOAD: u8 = 1;
    /// The permission to store.
    pub const STORE: u8 = 2;
    /// The permission to load capabilities with their tags.
    pub const LOAD_CAPABILITY: u8 = 4;
    /// The permission to store capabilities.
    pub const STORE_CAPABILITY: u8 = 8;
    /// All four.
    pub const ALL: u8 = 15;

    /// The capability that a tagged cell's number reads as. Bits above 39 say nothing.
    pub fn of(number: u64) -> Capability {
        Capability {
            base: number as u16,
            length: (number >> 16) as u16,
            permissions: (number >> 32) as u8,
        }
    }

    /// Its number in a cell.
    pub fn number(self) -> u64 {
        u64::from(self.base) | u64::from(self.length) << 16 | u64::from(self.permissions) << 32
    }

    /// Whether it has all of these permissions.
    pub fn allows(self, permissions: u8) -> bool {
        self.permissions & permissions == permissions
    }
}

/// Its cells and what they may be used for, in words.
impl fmt::Display for Capability {
    fn fmt(&self, out: &mut fmt::Formatter) -> fmt::Result {
        write!(out, "{} cells from {} on", self.length, self.base)?;
        let names = [
            (Capability::LOAD, "load"),
            (Capability::STORE, "store"),
            (Capability::LOAD_CAPABILITY, "load capabilities"),
            (Capability::STORE_CAPABILITY, "store capabilities"),
        ];
        for (_, name) in names.iter().filter(|(permission, _)| self.allows(*permission)) {
            write!(out, ", {name}")?;
        }
        Ok(())
    }
}
