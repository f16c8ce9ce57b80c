//! A tagged cell's number: base, length and permissions.

pub const LOAD: u8 = 1;
pub const STORE: u8 = 2;
pub const LOAD_CAPABILITY: u8 = 4;
pub const STORE_CAPABILITY: u8 = 8;
pub const ALL_PERMISSIONS: u8 = 15;
/// What take gives: most houses store only text.
pub const PLAIN_PERMISSIONS: u8 = LOAD | STORE;

pub fn make(base: u16, length: u16, permissions: u8) -> u64 {
    u64::from(base) | u64::from(length) << 16 | u64::from(permissions) << 32
}

pub fn base(cell: u64) -> u16 {
    cell as u16
}

pub fn length(cell: u64) -> u16 {
    (cell >> 16) as u16
}

pub fn permissions(cell: u64) -> u8 {
    (cell >> 32) as u8
}

pub fn allows(cell: u64, permission: u8) -> bool {
    permissions(cell) & permission != 0
}

/// Virtual cells from `base` on, `length` of them.
#[derive(Clone, Copy, Debug, PartialEq, Eq)]
pub struct Range {
    pub base: u16,
    pub length: u16,
}

impl Range {
    pub fn holds(self, cell: u16) -> bool {
        cell.wrapping_sub(self.base) < self.length
    }

    /// A capability dies with the range where its base lies; its length does not matter.
    pub fn kills(self, capability: u64) -> bool {
        self.holds(base(capability))
    }

    pub fn is_whole_pages(self) -> bool {
        (self.base | self.length) % 16 == 0
    }

    /// The pages of a range of whole pages.
    pub fn pages(self) -> std::ops::Range<usize> {
        let first = usize::from(self.base) / 16;
        first..first + usize::from(self.length) / 16
    }
}
