//! A plain state and the ten arrays that a caller of the library keeps it in.

use crate::plain::capability::Range;
use crate::plain::claims::{Claims, Principal};
use crate::plain::pages::{Frame, FrameUse, Page, Pages};
use crate::plain::state::Revocation;
use crate::plain::table::{Reservation, Standing, Table};
use crate::plain::{Slot, State};

/// The lengths of a state's arrays, in their order.
pub const LENGTHS: [usize; 10] = [6, 64, 64, 8, 8, 64, 256, 128, 32, 8_192];

/// The ten arrays lent for reading, of any lengths.
#[derive(Clone, Copy)]
pub struct Arrays<'a> {
    pub numbers: &'a [u16],
    pub words: &'a [u64],
    pub marks: &'a [u8],
    pub mail: &'a [u64],
    pub flags: &'a [u8],
    pub rows: &'a [u64],
    pub pages: &'a [u16],
    pub frames: &'a [u8],
    pub principals: &'a [u64],
    pub counts: &'a [u16],
}

/// The same lent to be written.
pub struct ArraysMut<'a> {
    pub numbers: &'a mut [u16],
    pub words: &'a mut [u64],
    pub marks: &'a mut [u8],
    pub mail: &'a mut [u64],
    pub flags: &'a mut [u8],
    pub rows: &'a mut [u64],
    pub pages: &'a mut [u16],
    pub frames: &'a mut [u8],
    pub principals: &'a mut [u64],
    pub counts: &'a mut [u16],
}

impl Arrays<'_> {
    /// Whether the arrays have a state's lengths.
    pub fn is_sized(self) -> bool {
        let lengths = [
            self.numbers.len(),
            self.words.len(),
            self.marks.len(),
            self.mail.len(),
            self.flags.len(),
            self.rows.len(),
            self.pages.len(),
            self.frames.len(),
            self.principals.len(),
            self.counts.len(),
        ];
        lengths == LENGTHS
    }

    /// The plain state of the arrays; None if no state, well formed or not, is written so.
    pub fn plain(self) -> Option<State> {
        if !self.is_sized() {
            return None;
        }
        let &[v, f, count, place, base, length] = self.numbers.first_chunk()?;
        let revocation = match (length, base, place) {
            (0, 0, 0) => None,
            (0, ..) => return None,
            _ => Some(Revocation { range: Range { base, length }, place: place.into() }),
        };
        let registers = slots::<64>(self.words, self.marks)?;
        Some(State {
            pages: Pages::of(v, f.try_into().ok()?, pages(self.pages)?, frames(self.frames)?),
            table: Table::of(rows(self.rows)?, count.into())?,
            revocation,
            registers: std::array::from_fn(|party| {
                std::array::from_fn(|register| registers[8 * party + register])
            }),
            mailboxes: slots(self.mail, self.flags)?,
            claims: claims(self.principals, self.counts)?,
        })
    }
}

impl ArraysMut<'_> {
    pub fn read(&self) -> Arrays<'_> {
        Arrays {
            numbers: self.numbers,
            words: self.words,
            marks: self.marks,
            mail: self.mail,
            flags: self.flags,
            rows: self.rows,
            pages: self.pages,
            frames: self.frames,
            principals: self.principals,
            counts: self.counts,
        }
    }

    /// Makes arrays of a state's lengths the all-zero state.
    pub fn clear(&mut self) {
        self.numbers.fill(0);
        self.words.fill(0);
        self.marks.fill(0);
        self.mail.fill(0);
        self.flags.fill(0);
        self.rows.fill(0);
        self.pages.fill(0);
        self.frames.fill(0);
        self.principals.fill(0);
        self.counts.fill(0);
    }

    /// Writes a plain state, the unused entries 0, into arrays of a state's lengths.
    pub fn write(&mut self, state: &State) {
        self.clear();
        self.write_numbers(state);
        self.write_slots(state);
        self.write_table(state);
        self.write_pages(state);
        self.write_claims(state);
    }

    fn write_numbers(&mut self, state: &State) {
        let running = state.revocation;
        let range = running.map_or(Range { base: 0, length: 0 }, |running| running.range);
        let (v, f) = (state.pages.pages().len(), state.pages.frames().len());
        let place = running.map_or(0, |running| running.place);
        let small = [v, f, state.table.rows().len(), place].map(|number| number as u16);
        self.numbers[..4].copy_from_slice(&small);
        self.numbers[4..].copy_from_slice(&[range.base, range.length]);
    }

    fn write_slots(&mut self, state: &State) {
        for (at, slot) in state.registers.as_flattened().iter().enumerate() {
            (self.words[at], self.marks[at]) = (slot.cell, slot.tag.into());
        }
        for (at, slot) in state.mailboxes.iter().enumerate() {
            (self.mail[at], self.flags[at]) = (slot.cell, slot.tag.into());
        }
    }

    fn write_table(&mut self, state: &State) {
        for (number, row) in self.rows.iter_mut().zip(state.table.rows()) {
            let (base, length) = (u64::from(row.base), u64::from(row.length));
            let (holder, taker) = (u64::from(row.holder), u64::from(row.taker));
            let standing = row.standing as u64;
            *number = base | length << 16 | standing << 32 | holder << 40 | taker << 48;
        }
    }

    fn write_pages(&mut self, state: &State) {
        for (number, page) in self.pages.iter_mut().zip(state.pages.pages()) {
            *number = match *page {
                Page::Unmapped => 0,
                Page::Freed => 1,
                Page::Mapped(Frame(frame)) => 2 + u16::from(frame),
            };
        }
        for (number, frame) in self.frames.iter_mut().zip(state.pages.frames()) {
            *number = *frame as u8;
        }
    }

    fn write_claims(&mut self, state: &State) {
        for (number, entry) in state.claims.principals() {
            let (parent, holder) = (u64::from(entry.parent.unwrap_or(0)), u64::from(entry.holder));
            self.principals[usize::from(number)] =
                u64::from(entry.unspent) | parent << 16 | holder << 24 | 1 << 32;
        }
        for (number, counts) in (0..32).zip(self.counts.chunks_exact_mut(256)) {
            counts.copy_from_slice(state.claims.counts(number));
        }
    }
}

fn slots<const N: usize>(cells: &[u64], tags: &[u8]) -> Option<[Slot; N]> {
    let slots = cells.iter().zip(tags).map(|(cell, tag)| match tag {
        0 | 1 => Some(Slot { cell: *cell, tag: *tag == 1 }),
        _ => None,
    });
    slots.collect::<Option<Vec<Slot>>>()?.try_into().ok()
}

fn pages<const N: usize>(numbers: &[u16]) -> Option<[Page; N]> {
    let pages = numbers.iter().map(|number| match *number {
        0 => Some(Page::Unmapped),
        1 => Some(Page::Freed),
        mapped => Some(Page::Mapped(Frame((mapped - 2).try_into().ok()?))),
    });
    pages.collect::<Option<Vec<Page>>>()?.try_into().ok()
}

fn frames<const N: usize>(numbers: &[u8]) -> Option<[FrameUse; N]> {
    let frames = numbers.iter().map(|number| match number {
        0 => Some(FrameUse::Dirty),
        1 => Some(FrameUse::Free),
        2 => Some(FrameUse::Mapped),
        _ => None,
    });
    frames.collect::<Option<Vec<FrameUse>>>()?.try_into().ok()
}

fn rows<const N: usize>(numbers: &[u64]) -> Option<[Reservation; N]> {
    let rows = numbers.iter().map(|number| {
        let standing = match (number >> 32) as u8 {
            0 => Standing::Open,
            1 => Standing::Taken,
            2 => Standing::Revoking,
            _ => return None,
        };
        let (base, length) = (*number as u16, (number >> 16) as u16);
        let (holder, taker) = ((number >> 40) as u8, u8::try_from(number >> 48).ok()?);
        Some(Reservation { base, length, standing, holder, taker })
    });
    rows.collect::<Option<Vec<Reservation>>>()?.try_into().ok()
}

fn claims(principals: &[u64], counts: &[u16]) -> Option<Claims> {
    let mut entries = [None; 32];
    for (place, (entry, number)) in entries.iter_mut().zip(principals).enumerate() {
        *entry = match (*number, number >> 32) {
            (0, _) => None,
            (_, 1) => {
                let (unspent, parent) = (*number as u16, (number >> 16) as u8);
                let parent = (place > 0 || parent > 0).then_some(parent);
                Some(Principal { holder: (number >> 24) as u8, parent, unspent })
            }
            _ => return None,
        };
    }
    let (by_principal, _) = counts.as_chunks();
    Some(Claims::of(entries, by_principal.try_into().ok()?))
}
