//! Virtual pages, frames, and which page shows which frame.

use super::answer::Refusal;
use super::capability::Range;

pub const PAGES: usize = 256;
pub const FRAMES: usize = 128;
pub const CELLS_A_PAGE: usize = 16;

/// A frame number, never a page number.
#[derive(Clone, Copy, Debug, PartialEq, Eq)]
pub struct Frame(pub u8);

#[derive(Clone, Copy, Debug, Default, PartialEq, Eq)]
pub enum Page {
    #[default]
    Unmapped,
    Freed,
    Mapped(Frame),
}

#[derive(Clone, Copy, Debug, Default, PartialEq, Eq)]
pub enum FrameUse {
    #[default]
    Dirty,
    Free,
    Mapped,
}

#[derive(Clone, Debug, PartialEq, Eq)]
pub struct Pages {
    page_count: u16,
    frame_count: u8,
    pages: [Page; PAGES],
    frames: [FrameUse; FRAMES],
}

impl Pages {
    pub fn fresh(page_count: u16, frame_count: u8) -> Pages {
        Pages {
            page_count,
            frame_count,
            pages: [Page::default(); PAGES],
            frames: [FrameUse::default(); FRAMES],
        }
    }

    /// Any pages and frames, well formed or not.
    pub fn of(v: u16, f: u8, pages: [Page; PAGES], frames: [FrameUse; FRAMES]) -> Pages {
        Pages { page_count: v, frame_count: f, pages, frames }
    }

    pub fn pages(&self) -> &[Page] {
        &self.pages[..usize::from(self.page_count)]
    }

    pub fn frames(&self) -> &[FrameUse] {
        &self.frames[..usize::from(self.frame_count)]
    }

    /// The number of virtual cells, at most 4,096.
    pub fn virtual_cells(&self) -> u16 {
        self.page_count * CELLS_A_PAGE as u16
    }

    pub fn lent_cells(&self) -> usize {
        usize::from(self.frame_count) * CELLS_A_PAGE
    }

    pub fn map(&mut self, page: u8, frame: u8) -> Result<(), Refusal> {
        let (page, frame) = (self.named_page(page)?, self.named_frame(frame)?);
        if self.pages[page] != Page::Unmapped {
            return Err(Refusal::PageState);
        }
        if self.frames[frame] != FrameUse::Free {
            return Err(Refusal::FrameState);
        }
        self.pages[page] = Page::Mapped(Frame(frame as u8));
        self.frames[frame] = FrameUse::Mapped;
        Ok(())
    }

    pub fn unmap(&mut self, page: u8, is_claimed: impl Fn(usize) -> bool) -> Result<(), Refusal> {
        let page = self.named_page(page)?;
        let Page::Mapped(Frame(frame)) = self.pages[page] else {
            return Err(Refusal::PageState);
        };
        if is_claimed(page) {
            return Err(Refusal::Claimed);
        }
        self.pages[page] = Page::Freed;
        self.frames[usize::from(frame)] = FrameUse::Dirty;
        Ok(())
    }

    /// The Dirty frame becomes Free; the caller clears the lent cells handed back.
    pub fn zero(&mut self, frame: u8) -> Result<std::ops::Range<usize>, Refusal> {
        let frame = self.named_frame(frame)?;
        if self.frames[frame] != FrameUse::Dirty {
            return Err(Refusal::FrameState);
        }
        self.frames[frame] = FrameUse::Free;
        let first = frame * CELLS_A_PAGE;
        Ok(first..first + CELLS_A_PAGE)
    }

    /// Refusal 18, or the lent cell behind a virtual one.
    pub fn lent_place(&self, cell: usize) -> Result<usize, Refusal> {
        match self.pages().get(cell / CELLS_A_PAGE) {
            Some(&Page::Mapped(Frame(frame))) => {
                Ok(usize::from(frame) * CELLS_A_PAGE + cell % CELLS_A_PAGE)
            }
            _ => Err(Refusal::NotMapped),
        }
    }

    /// Revoke's part: Unmapped pages become Freed, unless one of the range is Mapped.
    pub fn free(&mut self, range: Range) -> Result<(), Refusal> {
        let pages = &mut self.pages[range.pages()];
        if pages.iter().any(|page| matches!(page, Page::Mapped(_))) {
            return Err(Refusal::PageState);
        }
        pages.fill(Page::Freed);
        Ok(())
    }

    /// Collect's part: the range's pages can be mapped again.
    pub fn release(&mut self, range: Range) {
        self.pages[range.pages()].fill(Page::Unmapped);
    }

    pub fn are_all_freed(&self, range: Range) -> bool {
        self.pages[range.pages()].iter().all(|page| *page == Page::Freed)
    }

    pub fn is_well_formed(&self) -> bool {
        let (v, f) = (usize::from(self.page_count), usize::from(self.frame_count));
        (1..=PAGES).contains(&v)
            && (1..=FRAMES).contains(&f)
            && all(self.pages[v..].iter().map(|page| *page == Page::Unmapped))
            && all(self.frames[f..].iter().map(|used| *used == FrameUse::Dirty))
            && self.each_mapped_frame_has_one_page()
    }

    fn each_mapped_frame_has_one_page(&self) -> bool {
        let mut shown = [false; FRAMES];
        for page in self.pages() {
            if let Page::Mapped(Frame(frame)) = *page {
                match shown.get_mut(usize::from(frame)) {
                    Some(seen) if !*seen => *seen = true,
                    _ => return false,
                }
            }
        }
        let frames = self.frames.iter().zip(shown);
        all(frames.map(|(used, seen)| (*used == FrameUse::Mapped) == seen))
    }

    /// Refusal 12, or the page.
    pub fn named_page(&self, page: u8) -> Result<usize, Refusal> {
        if u16::from(page) < self.page_count {
            Ok(usize::from(page))
        } else {
            Err(Refusal::NoSuchPage)
        }
    }

    fn named_frame(&self, frame: u8) -> Result<usize, Refusal> {
        if frame < self.frame_count {
            Ok(usize::from(frame))
        } else {
            Err(Refusal::NoSuchPage)
        }
    }
}

/// Looks at every item, which is faster for many small ones than to stop at the first false one.
fn all(items: impl Iterator<Item = bool>) -> bool {
    items.fold(true, |so_far, item| so_far & item)
}
