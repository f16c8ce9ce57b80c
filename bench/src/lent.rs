//! What is lent to a call of the proved library, in arrays of any lengths.

use crate::arrays;
use crate::plain::State;
use cetomuhi::raw::{Arrays, ArraysMut, Memory};

/// The arrays that a well-formed plain state is written as.
pub fn written(state: &State) -> cetomuhi::State {
    let mut written = cetomuhi::State::default();
    let mut arrays = arrays::ArraysMut {
        numbers: &mut written.numbers,
        words: &mut written.words,
        marks: &mut written.marks,
        mail: &mut written.mail,
        flags: &mut written.flags,
        rows: &mut written.rows,
        pages: &mut written.pages,
        frames: &mut written.frames,
        principals: &mut written.principals,
        counts: &mut written.counts,
    };
    arrays.write(state);
    written
}

/// What is lent to a call. The boxes are as long as what they hold, so that a tool that watches the
/// heap sees a step past an end.
#[derive(Clone, Debug, PartialEq)]
pub struct Lent {
    pub numbers: Box<[u16]>,
    pub words: Box<[u64]>,
    pub marks: Box<[u8]>,
    pub mail: Box<[u64]>,
    pub flags: Box<[u8]>,
    pub rows: Box<[u64]>,
    pub pages: Box<[u16]>,
    pub frames: Box<[u8]>,
    pub principals: Box<[u64]>,
    pub counts: Box<[u16]>,
    pub cells: Box<[u64]>,
    pub tags: Box<[u8]>,
}

impl Lent {
    pub fn of(state: &cetomuhi::State, cells: &[u64], tags: &[u8]) -> Lent {
        Lent {
            numbers: state.numbers.into(),
            words: state.words.into(),
            marks: state.marks.into(),
            mail: state.mail.into(),
            flags: state.flags.into(),
            rows: state.rows.into(),
            pages: state.pages.into(),
            frames: state.frames.into(),
            principals: state.principals.into(),
            counts: state.counts.into(),
            cells: cells.into(),
            tags: tags.into(),
        }
    }

    pub fn arrays(&self) -> Arrays<'_> {
        Arrays {
            numbers: &self.numbers,
            words: &self.words,
            marks: &self.marks,
            mail: &self.mail,
            flags: &self.flags,
            rows: &self.rows,
            pages: &self.pages,
            frames: &self.frames,
            principals: &self.principals,
            counts: &self.counts,
        }
    }

    pub fn lend(&mut self) -> (ArraysMut<'_>, Memory<'_>) {
        let arrays = ArraysMut {
            numbers: &mut self.numbers,
            words: &mut self.words,
            marks: &mut self.marks,
            mail: &mut self.mail,
            flags: &mut self.flags,
            rows: &mut self.rows,
            pages: &mut self.pages,
            frames: &mut self.frames,
            principals: &mut self.principals,
            counts: &mut self.counts,
        };
        (arrays, Memory { cells: &mut self.cells, tags: &mut self.tags })
    }

    fn own_arrays(&self) -> arrays::Arrays<'_> {
        arrays::Arrays {
            numbers: &self.numbers,
            words: &self.words,
            marks: &self.marks,
            mail: &self.mail,
            flags: &self.flags,
            rows: &self.rows,
            pages: &self.pages,
            frames: &self.frames,
            principals: &self.principals,
            counts: &self.counts,
        }
    }

    /// Whether the ten arrays have a state's lengths.
    pub fn is_sized(&self) -> bool {
        self.own_arrays().is_sized()
    }

    /// The plain state of the arrays; None if no state, well formed or not, is written so.
    pub fn plain(&self) -> Option<State> {
        self.own_arrays().plain()
    }
}
