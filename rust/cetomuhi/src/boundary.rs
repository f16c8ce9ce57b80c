//! The C boundary, `include/cetomuhi.h`, and all `unsafe` of the crate.
//!
//! Each function here is safe for slices of every length and content. What the boundary asks of its
//! pointers holds of slices: they are valid and aligned for their lengths, never null, and those
//! that are written overlap nothing else. What the functions do with them is proved.

#[cfg(doc)]
use crate::VERSION;

/// The ten arrays of a state, lent for reading: those of [`State`](crate::State), of any lengths.
#[derive(Clone, Copy, Debug)]
#[allow(missing_docs)]
pub struct Arrays<'a> {
    pub numbers: &'a [u16],
    pub words: &'a [u64],
    pub marks: &'a [u8],
    pub mail: &'a [u64],
    pub flags: &'a [u8],
    pub rows: &'a [u64],
    pub pages: &'a [u16],
    pub frames: &'a [u8],
    pub principals: &'a [u64],
    pub counts: &'a [u16],
}

/// The same lent for a call, which may change them.
#[derive(Debug)]
#[allow(missing_docs)]
pub struct ArraysMut<'a> {
    pub numbers: &'a mut [u16],
    pub words: &'a mut [u64],
    pub marks: &'a mut [u8],
    pub mail: &'a mut [u64],
    pub flags: &'a mut [u8],
    pub rows: &'a mut [u64],
    pub pages: &'a mut [u16],
    pub frames: &'a mut [u8],
    pub principals: &'a mut [u64],
    pub counts: &'a mut [u16],
}

/// Lent memory: cells, and as many tag bytes.
#[derive(Debug)]
#[allow(missing_docs)]
pub struct Memory<'a> {
    pub cells: &'a mut [u64],
    pub tags: &'a mut [u8],
}

mod c {
    /// Declares functions that are lent a state between their other arguments.
    macro_rules! over_a_state {
        ($($pointer:ident: $name:ident($($b:ident: $bt:ty),*; $($a:ident: $at:ty),*) -> $r:ty;)*) => {
            extern "C" {
                $(pub fn $name(
                    $($b: $bt,)*
                    numbers: over_a_state!($pointer u16), numbers_len: usize,
                    words: over_a_state!($pointer u64), words_len: usize,
                    marks: over_a_state!($pointer u8), marks_len: usize,
                    mail: over_a_state!($pointer u64), mail_len: usize,
                    flags: over_a_state!($pointer u8), flags_len: usize,
                    rows: over_a_state!($pointer u64), rows_len: usize,
                    pages: over_a_state!($pointer u16), pages_len: usize,
                    frames: over_a_state!($pointer u8), frames_len: usize,
                    principals: over_a_state!($pointer u64), principals_len: usize,
                    counts: over_a_state!($pointer u16), counts_len: usize,
                    $($a: $at,)*
                ) -> $r;)*
            }
        };
        (reads $number:ty) => { *const $number };
        (writes $number:ty) => { *mut $number };
    }

    over_a_state! {
        writes: cetomuhi_start(v: u64, f: u64;) -> u8;
        reads: cetomuhi_well_formed(;) -> bool;
        reads: cetomuhi_page_cost(; page: u64, share: *mut u64, remainder: *mut u64) -> u8;
        writes: cetomuhi_command(;
            cells: *mut u64, cells_len: usize, tags: *mut u8, tags_len: usize,
            input: *const u8, input_len: usize, at: usize,
            answers: *mut u64, answers_len: usize
        ) -> usize;
        writes: cetomuhi_commands(;
            cells: *mut u64, cells_len: usize, tags: *mut u8, tags_len: usize,
            input: *const u8, input_len: usize, at: *mut usize,
            answers: *mut u64, answers_len: usize
        ) -> usize;
    }

    extern "C" {
        pub fn cetomuhi_write(
            numbers: *const u64,
            numbers_len: usize,
            out: *mut u8,
            out_len: usize,
        ) -> usize;
        pub fn cetomuhi_read(
            input: *const u8,
            input_len: usize,
            at: usize,
            numbers: *mut u64,
            numbers_len: usize,
        ) -> usize;
        pub fn cetomuhi_sharing(
            rows: *const u64,
            rows_len: usize,
            first: u64,
            cells: u64,
            bases: *mut u16,
            bases_len: usize,
            count: *mut u64,
        ) -> u8;
        pub fn cetomuhi_within(
            rows: *const u64,
            rows_len: usize,
            first: u64,
            cells: u64,
            bases: *mut u16,
            bases_len: usize,
            count: *mut u64,
        ) -> u8;
        pub fn cetomuhi_nearest(
            rows: *const u64,
            rows_len: usize,
            cell: u64,
            cells: u64,
            found: *mut u64,
            base: *mut u64,
        ) -> u8;
        pub fn cetomuhi_version() -> u64;
        pub fn cetomuhi_size(which: u64) -> usize;
    }
}

/// Calls a function with each array of a state as pointer and length.
macro_rules! lend {
    ($function:ident, $pointer:ident, ($($b:expr),*), $state:expr, ($($a:expr),*)) => {
        c::$function(
            $($b,)*
            $state.numbers.$pointer(), $state.numbers.len(),
            $state.words.$pointer(), $state.words.len(),
            $state.marks.$pointer(), $state.marks.len(),
            $state.mail.$pointer(), $state.mail.len(),
            $state.flags.$pointer(), $state.flags.len(),
            $state.rows.$pointer(), $state.rows.len(),
            $state.pages.$pointer(), $state.pages.len(),
            $state.frames.$pointer(), $state.frames.len(),
            $state.principals.$pointer(), $state.principals.len(),
            $state.counts.$pointer(), $state.counts.len(),
            $($a,)*
        )
    };
}

/// A fresh state for V and F: 0. Where V or F is out of range: 1, and the state is all 0. Where an
/// array has another length than a state's: 1, and nothing is written.
pub fn start(v: u64, f: u64, state: ArraysMut) -> u8 {
    // SAFETY: all pointers are those of live slices with their lengths.
    unsafe { lend!(cetomuhi_start, as_mut_ptr, (v, f), state, ()) }
}

/// Whether the arrays are a well-formed state.
pub fn well_formed(state: Arrays) -> bool {
    // SAFETY: as above; nothing is written.
    unsafe { lend!(cetomuhi_well_formed, as_ptr, (), state, ()) }
}

/// What a page costs those who claim it: 0, with share and remainder written. Arrays that are no
/// well-formed state: 1. A page of V or more: 12. Both numbers are then 0.
pub fn page_cost(state: Arrays, page: u64, share: &mut u64, remainder: &mut u64) -> u8 {
    // SAFETY: as above; what is written are two mutable borrows, so they overlap nothing.
    unsafe { lend!(cetomuhi_page_cost, as_ptr, (), state, (page, share, remainder)) }
}

/// The command at a place of the input: its code, number, tag and bytes used come first in
/// `answers`, and 1 is answered. Without room for those four nothing is done, and 0 is answered.
pub fn command(
    state: ArraysMut,
    memory: Memory,
    input: &[u8],
    at: usize,
    answers: &mut [u64],
) -> usize {
    let (cells, tags) = (memory.cells, memory.tags);
    // SAFETY: all pointers are those of live slices with their lengths. Those that are written are
    // mutable borrows, so they overlap nothing.
    unsafe {
        lend!(
            cetomuhi_command,
            as_mut_ptr,
            (),
            state,
            (
                cells.as_mut_ptr(),
                cells.len(),
                tags.as_mut_ptr(),
                tags.len(),
                input.as_ptr(),
                input.len(),
                at,
                answers.as_mut_ptr(),
                answers.len()
            )
        )
    }
}

/// The commands from a place of the input on; the answer is how many were done, and `at` is then
/// where the run stands. Each has its four numbers in `answers`. The run ends at the input's end,
/// after a refusal 1 to 3, whose answer counts, or where `answers` has no room for four more.
pub fn commands(
    state: ArraysMut,
    memory: Memory,
    input: &[u8],
    at: &mut usize,
    answers: &mut [u64],
) -> usize {
    let (cells, tags) = (memory.cells, memory.tags);
    // SAFETY: as for one command; `at` is a mutable borrow.
    unsafe {
        lend!(
            cetomuhi_commands,
            as_mut_ptr,
            (),
            state,
            (
                cells.as_mut_ptr(),
                cells.len(),
                tags.as_mut_ptr(),
                tags.len(),
                input.as_ptr(),
                input.len(),
                at,
                answers.as_mut_ptr(),
                answers.len()
            )
        )
    }
}

/// Puts the bytes of the call that seven numbers name first in `out` and answers how many they are.
/// Where the numbers are no call, or the bytes do not fit, it answers 0 and writes nothing.
pub fn write(numbers: &[u64], out: &mut [u8]) -> usize {
    // SAFETY: both pointers are those of live slices with their lengths, which do not overlap.
    unsafe { c::cetomuhi_write(numbers.as_ptr(), numbers.len(), out.as_mut_ptr(), out.len()) }
}

/// The seven numbers of the call at a place of the input, and how many bytes it has. Where no call
/// is there, or `numbers` is not seven long, it answers 0 and writes nothing.
pub fn read(input: &[u8], at: usize, numbers: &mut [u64]) -> usize {
    let (to, room) = (numbers.as_mut_ptr(), numbers.len());
    // SAFETY: both pointers are those of live slices with their lengths, which do not overlap.
    unsafe { c::cetomuhi_read(input.as_ptr(), input.len(), at, to, room) }
}

/// Which of the records share a cell with the `cells` cells from `first` on: 0, their bases come first
/// in `bases`, whose rest is kept, and `count` is how many. All of `rows` are records as those of a
/// state, 1 to 64, that tile up to 4,096 cells from cell 0 on, and the range has cells and lies in
/// them; else, and where `bases` is shorter than 64: 25, and nothing is written.
pub fn sharing(rows: &[u64], first: u64, cells: u64, bases: &mut [u16], count: &mut u64) -> u8 {
    let (to, room) = (bases.as_mut_ptr(), bases.len());
    // SAFETY: both pointers are those of live slices with their lengths. What is written are mutable
    // borrows, so they overlap nothing.
    unsafe { c::cetomuhi_sharing(rows.as_ptr(), rows.len(), first, cells, to, room, count) }
}

/// The same for the records with all their cells in the range.
pub fn within(rows: &[u64], first: u64, cells: u64, bases: &mut [u16], count: &mut u64) -> u8 {
    let (to, room) = (bases.as_mut_ptr(), bases.len());
    // SAFETY: as above.
    unsafe { c::cetomuhi_within(rows.as_ptr(), rows.len(), first, cells, to, room, count) }
}

/// Of the Open records of `cells` cells or more the nearest to `cell`: 0, `found` is 1 and `base` its
/// base; both are 0 if there is none. Records that are no table, and 0 for `cells`: 25, and nothing
/// is written.
pub fn nearest(rows: &[u64], cell: u64, cells: u64, found: &mut u64, base: &mut u64) -> u8 {
    // SAFETY: the pointer is that of a live slice with its length; what is written are two mutable
    // borrows, so they overlap nothing.
    unsafe { c::cetomuhi_nearest(rows.as_ptr(), rows.len(), cell, cells, found, base) }
}

/// The library's version, which changes with the layout of a state and with what a call does. This
/// crate is for [`VERSION`].
pub fn version() -> u64 {
    // SAFETY: no pointers.
    unsafe { c::cetomuhi_version() }
}

/// How long each array is, by its place in [`Arrays`] (0 to 9); the numbers of an answer (10) and of
/// a call (11); 0 for any other question.
pub fn size(which: u64) -> usize {
    // SAFETY: no pointers.
    unsafe { c::cetomuhi_size(which) }
}

#[cfg(feature = "session")]
mod sessions {
    extern "C" {
        fn cetomuhi_session(
            input: *const u8,
            input_len: usize,
            out: *mut u8,
            out_len: usize,
        ) -> usize;
        fn cetomuhi_session_checked(
            input: *const u8,
            input_len: usize,
            out: *mut u8,
            out_len: usize,
        ) -> usize;
    }

    /// The lines of a session put first in `out`, and their length; 0 if they do not fit.
    pub fn session(input: &[u8], out: &mut [u8]) -> usize {
        // SAFETY: both pointers are those of live slices with their lengths, which do not overlap.
        unsafe { cetomuhi_session(input.as_ptr(), input.len(), out.as_mut_ptr(), out.len()) }
    }

    /// The same with the state tested at every command.
    pub fn session_checked(input: &[u8], out: &mut [u8]) -> usize {
        // SAFETY: as above.
        unsafe {
            cetomuhi_session_checked(input.as_ptr(), input.len(), out.as_mut_ptr(), out.len())
        }
    }
}

#[cfg(feature = "session")]
pub use sessions::{session, session_checked};
