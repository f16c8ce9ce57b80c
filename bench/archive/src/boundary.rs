//! The twelve functions of `include/cetomuhi.h`, and all `unsafe` of the archive.
//!
//! The header says what a caller owes: pointers are never null, they are valid and aligned for their
//! lengths, and what is written overlaps nothing else. The slices made here need just that.

use crate::rules;
use cetomuhi_bench::arrays::{Arrays, ArraysMut};
use cetomuhi_bench::plain::maps::{self, REFUSED};
use cetomuhi_bench::plain::Memory;
use std::slice::{from_raw_parts, from_raw_parts_mut};

/// Exports functions that are lent a state between their other arguments.
macro_rules! over_a_state {
    ($(
        $state:ident: $name:ident($($b:ident: $bt:ty),*; $($a:ident: $at:ty),*) -> $r:ty $body:block
    )*) => {
        $(
            /// # Safety
            /// As the header says.
            #[no_mangle]
            pub unsafe extern "C" fn $name(
                $($b: $bt,)*
                numbers: over_a_state!(pointer $state u16), numbers_len: usize,
                words: over_a_state!(pointer $state u64), words_len: usize,
                marks: over_a_state!(pointer $state u8), marks_len: usize,
                mail: over_a_state!(pointer $state u64), mail_len: usize,
                flags: over_a_state!(pointer $state u8), flags_len: usize,
                rows: over_a_state!(pointer $state u64), rows_len: usize,
                pages: over_a_state!(pointer $state u16), pages_len: usize,
                frames: over_a_state!(pointer $state u8), frames_len: usize,
                principals: over_a_state!(pointer $state u64), principals_len: usize,
                counts: over_a_state!(pointer $state u16), counts_len: usize,
                $($a: $at,)*
            ) -> $r {
                let $state = over_a_state!(slices $state {
                    numbers numbers_len, words words_len, marks marks_len, mail mail_len,
                    flags flags_len, rows rows_len, pages pages_len, frames frames_len,
                    principals principals_len, counts counts_len
                });
                $body
            }
        )*
    };
    (pointer read $number:ty) => { *const $number };
    (pointer lent $number:ty) => { *mut $number };
    (slices read { $($name:ident $length:ident),* }) => {
        Arrays { $($name: from_raw_parts($name, $length)),* }
    };
    (slices lent { $($name:ident $length:ident),* }) => {
        ArraysMut { $($name: from_raw_parts_mut($name, $length)),* }
    };
}

over_a_state! {
    lent: cetomuhi_start(v: u64, f: u64;) -> u8 {
        rules::start(v, f, lent)
    }

    read: cetomuhi_well_formed(;) -> bool {
        rules::well_formed(read)
    }

    read: cetomuhi_page_cost(; page: u64, share: *mut u64, remainder: *mut u64) -> u8 {
        let cost = rules::page_cost(read, page);
        share.write(cost.share);
        remainder.write(cost.remainder);
        cost.code
    }

    lent: cetomuhi_command(;
        cells: *mut u64, cells_len: usize, tags: *mut u8, tags_len: usize,
        input: *const u8, input_len: usize, at: usize,
        answers: *mut u64, answers_len: usize
    ) -> usize {
        let memory = memory(cells, cells_len, tags, tags_len);
        let input = from_raw_parts(input, input_len);
        rules::command(lent, memory, input, at, from_raw_parts_mut(answers, answers_len))
    }

    lent: cetomuhi_commands(;
        cells: *mut u64, cells_len: usize, tags: *mut u8, tags_len: usize,
        input: *const u8, input_len: usize, at: *mut usize,
        answers: *mut u64, answers_len: usize
    ) -> usize {
        let memory = memory(cells, cells_len, tags, tags_len);
        let input = from_raw_parts(input, input_len);
        let answers = from_raw_parts_mut(answers, answers_len);
        let (done, behind) = rules::commands(lent, memory, input, at.read(), answers);
        at.write(behind);
        done
    }
}

unsafe fn memory<'a>(
    cells: *mut u64,
    cells_len: usize,
    tags: *mut u8,
    tags_len: usize,
) -> Memory<'a> {
    let cells = from_raw_parts_mut(cells, cells_len);
    Memory { cells, tags: from_raw_parts_mut(tags, tags_len) }
}

/// Exports the lists of a table's reservations.
macro_rules! lists {
    ($($name:ident: $list:expr;)*) => {
        $(
            /// # Safety
            /// As the header says.
            #[no_mangle]
            pub unsafe extern "C" fn $name(
                rows: *const u64, rows_len: usize, first: u64, cells: u64,
                bases: *mut u16, bases_len: usize, count: *mut u64,
            ) -> u8 {
                let bases = from_raw_parts_mut(bases, bases_len);
                match $list(from_raw_parts(rows, rows_len), first, cells, bases) {
                    Ok(listed) => {
                        count.write(listed);
                        0
                    }
                    Err(_) => REFUSED,
                }
            }
        )*
    };
}

lists! {
    cetomuhi_sharing: maps::sharing;
    cetomuhi_within: maps::within;
}

/// # Safety
/// As the header says.
#[no_mangle]
pub unsafe extern "C" fn cetomuhi_nearest(
    rows: *const u64,
    rows_len: usize,
    cell: u64,
    cells: u64,
    found: *mut u64,
    base: *mut u64,
) -> u8 {
    match maps::nearest(from_raw_parts(rows, rows_len), cell, cells) {
        Ok(nearest) => {
            found.write(nearest.is_some().into());
            base.write(nearest.unwrap_or(0).into());
            0
        }
        Err(_) => REFUSED,
    }
}

/// # Safety
/// As the header says.
#[no_mangle]
pub unsafe extern "C" fn cetomuhi_write(
    numbers: *const u64,
    numbers_len: usize,
    out: *mut u8,
    out_len: usize,
) -> usize {
    rules::write(from_raw_parts(numbers, numbers_len), from_raw_parts_mut(out, out_len))
}

/// # Safety
/// As the header says.
#[no_mangle]
pub unsafe extern "C" fn cetomuhi_read(
    input: *const u8,
    input_len: usize,
    at: usize,
    numbers: *mut u64,
    numbers_len: usize,
) -> usize {
    let numbers = from_raw_parts_mut(numbers, numbers_len);
    rules::read(from_raw_parts(input, input_len), at, numbers)
}

#[no_mangle]
pub extern "C" fn cetomuhi_version() -> u64 {
    rules::VERSION
}

#[no_mangle]
pub extern "C" fn cetomuhi_size(which: u64) -> usize {
    rules::size(which)
}
