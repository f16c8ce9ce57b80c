//! Request 2026-05: what a load puts into the register and answers while a revocation runs, and what
//! it leaves in memory, which no line of a session shows.

use cetomuhi_bench::hex;
use cetomuhi_bench::plain::{read, Answer, Memory, Slot, State};

/// What is there after calls on a start with V 2 and F 1: the state, lent memory and the last answer.
struct Left {
    state: State,
    cells: [u64; 16],
    tags: [u8; 16],
    answer: Answer,
}

/// All calls are granted, or the test fails.
fn after(text: &str) -> Left {
    let state = State::start(2, 1).unwrap();
    let mut left = Left { state, cells: [0; 16], tags: [0; 16], answer: Answer::default() };
    let bytes = hex::bytes(text).unwrap();
    let mut rest = &bytes[..];
    while let Some((call, used)) = read(rest) {
        let mut memory = Memory { cells: &mut left.cells, tags: &mut left.tags };
        left.answer = left.state.call(&mut memory, call);
        assert_eq!(left.answer.code, 0, "{text}: {call:?}");
        rest = &rest[used..];
    }
    assert!(rest.is_empty() && left.state.is_well_formed(), "{text}");
    left
}

/// Page 0 shows frame 0. Register 0 is for page 0 and stored in cell 4, register 1 for page 1 and
/// stored in cell 3.
const STORED: &str = "0A 00 00 08 00 00 00 02 00 0000 0010 11 00 0000 00 0F 11 00 0010 01 0F
    0C 00 00 0003 01 0C 00 00 0004 00";
const REVOKE: &str = "05 00 0010";
const PAGE_0: u64 = (15 << 32) + (16 << 16);
const PAGE_1: u64 = PAGE_0 + 16;

/// After a load from an offset of register 0 into register 2: the answer and the register are this
/// word, and the cell is as it was stored.
fn loads(before: &str, off: usize, cell: u64, tag: bool) {
    let left = after(&format!("{before} 0B 00 00 {off:04X} 02"));
    assert_eq!((left.answer.number, left.answer.tag), (cell, tag), "{before}: {off}");
    assert_eq!(left.state.registers[0][2], Slot { cell, tag }, "{before}: {off}");
    assert_eq!((left.cells[off], left.tags[off]), (cell, 1), "{before}: {off}");
}

#[test]
fn a_dying_capability_is_loaded_without_its_tag_and_stays_in_memory_with_it() {
    loads(&format!("{STORED} {REVOKE}"), 3, PAGE_1, false);
    loads(&format!("{STORED} {REVOKE} 06 00 0003"), 3, PAGE_1, false);
}

#[test]
fn another_one_is_loaded_with_its_tag() {
    loads(&format!("{STORED} {REVOKE}"), 4, PAGE_0, true);
}

#[test]
fn no_tag_is_dropped_where_no_revocation_runs() {
    loads(STORED, 3, PAGE_1, true);
    loads(STORED, 4, PAGE_0, true);
    loads(&format!("{STORED} {REVOKE} 06 00 0010 07 00"), 4, PAGE_0, true);
}

#[test]
fn what_a_register_held_keeps_its_tag_until_the_collect() {
    let held = |text: &str| after(&format!("{STORED} {text}")).state.registers[0][1];
    assert_eq!(held(&format!("{REVOKE} 06 00 0010")), Slot { cell: PAGE_1, tag: true });
    assert_eq!(held(&format!("{REVOKE} 06 00 0010 07 00")), Slot { cell: PAGE_1, tag: false });
}
