//! Document 01's session, its edges marked K, the refusals that no session can show, what the two
//! takes give, and who took a reservation.

use cetomuhi_bench::hex;
use cetomuhi_bench::plain::state::{Memory, Revocation};
use cetomuhi_bench::plain::table::{Reservation, Standing, NOBODY, SEVERAL};
use cetomuhi_bench::plain::{read, session, session_checked, Action, Call, State};

/// The codes that a session of hexadecimal commands answers, the start's first.
fn codes(text: &str) -> Vec<u8> {
    let lines = String::from_utf8(session(&hex::bytes(text).unwrap())).unwrap();
    lines.lines().map(|line| line.split(' ').next().unwrap().parse().unwrap()).collect()
}

/// The last code of a session whose other commands are all granted.
fn last_code(text: &str) -> u8 {
    let mut codes = codes(text);
    let last = codes.pop().unwrap();
    assert!(codes.iter().all(|code| *code == 0), "{text}: {codes:?}");
    last
}

const DOCUMENT: &str = "
    00 02 01                   # 0 0 0
    0A 00 00                   # 0 0 0
    08 00 00 00                # 0 0 0
    02 00 00 00 00 10          # 0 0 0
    04 00 00 00 03             # 0 0 0
    11 03 00 00 00 0F          # 0 16 0
    0E 03 01 000000000000002A  # 0 0 0
    0C 03 00 00 05 01          # 0 0 0
    0C 03 00 00 06 00          # 0 0 0
    0B 03 00 00 06 02          # 0 64425558016 1
    05 00 00 00                # 13 0 0
    09 00 00                   # 0 0 0
    05 00 00 00                # 0 0 0
    06 00 00 0A                # 0 6 0
    07 00                      # 11 0 0
    06 00 00 FF                # 0 0 0
    07 00                      # 0 0 0
    0B 03 00 00 06 02          # 15 0 0";

#[test]
fn the_documents_session_prints_the_documents_lines() {
    let input = hex::bytes(DOCUMENT).unwrap();
    let expected: String = DOCUMENT
        .lines()
        .filter_map(|line| line.split_once("# "))
        .map(|(_, line)| format!("{line}\n"))
        .collect();
    assert_eq!(String::from_utf8(session(&input)).unwrap(), expected);
    let mut checked = Vec::new();
    session_checked(&input, &mut checked);
    assert_eq!(String::from_utf8(checked).unwrap(), expected);
}

#[test]
fn k_split_of_sixteen() {
    assert_eq!(last_code("0001 01 02 00 0000 000F"), 0);
    assert_eq!(last_code("0001 01 02 00 0000 0010"), 8);
    assert_eq!(last_code("0001 01 02 00 0000 0000"), 8);
}

#[test]
fn k_take_twice() {
    assert_eq!(codes("0001 01 04 00 0000 03 01 03 0000 00 01 03 0000 00"), [0, 0, 0, 6]);
    assert_eq!(codes("0001 01 01 00 0000 00 01 00 0000 00"), [0, 0, 7]);
}

#[test]
fn k_offset_in_length_sixteen() {
    let setup = "0001 01 0A 00 00 08 00 00 00 01 00 0000 00";
    assert_eq!(last_code(&format!("{setup} 0B 00 00 000F 01")), 0);
    assert_eq!(last_code(&format!("{setup} 0B 00 00 0010 01")), 17);
    assert_eq!(last_code(&format!("{setup} 0C 00 00 000F 01")), 0);
    assert_eq!(last_code(&format!("{setup} 0C 00 00 0010 01")), 17);
}

#[test]
fn k_revoke_of_sixteen_and_fifteen_cells() {
    assert_eq!(last_code("0001 01 05 00 0000"), 0);
    assert_eq!(last_code("0001 01 02 00 0000 000F 05 00 0000"), 10);
}

#[test]
fn k_collect_with_no_and_one_cell_left() {
    assert_eq!(last_code("0001 01 05 00 0000 06 00 0010 07 00"), 0);
    assert_eq!(last_code("0001 01 05 00 0000 06 00 000F 07 00"), 11);
}

#[test]
fn k_number_of_pages() {
    assert_eq!(codes("0100 01"), [0]);
    assert_eq!(codes("0101 01"), [1]);
}

#[test]
fn starts_out_of_range_or_short_are_refused() {
    for start in ["", "00", "0001", "0000 01", "0001 00", "0001 81", "FFFF FF", "0101 01 0E"] {
        assert_eq!(session(&hex::bytes(start).unwrap()), b"1 0 0\n", "{start}");
    }
    assert_eq!(codes("0001 80"), [0]);
}

#[test]
fn a_session_ends_after_refusal_3() {
    assert_eq!(codes("0001 01 00 07 00"), [0, 3]);
    assert_eq!(codes("0001 01 16 00 00 00"), [0, 3]);
    assert_eq!(codes("0001 01 11 00 00 00 00"), [0, 3]);
    assert_eq!(codes("0001 01 07 00 05 00 00"), [0, 11, 3]);
}

#[test]
fn bytes_beyond_the_limit_are_not_looked_at() {
    let mut input = vec![0, 1, 1];
    input.resize(40_000, 0x07);
    let lines = session(&input);
    // 07 07 is a collect by party 7, refused under 5; 32,765 bytes hold 16,382 and a cut one.
    let count = lines.iter().filter(|byte| **byte == b'\n').count();
    assert_eq!(count, 1 + 16_382 + 1);
    assert!(lines.ends_with(b"5 0 0\n3 0 0\n"));
}

#[test]
fn refusals_1_and_2_come_before_a_command_is_read() {
    let mut state = State::start(2, 1).unwrap();
    let (mut cells, mut tags) = ([0; 16], [0; 16]);
    let mut short = Memory { cells: &mut cells[..15], tags: &mut tags };
    let (answer, used) = state.command(&mut short, &[], 0);
    assert_eq!((answer.code, used), (2, 0));
    let mut long_tags = [0; 17];
    let mut memory = Memory { cells: &mut cells, tags: &mut long_tags };
    assert_eq!(state.command(&mut memory, &[], 0).0.code, 2);
    state.mailboxes[7].cell = 1;
    assert_eq!(state.command(&mut memory, &[], 0).0.code, 1);
    let before = state.clone();
    let call = Call { party: 0, action: Action::Collect };
    assert_eq!(state.call(&mut memory, call).code, 1);
    assert_eq!(state, before);
}

#[test]
fn a_command_is_read_from_its_place() {
    let mut state = State::start(2, 1).unwrap();
    let (mut cells, mut tags) = ([0; 16], [0; 16]);
    let mut memory = Memory { cells: &mut cells, tags: &mut tags };
    let input = [0xFF, 0x0A, 0x00, 0x00, 0xFF];
    let (answer, used) = state.command(&mut memory, &input, 1);
    assert_eq!((answer.code, used), (0, 3));
    assert_eq!(state.command(&mut memory, &input, 4).0.code, 3);
    assert_eq!(state.command(&mut memory, &input, 5).0.code, 3);
    assert_eq!(state.command(&mut memory, &input, 6).0.code, 3);
}

#[test]
fn a_take_gives_load_and_store_and_one_by_mask_what_of_fifteen_is_in_it() {
    let (mut cells, mut tags) = ([0; 16], [0; 16]);
    let mut memory = Memory { cells: &mut cells, tags: &mut tags };
    let mut given = |action| {
        let mut state = State::start(1, 1).unwrap();
        let answer = state.call(&mut memory, Call { party: 0, action });
        assert_eq!((answer.code, answer.number, answer.tag), (0, 16, false));
        assert!(state.registers[0][5].tag);
        state.registers[0][5].cell
    };
    assert_eq!(given(Action::Take { base: 0, reg: 5 }), 16 << 16 | 3 << 32);
    for mask in 0..=255 {
        let cell = given(Action::TakeMasked { base: 0, reg: 5, mask });
        assert_eq!(cell, 16 << 16 | u64::from(mask % 16) << 32, "mask {mask}");
    }
}

#[test]
fn a_take_by_mask_is_refused_as_a_take() {
    let both = |rest: &str| {
        let codes = ["01", "11"].map(|command| {
            let mask = if command == "11" { "0F" } else { "" };
            codes(&format!("0002 01 02 00 0000 0010 04 00 0000 03 {command} {rest} {mask}"))
        });
        assert_eq!(codes[0], codes[1], "{rest}");
        *codes[1].last().unwrap()
    };
    assert_eq!((both("08 0000 00"), both("03 0000 08"), both("08 0001 08")), (4, 4, 4));
    assert_eq!((both("03 0001 00"), both("03 0010 00"), both("00 0020 00")), (6, 6, 6));
    assert_eq!((both("03 0000 07"), both("00 0010 00")), (0, 0));
    assert_eq!(codes("0001 01 04 00 0000 03 11 03 0000 00 0F 11 03 0000 00 0F"), [0, 0, 0, 6]);
    assert_eq!(codes("0001 01 11 00 0000 00 0F 11 00 0000 00 0F"), [0, 0, 7]);
    assert_eq!(codes("0001 01 11 00 0000 00 00 01 00 0000 00"), [0, 0, 7]);
    assert_eq!(codes("0001 01 01 00 0000 00 11 00 0000 00 0F"), [0, 0, 7]);
}

/// From a fresh start nobody stores a capability in a range taken without permission 8, so that the
/// tagged cell is put there by hand.
#[test]
fn a_take_loads_a_capability_without_its_tag_and_stores_none() {
    let mut state = State::start(1, 1).unwrap();
    let (mut cells, mut tags) = ([0; 16], [0; 16]);
    let mut memory = Memory { cells: &mut cells, tags: &mut tags };
    let call = |state: &mut State, memory: &mut Memory, action| {
        let answer = state.call(memory, Call { party: 0, action });
        (answer.code, answer.number, answer.tag)
    };
    call(&mut state, &mut memory, Action::Zero { frame: 0 });
    call(&mut state, &mut memory, Action::Map { page: 0, frame: 0 });
    call(&mut state, &mut memory, Action::Take { base: 0, reg: 0 });
    (memory.cells[4], memory.tags[4]) = (77, 5);
    let load = Action::Load { a: 0, off: 4, d: 1 };
    assert_eq!(call(&mut state, &mut memory, load), (0, 77, false));
    assert_eq!(memory.tags[4], 5);
    let store = |s| Action::Store { a: 0, off: 5, s };
    assert_eq!(call(&mut state, &mut memory, store(0)), (16, 0, false));
    assert_eq!(call(&mut state, &mut memory, store(1)), (0, 0, false));
    assert_eq!((memory.cells[5], memory.tags[5]), (77, 0));
}

#[test]
fn odd_capabilities_of_a_well_formed_state_are_coped_with() {
    let mut state = State::start(1, 1).unwrap();
    let (mut cells, mut tags) = ([7; 16], [5; 16]);
    let mut memory = Memory { cells: &mut cells, tags: &mut tags };
    let slot = |cell| cetomuhi_bench::plain::Slot { cell, tag: true };
    state.registers[1] = [slot(0); 8];
    // Base 65,535, length 65,535, all bits above: past every page, and no narrowing past 65,535.
    state.registers[1][1] = slot(u64::MAX);
    let mut code = |action| state.call(&mut memory, Call { party: 1, action }).code;
    assert_eq!(code(Action::Load { a: 0, off: 0, d: 0 }), 16);
    assert_eq!(code(Action::Narrow { s: 0, off: 0, len: 1, mask: 15, d: 0 }), 17);
    assert_eq!(code(Action::Load { a: 1, off: 2, d: 0 }), 18);
    assert_eq!(code(Action::Narrow { s: 1, off: 1, len: 1, mask: 15, d: 0 }), 17);
    assert_eq!(code(Action::Narrow { s: 1, off: 0, len: 1, mask: 0x81, d: 2 }), 0);
    assert_eq!(state.registers[1][2], slot(0xFFFF | 1 << 16 | 0x81 << 32));
}

#[test]
fn a_revocation_agrees_with_the_table() {
    let (mut cells, mut tags) = ([0; 16], [0; 16]);
    let mut memory = Memory { cells: &mut cells, tags: &mut tags };
    let mut state = State::start(2, 1).unwrap();
    let revoke = Call { party: 0, action: Action::Revoke { base: 0 } };
    assert_eq!(state.call(&mut memory, revoke).code, 0);
    assert!(state.is_well_formed());
    let running = state.revocation.unwrap();
    state.revocation = None;
    assert!(!state.is_well_formed());
    state.revocation = Some(Revocation { place: 17, ..running });
    assert!(!state.is_well_formed());
    state.revocation = Some(Revocation { place: 16, ..running });
    assert!(state.is_well_formed());
    state.pages.release(running.range);
    assert!(!state.is_well_formed());
}

/// The state after hexadecimal commands from a fresh start, with zeroed memory. All are granted, and
/// the state is well formed after each.
fn after(v: u16, text: &str) -> State {
    let mut state = State::start(v, 1).unwrap();
    let (mut cells, mut tags) = ([0; 16], [0; 16]);
    let mut memory = Memory { cells: &mut cells, tags: &mut tags };
    let bytes = hex::bytes(text).unwrap();
    let mut rest = &bytes[..];
    while let Some((call, used)) = read(rest) {
        assert_eq!(state.call(&mut memory, call).code, 0, "{text}: {call:?}");
        rest = &rest[used..];
    }
    assert!(rest.is_empty() && state.is_well_formed(), "{text}");
    state
}

fn takers(v: u16, text: &str) -> Vec<u8> {
    after(v, text).table.rows().iter().map(|row| row.taker).collect()
}

#[test]
fn an_open_reservation_has_no_taker() {
    assert_eq!((NOBODY, SEVERAL), (9, 8));
    assert_eq!(takers(4, ""), [9]);
    assert_eq!(takers(4, "02 00 0000 0010"), [9, 9]);
    assert_eq!(takers(4, "02 00 0000 0010 03 00 0000"), [9]);
    assert_eq!(takers(4, "02 00 0000 0010 04 00 0010 03"), [9, 9]);
}

#[test]
fn a_take_writes_down_the_caller() {
    for party in 0..8 {
        let given = format!("02 00 0000 0010 04 00 0010 {party:02X}");
        assert_eq!(takers(4, &format!("{given} 01 {party:02X} 0010 00")), [9, party]);
        assert_eq!(takers(4, &format!("{given} 11 {party:02X} 0010 00 0F")), [9, party]);
    }
}

/// Cells 0 to 63 in four parts, taken by these parties, the later ones by mask.
fn four_taken(parties: [u8; 4]) -> String {
    let mut text = String::from("02 00 0000 0010 02 00 0010 0010 02 00 0020 0010");
    for (base, party) in ["0000", "0010", "0020", "0030"].into_iter().zip(parties) {
        let (command, mask) = if base > "0010" { ("11", "03") } else { ("01", "") };
        text += &format!(" 04 00 {base} {party:02X} {command} {party:02X} {base} 00 {mask}");
    }
    text
}

#[test]
fn a_merge_keeps_a_common_taker_and_joins_others_to_several() {
    let merged = |parties, merges| takers(4, &format!("{} {merges}", four_taken(parties)));
    assert_eq!(merged([3, 3, 5, 0], ""), [3, 3, 5, 0]);
    assert_eq!(merged([3, 3, 5, 0], "03 00 0000"), [3, 5, 0]);
    assert_eq!(merged([3, 3, 5, 0], "03 00 0000 03 00 0000"), [8, 0]);
    assert_eq!(merged([3, 3, 5, 0], "03 00 0010"), [3, 8, 0]);
    assert_eq!(merged([3, 3, 5, 0], "03 00 0010 03 00 0000"), [8, 0]);
    assert_eq!(merged([3, 3, 5, 0], "03 00 0010 03 00 0010"), [3, 8]);
    assert_eq!(merged([0, 0, 0, 0], "03 00 0000 03 00 0020 03 00 0000"), [0]);
    assert_eq!(merged([1, 2, 4, 7], "03 00 0000 03 00 0020"), [8, 8]);
    assert_eq!(merged([1, 2, 4, 7], "03 00 0000 03 00 0020 03 00 0000"), [8]);
}

#[test]
fn a_revoke_keeps_the_taker_and_a_collect_takes_it_away() {
    let revoke = "05 00 0010";
    let collect = format!("{revoke} 06 00 0010 07 00");
    let four = four_taken([3, 6, 5, 0]);
    assert_eq!(takers(4, &format!("{four} {revoke}")), [3, 6, 5, 0]);
    assert_eq!(takers(4, &format!("{four} {collect}")), [3, 9, 5, 0]);
    assert_eq!(takers(4, &format!("{four} 03 00 0010 {revoke}")), [3, 8, 0]);
    assert_eq!(takers(4, &format!("{four} 03 00 0010 {collect}")), [3, 9, 0]);
    assert_eq!(takers(4, "02 00 0000 0010 05 00 0010"), [9, 0]);
    assert_eq!(takers(4, &format!("02 00 0000 0010 {collect}")), [9, 9]);
}

/// Whether the state is well formed with another taker in a row, and refused under 1 if not.
fn may_have(state: &State, index: usize, taker: u8) -> bool {
    let mut state = state.clone();
    state.table.row(index).taker = taker;
    let before = state.clone();
    let (mut cells, mut tags) = ([0; 16], [0; 16]);
    let mut memory = Memory { cells: &mut cells, tags: &mut tags };
    let call = Call { party: 8, action: Action::Collect };
    let code = state.call(&mut memory, call).code;
    assert_eq!((code, state == before), (if state.is_well_formed() { 4 } else { 1 }, true));
    code != 1
}

#[test]
fn a_taker_fits_the_standing() {
    let state = after(4, &format!("{} 05 00 0020 03 00 0000", four_taken([1, 2, 3, 4])));
    let open = after(4, "02 00 0000 0010");
    let standings = state.table.rows().iter().map(|row| row.standing);
    assert!(standings.eq([Standing::Taken, Standing::Revoking, Standing::Taken]));
    for taker in 0..=255 {
        for index in 0..3 {
            assert_eq!(may_have(&state, index, taker), taker <= 8, "row {index}, {taker}");
        }
        assert_eq!(
            (may_have(&open, 0, taker), may_have(&open, 1, taker)),
            (taker == 9, taker == 9)
        );
        assert_eq!(
            (may_have(&open, 2, taker), may_have(&open, 63, taker)),
            (taker == 0, taker == 0)
        );
    }
}

/// The rows without their takers.
fn without_takers(state: &State) -> Vec<Reservation> {
    state.table.rows().iter().map(|row| Reservation { taker: 0, ..*row }).collect()
}

/// No answer, and nothing else in the state, depends on who took what.
#[test]
fn takers_decide_nothing_but_takers() {
    let (mut cells, mut tags) = ([0; 16], [0; 16]);
    let mut memory = Memory { cells: &mut cells, tags: &mut tags };
    let states = [[0, 0, 0, 0], [3, 3, 5, 5]].map(|parties| after(4, &four_taken(parties)));
    let actions = |base| {
        let (reg, mask) = (7, 15);
        [
            Action::Take { base, reg },
            Action::Split { base, len: 1 },
            Action::Merge { base },
            Action::Give { base, to: 1 },
            Action::Revoke { base },
            Action::TakeMasked { base, reg, mask },
        ]
    };
    for action in [0, 16, 32, 48].into_iter().flat_map(actions) {
        for party in [0, 3, 5] {
            let [a, b] = states.clone().map(|mut state| {
                let answer = state.call(&mut memory, Call { party, action });
                (answer, without_takers(&state), state.pages, state.revocation)
            });
            assert_eq!(a, b, "party {party}: {action:?}");
        }
    }
}
