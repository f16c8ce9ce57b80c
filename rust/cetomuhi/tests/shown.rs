//! What is shown of a state, and the words for it.

use cetomuhi::{Answer, Call, Capability, Frame, FrameState, Machine, Mailbox, PageState};
use cetomuhi::{Refusal, Register, Reservation, ReservationState, Revocation, State, Taker};
use cetomuhi::{VirtualPage, Word};
use std::collections::HashSet;

fn busy() -> Machine {
    let calls = [
        Call::Zero { party: 0, frame: Frame(1) },
        Call::Zero { party: 0, frame: Frame(2) },
        Call::Map { party: 0, page: VirtualPage(0), frame: Frame(2) },
        Call::Split { party: 0, base: 0, len: 16 },
        Call::Split { party: 0, base: 16, len: 16 },
        Call::Give { party: 0, base: 32, to: 5 },
        Call::TakeMasked { party: 0, base: 0, reg: 3, mask: Capability::ALL },
        Call::Grant { party: 0, s: 3, to: 6 },
        Call::Number { party: 7, d: 7, value: 12 },
        Call::Revoke { party: 0, base: 16 },
        Call::Sweep { party: 0, n: 9 },
    ];
    let mut machine = Machine::start(3, 3).expect("V and F are in range");
    for call in calls {
        assert_eq!(machine.call(&call).code(), 0, "{call}");
    }
    machine
}

#[test]
fn a_busy_state_is_shown() {
    let machine = busy();
    let state = machine.state();
    let row = |base, state, holder, taker| Reservation { base, length: 16, state, holder, taker };
    let rows = [
        row(0, ReservationState::Taken, 0, Taker::Party(0)),
        row(16, ReservationState::Revoking, 0, Taker::Party(0)),
        row(32, ReservationState::Open, 5, Taker::Nobody),
    ];
    assert!(state.reservations().eq(rows));
    assert_eq!(state.revocation(), Some(Revocation { base: 16, length: 16, place: 9 }));
    let pages = [PageState::Mapped(Frame(2)), PageState::Freed, PageState::Unmapped];
    assert!(state.pages().eq((0..3).map(VirtualPage).zip(pages)));
    let frames = [FrameState::Dirty, FrameState::Free, FrameState::Mapped];
    assert!(state.frames().eq((0..3).map(Frame).zip(frames)));
    let capability = Capability { base: 0, length: 16, permissions: 15 };
    let word = Word { number: capability.number(), tag: true };
    let number = Word { number: 12, tag: false };
    let registers =
        [Register { party: 0, number: 3, word }, Register { party: 7, number: 7, word: number }];
    assert!(state.registers().eq(registers));
    assert!(state.mailboxes().eq([Mailbox { party: 6, word }]));
    assert_eq!((word.capability(), number.capability()), (Some(capability), None));
}

#[test]
fn a_fresh_and_a_zero_state_are_shown() {
    let fresh = State::start(256, 128).expect("V and F are in range");
    let (state, holder, taker) = (ReservationState::Open, 0, Taker::Nobody);
    let whole = Reservation { base: 0, length: 4096, state, holder, taker };
    assert!(fresh.reservations().eq([whole]));
    assert_eq!((fresh.pages().count(), fresh.frames().count()), (256, 128));
    assert!(fresh.pages().all(|(_, page)| page == PageState::Unmapped));
    assert!(fresh.frames().all(|(_, frame)| frame == FrameState::Dirty));
    assert_eq!((fresh.registers().count(), fresh.mailboxes().count()), (0, 0));
    assert_eq!((fresh.revocation(), State::default().reservations().count()), (None, 0));
}

/// Ill-formed states too: nothing panics, and no more is shown than there is.
#[test]
fn any_state_is_shown() {
    let state = State {
        numbers: [u16::MAX; 6],
        words: [u64::MAX; 64],
        marks: [255; 64],
        mail: [u64::MAX; 8],
        flags: [255; 8],
        rows: [u64::MAX; 64],
        pages: [u16::MAX; 256],
        frames: [255; 128],
        principals: [u64::MAX; 32],
        counts: [u16::MAX; 8192],
    };
    assert!(!state.is_well_formed());
    assert_eq!((state.reservations().count(), state.pages().count()), (64, 256));
    assert_eq!((state.frames().count(), state.registers().count()), (128, 64));
    assert_eq!(state.mailboxes().count(), 8);
    assert_eq!((state.principals().count(), state.claims().count()), (32, 8192));
}

#[test]
fn refusals_have_numbers_and_words() {
    let words: HashSet<&str> = Refusal::ALL.iter().map(|refusal| refusal.words()).collect();
    assert_eq!(words.len(), 23);
    for (refusal, number) in Refusal::ALL.into_iter().zip((1..=22).chain([25])) {
        assert_eq!((refusal.number(), Refusal::of(number.into())), (number, Some(refusal)));
        let printable = |byte: u8| (b' '..=b'~').contains(&byte) && byte != b':';
        assert!(refusal.words().bytes().all(printable) && refusal.to_string() == refusal.words());
        assert_eq!(refusal.ends_a_run(), number <= 3);
    }
    for number in [0, 23, 24, 26, 256, u64::MAX] {
        assert_eq!(Refusal::of(number), None);
    }
}

/// The header has the same words, each a string on a line; a crate without the repository has none.
#[test]
fn the_headers_words_are_the_same() {
    let header = concat!(env!("CARGO_MANIFEST_DIR"), "/../../include/cetomuhi.h");
    let Ok(header) = std::fs::read_to_string(header) else { return };
    let strings = header.lines().filter_map(|line| line.trim().strip_prefix('"'));
    let words: Vec<&str> = strings.filter_map(|rest| rest.split('"').next()).collect();
    let own: Vec<&str> = Refusal::ALL.iter().map(|refusal| refusal.words()).collect();
    assert!(words.windows(own.len()).any(|part| part == own), "{words:?}");
}

#[test]
fn answers_and_entries_have_words() {
    let granted = |number, tag| Answer::Granted(Word { number, tag }).to_string();
    assert_eq!(granted(0, false), "granted");
    assert_eq!(granted(16, false), "granted, 16");
    assert_eq!(granted(7, true), "granted, capability 7");
    let refused = Answer::Refused(Refusal::NotManager);
    assert_eq!(refused.to_string(), "refused, only party 0 may do this");
    let capability = Capability { base: 3, length: 5, permissions: 11 };
    assert_eq!(capability.to_string(), "5 cells from 3 on, load, store, store capabilities");
    assert_eq!(Capability::of(capability.number()), capability);
    let machine = busy();
    let lines: Vec<String> = machine.state().reservations().map(|row| row.to_string()).collect();
    let words = [
        "16 cells from 0 on, Taken, held by party 0, taken by party 0",
        "16 cells from 16 on, Revoking, held by party 0, taken by party 0 or by nobody",
        "16 cells from 32 on, Open, held by party 5",
    ];
    assert_eq!(lines, words);
    let (page, state) = machine.state().pages().next().expect("V is 3");
    assert_eq!(format!("{page}: {state}"), "page 0: Mapped to frame 2");
}

#[test]
fn takers_have_words() {
    let words = |state, taker| {
        Reservation { base: 0, length: 1, state, holder: 0, taker: Taker::of(taker) }.to_string()
    };
    let ends_with = |state, taker, end: &str| assert!(words(state, taker).ends_with(end), "{end}");
    ends_with(ReservationState::Taken, 3, ", held by party 0, taken by party 3");
    ends_with(ReservationState::Taken, 8, ", held by party 0, taken by several parties");
    ends_with(ReservationState::Revoking, 7, ", held by party 0, taken by party 7");
    ends_with(ReservationState::Revoking, 8, ", held by party 0, taken by several parties");
    // Those of no well-formed state.
    ends_with(ReservationState::Open, 3, ", held by party 0, taken by party 3");
    ends_with(ReservationState::Taken, 9, ", held by party 0, taken by nobody");
    ends_with(ReservationState::Taken, 255, ", held by party 0, taken by party 255");
    assert_eq!(format!("{:>8}, {}", Taker::Nobody, Taker::Several), "  nobody, several parties");
}
