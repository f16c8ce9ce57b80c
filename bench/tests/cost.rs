//! Request 2026-11: what a page costs those who claim it. What is expected here is worked out from the
//! request by hand.

use cetomuhi_bench::hex;
use cetomuhi_bench::plain::claims::{Claims, Principal};
use cetomuhi_bench::plain::pages::Pages;
use cetomuhi_bench::plain::{read, Cost, Memory, Slot, State};

/// Code, share and remainder.
fn cost(state: &State, page: u64) -> (u8, u64, u64) {
    let before = state.clone();
    let Cost { code, share, remainder } = state.page_cost(page);
    assert_eq!(*state, before, "page {page}");
    (code, share, remainder)
}

/// The state after hexadecimal commands, all granted, from a fresh start with V 4 and F 1.
fn after(text: &str) -> State {
    let mut state = State::start(4, 1).unwrap();
    let (mut cells, mut tags) = ([0; 16], [0; 16]);
    let bytes = hex::bytes(text).unwrap();
    let mut rest = &bytes[..];
    while let Some((call, used)) = read(rest) {
        let mut memory = Memory { cells: &mut cells, tags: &mut tags };
        assert_eq!(state.call(&mut memory, call).code, 0, "{text}: {call:?}");
        rest = &rest[used..];
    }
    assert!(rest.is_empty(), "{text}");
    state
}

/// A state of V pages in which the principals from 31 down, so many of them, count a page so often.
fn shared(v: u16, page: usize, claimants: usize, count: u16) -> State {
    let mut counts = [[0; 256]; 32];
    let mut principals = [Some(Principal { holder: 3, parent: Some(0), unspent: 1 }); 32];
    counts[32 - claimants..].iter_mut().for_each(|counts| counts[page] = count);
    // The limits total 8,192: what is unspent, 31 of it below 0, and one for each that claims.
    let unspent = 8_192 - 31 - claimants as u16;
    principals[0] = Some(Principal { holder: 0, parent: None, unspent });
    let state = State { claims: Claims::of(principals, counts), ..State::start(v, 1).unwrap() };
    assert!(state.is_well_formed());
    state
}

#[test]
fn the_shares_of_up_to_16() {
    let expected = [
        (0, 16),
        (16, 0),
        (8, 0),
        (5, 1),
        (4, 0),
        (3, 1),
        (2, 4),
        (2, 2),
        (2, 0),
        (1, 7),
        (1, 6),
        (1, 5),
        (1, 4),
        (1, 3),
        (1, 2),
        (1, 1),
        (1, 0),
    ];
    for (claimants, (share, remainder)) in expected.into_iter().enumerate() {
        assert_eq!(cost(&shared(4, 2, claimants, 1), 2), (0, share, remainder), "{claimants}");
    }
}

#[test]
fn more_than_16_share_nothing() {
    for claimants in 17..=32 {
        assert_eq!(cost(&shared(4, 2, claimants, 1), 2), (0, 0, 16), "{claimants}");
    }
}

#[test]
fn who_claims_often_counts_once() {
    for count in [2, 3, 16, 65_535] {
        assert_eq!(cost(&shared(4, 2, 3, count), 2), (0, 5, 1), "count {count}");
        assert_eq!(cost(&shared(4, 2, 32, count), 2), (0, 0, 16), "count {count}");
    }
}

/// 1 below 0 is party 3's and 2 below 1 party 5's; both and 0 claim page 1, 2 of them twice; page 2 is
/// 2's alone.
const THREE: &str = "12 00 00 01 000A 03  12 03 01 02 0004 05  13 00 00 01  13 03 01 01  \
                     13 05 02 01  13 05 02 01  13 05 02 02";

#[test]
fn claims_and_releases_change_it() {
    let costs = |text: &str| {
        let state = after(&format!("{THREE} {text}"));
        [0, 1, 2, 3].map(|page| cost(&state, page))
    };
    let (nobody, one, two, three) = ((0, 0, 16), (0, 16, 0), (0, 8, 0), (0, 5, 1));
    assert_eq!(costs(""), [nobody, three, one, nobody]);
    assert_eq!(costs("14 05 02 01"), [nobody, three, one, nobody]);
    assert_eq!(costs("14 05 02 01 14 05 02 01"), [nobody, two, one, nobody]);
    assert_eq!(costs("15 03 02"), [nobody, two, nobody, nobody]);
    assert_eq!(costs("15 00 01"), [nobody, one, nobody, nobody]);
    assert_eq!(costs("15 00 01 14 00 00 01"), [nobody; 4]);
    // It does not matter whether the page shows a frame.
    assert_eq!(costs("0A 00 00 08 00 01 00"), [nobody, three, one, nobody]);
}

#[test]
fn pages_of_v_or_more_are_refused_under_12() {
    for v in [1, 4, 255, 256] {
        let last = usize::from(v) - 1;
        let (state, last) = (shared(v, last, 3, 1), last as u64);
        assert_eq!(cost(&state, last), (0, 5, 1), "V {v}");
        let cut = [256, 512, 1 << 16, 1 << 32, 1 << 63].map(|above| above + last);
        for page in [last + 1, last + 2, 256, u64::MAX].into_iter().chain(cut) {
            assert_eq!(cost(&state, page), (12, 0, 0), "V {v}, page {page}");
        }
    }
}

#[test]
fn an_ill_formed_state_is_refused_under_1_before_12() {
    let changes: [fn(&mut State); 5] = [
        |state| state.claims = Claims::of([None; 32], [[0; 256]; 32]),
        |state| state.mailboxes[0] = Slot { cell: 1, tag: false },
        |state| state.table.row(0).holder = 8,
        |state| state.pages = Pages::fresh(3, 1),
        |state| state.pages = Pages::fresh(0, 0),
    ];
    for (index, change) in changes.into_iter().enumerate() {
        let mut state = after(THREE);
        change(&mut state);
        for page in [0, 1, 3, 4, 256, u64::MAX] {
            assert_eq!(cost(&state, page), (1, 0, 0), "change {index}, page {page}");
        }
    }
}

/// The proved machine on a few generated sessions; `compare` has more.
#[cfg(feature = "proved")]
#[test]
fn both_machines_answer_alike() {
    use cetomuhi_bench::{costs::Costs, generate};
    let mut costs = Costs::default();
    (0..100).for_each(|seed| costs.add(seed, &generate::session(seed)));
    assert_eq!(costs.differences, 0);
    assert!(costs.cases.len() == 5 && costs.cases.values().all(|count| *count > 100), "{costs}");
}
