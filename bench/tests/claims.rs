//! Request 2026-02: principals, claims on pages, refusals 20 to 22, and the claims of a well-formed
//! state. What is expected here is worked out from the documents by hand.

use cetomuhi_bench::hex;
use cetomuhi_bench::plain::claims::{Claims, Principal, PRINCIPALS, WHOLE_LIMIT};
use cetomuhi_bench::plain::{read, Action, Call, Memory, State};

/// The state after hexadecimal commands from a fresh start with V 4 and F 1, and their codes. It is
/// well formed after each, and after a refused one as before.
fn run(text: &str) -> (State, Vec<u8>) {
    let mut state = State::start(4, 1).unwrap();
    let (mut cells, mut tags) = ([0; 16], [0; 16]);
    let mut memory = Memory { cells: &mut cells, tags: &mut tags };
    let bytes = hex::bytes(text).unwrap();
    let (mut rest, mut codes) = (&bytes[..], Vec::new());
    while let Some((call, used)) = read(rest) {
        let before = state.clone();
        let answer = state.call(&mut memory, call);
        assert_eq!((answer.number, answer.tag), (0, false), "{text}: {call:?}");
        assert!(state.is_well_formed(), "{text}: {call:?}");
        assert!(answer.code == 0 || state == before, "{text}: {call:?}");
        codes.push(answer.code);
        rest = &rest[used..];
    }
    assert!(rest.is_empty(), "{text}");
    (state, codes)
}

/// The claims after commands that are all granted.
fn after(text: &str) -> Claims {
    let (state, codes) = run(text);
    assert!(codes.iter().all(|code| *code == 0), "{text}: {codes:?}");
    state.claims
}

/// The last code; those before it are 0.
fn last_code(text: &str) -> u8 {
    let (_, mut codes) = run(text);
    let last = codes.pop().unwrap();
    assert!(codes.iter().all(|code| *code == 0), "{text}: {codes:?}");
    last
}

fn unspent(claims: &Claims, number: u8) -> u16 {
    claims.principal(number).unwrap().unspent
}

/// 1 below 0 is party 3's with limit 10; 2 below 1 is party 5's with limit 4; 3 below 2 is party 6's
/// with limit 1.
const THREE: &str = "12 00 00 01 000A 03  12 03 01 02 0004 05  12 05 02 03 0001 06";

#[test]
fn a_fresh_start_has_principal_0_with_the_whole_limit() {
    let claims = after("");
    let root = Principal { holder: 0, parent: None, unspent: 8192 };
    assert!(claims.principals().eq([(0, root)]) && WHOLE_LIMIT == 8192);
    assert!((0..32).all(|number| claims.counts(number) == &[0; 256]));
}

#[test]
fn a_create_moves_unspent_limit() {
    let claims = after(THREE);
    let entry = |holder, parent, unspent| Principal { holder, parent: Some(parent), unspent };
    assert_eq!(unspent(&claims, 0), 8182);
    assert_eq!(claims.principal(1), Some(entry(3, 0, 6)));
    assert_eq!(claims.principal(2), Some(entry(5, 1, 3)));
    assert_eq!(claims.principal(3), Some(entry(6, 2, 1)));
    let all = after("12 00 00 1F 2000 07 12 07 1F 01 2000 07 12 00 00 02 0000 00");
    let left = [0, 31, 1, 2].map(|number| unspent(&all, number));
    assert_eq!(left, [0, 0, 8192, 0]);
}

#[test]
fn creates_that_are_refused() {
    let code = |last: &str| last_code(&format!("{THREE} {last}"));
    for above in ["12 08 00 04 0000 00", "12 00 00 04 0000 08", "12 08 20 20 FFFF FF"] {
        assert_eq!(code(above), 4, "{above}");
    }
    let under_20 = [
        "12 00 04 05 0000 00", // no parent 4
        "12 00 20 05 0000 00", // nor 32
        "12 00 01 05 0000 00", // 1 is party 3's
        "12 03 02 05 0000 00", // to hold the parent of 2 is not enough
        "12 00 00 03 0000 00", // 3 is taken
        "12 00 00 00 0000 00", // 0 always is
        "12 03 01 01 0000 00", // and 1 by itself
        "12 00 00 20 0000 00", // 32 is no number
        "12 00 00 FF 0000 00",
        "12 00 01 20 FFFF 00", // 20 before 21
    ];
    for refused in under_20 {
        assert_eq!(code(refused), 20, "{refused}");
    }
    assert_eq!(code("12 00 00 04 1FF7 00"), 21);
    assert_eq!(code("12 00 00 04 1FF6 00"), 0);
    assert_eq!(code("12 06 03 04 0002 00"), 21);
    assert_eq!(code("12 06 03 04 0001 00"), 0);
    assert_eq!(code("12 06 03 1F 0000 07"), 0);
}

#[test]
fn the_first_claim_spends_1_and_the_last_release_gives_it_back() {
    let left = |text: &str| {
        let claims = after(&format!("{THREE} {text}"));
        (unspent(&claims, 2), claims.counts(2)[1], claims.is_claimed(1))
    };
    let (claim, release) = ("13 05 02 01 ", "14 05 02 01 ");
    assert_eq!(left(""), (3, 0, false));
    assert_eq!(left(claim), (2, 1, true));
    assert_eq!(left(&claim.repeat(3)), (2, 3, true));
    assert_eq!(left(&(claim.repeat(3) + &release.repeat(2))), (2, 1, true));
    assert_eq!(left(&(claim.repeat(3) + &release.repeat(3))), (3, 0, false));
    let others = after(&format!("{THREE} {claim} 13 05 02 03 13 03 01 01"));
    assert_eq!([1, 2].map(|number| unspent(&others, number)), [5, 1]);
    assert_eq!((others.counts(1)[1], others.counts(2)[3], others.counts(0)[1]), (1, 1, 0));
}

#[test]
fn claims_and_releases_that_are_refused() {
    let code = |last: &str| last_code(&format!("{THREE} 13 06 03 02 {last}"));
    for command in ["13", "14"] {
        assert_eq!(code(&format!("{command} 08 20 04")), 4);
        assert_eq!(code(&format!("{command} 00 20 04")), 12);
        assert_eq!(code(&format!("{command} 06 03 FF")), 12);
        assert_eq!(code(&format!("{command} 00 04 00")), 20);
        assert_eq!(code(&format!("{command} 00 20 00")), 20);
        assert_eq!(code(&format!("{command} 05 03 00")), 20);
        assert_eq!(code(&format!("{command} 06 03 00")), 21);
        assert_eq!(code(&format!("{command} 06 03 02")), 0);
    }
}

#[test]
fn a_count_goes_no_higher_than_65535() {
    let (mut state, _) = run("");
    let (mut cells, mut tags) = ([0; 16], [0; 16]);
    let mut memory = Memory { cells: &mut cells, tags: &mut tags };
    let mut code = |action| state.step(&mut memory, Call { party: 0, action }).code;
    let claim = Action::Claim { principal: 0, page: 3 };
    assert!((0..65_535).all(|_| code(claim) == 0));
    assert_eq!(code(claim), 21);
    assert_eq!(code(Action::Claim { principal: 0, page: 2 }), 0);
    assert_eq!(code(Action::Release { principal: 0, page: 3 }), 0);
    assert_eq!((code(claim), code(claim)), (0, 21));
    assert!(state.is_well_formed());
    assert_eq!((unspent(&state.claims, 0), state.claims.counts(0)[3]), (8190, 65_535));
}

#[test]
fn a_destroy_drops_descendants_and_returns_their_limits() {
    let claimed = format!("{THREE} 13 06 03 00 13 05 02 00 13 05 02 00 13 05 02 01 13 03 01 02");
    let left = |text: &str| {
        let claims = after(&format!("{claimed} {text}"));
        let numbers: Vec<u8> = claims.principals().map(|(number, _)| number).collect();
        let unspent: Vec<u16> = numbers.iter().map(|number| unspent(&claims, *number)).collect();
        (numbers, unspent, [0, 1, 2].map(|page| claims.is_claimed(page)))
    };
    assert_eq!(left(""), (vec![0, 1, 2, 3], vec![8182, 5, 1, 0], [true; 3]));
    assert_eq!(left("15 05 03"), (vec![0, 1, 2], vec![8182, 5, 2], [true; 3]));
    assert_eq!(left("15 03 02"), (vec![0, 1], vec![8182, 9], [false, false, true]));
    assert_eq!(left("15 00 01"), (vec![0], vec![8192], [false; 3]));
    let again = after(&format!("{claimed} 15 00 01 12 00 00 03 0001 06"));
    assert_eq!(again.counts(3), &[0; 256]);
}

#[test]
fn destroys_that_are_refused() {
    let code = |last: &str| last_code(&format!("{THREE} {last}"));
    assert_eq!(code("15 08 20"), 4);
    let under_20 = [
        "15 00 00", // 0 has no parent
        "15 00 04", // not in being
        "15 00 20", "15 05 02", // who holds it and not its parent
        "15 00 02", // who holds its grandparent
        "15 03 03",
    ];
    for refused in under_20 {
        assert_eq!(code(refused), 20, "{refused}");
    }
}

/// The number of a destroyed principal is free again, and its children's were not above it.
#[test]
fn a_family_is_found_whatever_its_numbers_are() {
    let line = "12 00 00 05 0064 00 12 00 05 1E 0032 00 12 00 1E 02 0019 00 12 00 02 1F 000C 00";
    let claims = after(&format!("{line} 12 00 00 03 0007 00"));
    assert_eq!(claims.family(5), 1 << 5 | 1 << 30 | 1 << 2 | 1 << 31);
    assert_eq!(claims.family(3), 1 << 3);
    let left = after(&format!("{line} 12 00 00 03 0007 00 15 00 05"));
    assert!(left.principals().map(|(number, _)| number).eq([0, 3]));
    assert_eq!(unspent(&left, 0), 8185);
}

#[test]
fn a_claimed_page_is_not_unmapped() {
    let mapped = "0A 00 00 08 00 00 00";
    let code = |text: &str| last_code(&format!("{mapped} {text}"));
    assert_eq!(code("09 00 00"), 0);
    assert_eq!(code("13 00 00 00 09 00 00"), 22);
    assert_eq!(code("13 00 00 01 09 00 00"), 0);
    assert_eq!(code("13 00 00 00 14 00 00 00 09 00 00"), 0);
    assert_eq!(code("13 00 00 01 09 00 01"), 13);
    assert_eq!(code("13 00 00 00 09 00 04"), 12);
    assert_eq!(code("13 00 00 00 09 01 00"), 5);
    assert_eq!(code("13 00 00 00 05 00 0000"), 13);
    assert_eq!(code(&format!("{THREE} 13 06 03 00 09 00 00")), 22);
    assert_eq!(code(&format!("{THREE} 13 06 03 00 15 00 01 09 00 00")), 0);
}

/// Claims whose parts a test may change.
struct Parts {
    principals: [Option<Principal>; PRINCIPALS],
    counts: [[u16; 256]; PRINCIPALS],
}

/// Whether the claims of THREE with two claims are well formed after a change, where V is 4.
fn fits(change: impl FnOnce(&mut Parts)) -> bool {
    let claims = after(&format!("{THREE} 13 06 03 00 13 03 01 03 13 03 01 03"));
    let principals = std::array::from_fn(|number| claims.principal(number as u8));
    let counts = std::array::from_fn(|number| *claims.counts(number as u8));
    let mut parts = Parts { principals, counts };
    change(&mut parts);
    Claims::of(parts.principals, parts.counts).is_well_formed(4)
}

fn entry(parts: &mut Parts, number: usize) -> &mut Principal {
    parts.principals[number].as_mut().unwrap()
}

#[test]
fn what_makes_claims_well_formed() {
    assert!(fits(|_| {}));
    assert!(fits(|parts| parts.counts[1][3] = 65_535));
    assert!(fits(|parts| entry(parts, 3).holder = 7));
    assert!(fits(|parts| entry(parts, 3).parent = Some(0)));
    assert!(fits(|parts| {
        entry(parts, 0).unspent -= 20;
        parts.principals[4] = Some(Principal { holder: 0, parent: Some(3), unspent: 20 });
    }));
}

#[test]
fn what_makes_them_ill_formed() {
    let changes: [fn(&mut Parts); 17] = [
        |parts| parts.principals[0] = None,
        |parts| entry(parts, 0).holder = 1,
        |parts| entry(parts, 0).parent = Some(0),
        |parts| entry(parts, 0).parent = Some(1),
        |parts| entry(parts, 1).holder = 8,
        |parts| entry(parts, 1).parent = None,
        |parts| entry(parts, 1).parent = Some(1),
        |parts| entry(parts, 1).parent = Some(3), // a ring of three
        |parts| entry(parts, 3).parent = Some(4), // not in being
        |parts| entry(parts, 3).parent = Some(32),
        |parts| entry(parts, 3).parent = Some(255),
        |parts| entry(parts, 0).unspent += 1,
        |parts| entry(parts, 0).unspent -= 1,
        |parts| parts.counts[0][0] = 1, // spent, and still unspent
        |parts| parts.counts[3][0] = 0,
        |parts| {
            entry(parts, 0).unspent -= 1;
            parts.counts[0][4] = 1; // no page 4
        },
        |parts| {
            entry(parts, 0).unspent -= 1;
            parts.counts[4][0] = 1; // no principal 4
        },
    ];
    for (index, change) in changes.into_iter().enumerate() {
        assert!(!fits(change), "change {index}");
    }
}
