//! The cost of a page, as request 2026-11 has it.

use cetomuhi::{raw, Call, Cost, Machine, Refusal, State, VirtualPage};

/// Share and remainder for 0 to 16 claimants, worked out by hand; for 17 to 32 they are those for 0.
const COSTS: [(u64, u64); 17] = [
    (0, 16),
    (16, 0),
    (8, 0),
    (5, 1),
    (4, 0),
    (3, 1),
    (2, 4),
    (2, 2),
    (2, 0),
    (1, 7),
    (1, 6),
    (1, 5),
    (1, 4),
    (1, 3),
    (1, 2),
    (1, 1),
    (1, 0),
];

fn claim(principal: u8, page: u8) -> Call {
    Call::Claim { party: 0, principal, page: VirtualPage(page) }
}

fn make(machine: &mut Machine, call: &Call) {
    assert_eq!(machine.call(call).code(), 0, "{call}");
}

/// Principals 0 to 31, all party 0's, who may claim three pages each.
fn founded(v: u64) -> Machine {
    let mut machine = Machine::start(v, 1).expect("V and F are in range");
    for child in 1..32 {
        make(&mut machine, &Call::Create { party: 0, parent: 0, child, limit: 3, holder: 0 });
    }
    machine
}

/// What a machine, its state and the exported function answer, which is one thing, whatever stood
/// where the function writes; every byte is kept.
fn cost(machine: &Machine, page: u64) -> Result<Cost, Refusal> {
    let before = machine.clone();
    let answer = machine.page_cost(page);
    assert_eq!(machine.state().page_cost(page), answer, "page {page}");
    let expected = match answer {
        Ok(Cost { share, remainder }) => (0, share, remainder),
        Err(refusal) => (refusal.number(), 0, 0),
    };
    for stood in [0, 16, u64::MAX] {
        let (mut share, mut rest) = (stood, !stood);
        let code = raw::page_cost(machine.state().arrays(), page, &mut share, &mut rest);
        assert_eq!((code, share, rest), expected, "page {page}");
    }
    assert_eq!(*machine, before, "page {page}");
    answer
}

fn of(claimants: usize) -> Result<Cost, Refusal> {
    let (share, remainder) = COSTS.get(claimants).copied().unwrap_or(COSTS[0]);
    Ok(Cost { share, remainder })
}

#[test]
fn every_number_of_claimants() {
    let mut machine = founded(4);
    assert_eq!(cost(&machine, 2), of(0));
    for (principal, n) in (0..32).rev().zip(1..) {
        for _ in 0..2 {
            make(&mut machine, &claim(principal, 2));
            assert_eq!(cost(&machine, 2), of(n), "{n} claimants");
        }
        assert_eq!((cost(&machine, 1), cost(&machine, 3)), (of(0), of(0)));
    }
    let release = |principal| Call::Release { party: 0, principal, page: VirtualPage(2) };
    for (principal, n) in (0..32).zip((0..32).rev()) {
        make(&mut machine, &release(principal));
        assert_eq!(cost(&machine, 2), of(n + 1), "{n} claimants and one with a claim left");
        make(&mut machine, &release(principal));
        assert_eq!(cost(&machine, 2), of(n), "{n} claimants");
    }
}

#[test]
fn a_count_of_65535_is_one_claimant() {
    for principal in 0..32 {
        let mut machine = founded(4);
        make(&mut machine, &claim(principal, 3));
        let (mut state, cells, tags) = machine.into_parts();
        state.counts[256 * usize::from(principal) + 3] = 65_535;
        assert_eq!(cost(&Machine::of(state, cells, tags), 3), of(1));
    }
}

/// V 256 has no page 256, and no number is cut to one that it has.
#[test]
fn pages_of_v_or_more_are_refused() {
    for v in [1, 4, 255, 256] {
        let mut machine = founded(v);
        let last = v - 1;
        (0..5).for_each(|principal| make(&mut machine, &claim(principal, last as u8)));
        assert_eq!(cost(&machine, last), of(5));
        let above = [256, 512, 65_536, 1 << 32, 1 << 63];
        let none = above.into_iter().flat_map(|more| [more, more + last]);
        for page in none.chain([v, v + 1, u64::MAX]) {
            assert_eq!(cost(&machine, page), Err(Refusal::NoSuchPage), "V {v}, page {page}");
        }
    }
}

#[test]
fn an_ill_formed_state_is_refused_first() {
    let mut machine = founded(4);
    make(&mut machine, &claim(7, 3));
    let (sound, cells, tags) = machine.into_parts();
    let changes: [fn(&mut State); 12] = [
        |state| *state = State::default(),
        |state| state.numbers[0] = 3,
        |state| state.numbers[1] = 0,
        |state| state.marks[63] = 2,
        |state| state.mail[0] = 1,
        |state| state.flags[7] = 2,
        |state| state.rows[63] = 1,
        |state| state.pages[255] = 1,
        |state| state.frames[127] = 1,
        |state| state.principals[7] = 0,
        |state| state.counts[256 * 7 + 3] = 0,
        |state| state.counts[8191] = 1,
    ];
    for (index, change) in changes.iter().enumerate() {
        let mut state = sound.clone();
        change(&mut state);
        let machine = Machine::of(state, cells.clone(), tags.clone());
        for page in [0, 3, 4, 256, u64::MAX] {
            assert_eq!(cost(&machine, page), Err(Refusal::IllFormed), "change {index}");
        }
    }
    // Lent memory is not looked at, and a register may hold any number.
    let mut state = sound;
    state.words[0] = u64::MAX;
    assert_eq!(cost(&Machine::of(state, vec![], vec![]), 3), of(1));
}
