//! Who took a reservation, as request 2026-04 has it written down.

use cetomuhi::{Call, Machine, Refusal, Taker};

/// The takers of all reservations in turn.
fn takers(machine: &Machine) -> Vec<Taker> {
    machine.state().reservations().map(|row| row.taker).collect()
}

/// The takers that the numbers of rows read as.
fn of(numbers: &[u8]) -> Vec<Taker> {
    numbers.iter().map(|number| Taker::of(*number)).collect()
}

/// Makes calls that are all granted, and says what takers there are then.
fn after(machine: &mut Machine, calls: &[Call]) -> Vec<Taker> {
    for call in calls {
        assert_eq!(machine.call(call).code(), 0, "{call}");
        assert!(machine.is_well_formed(), "{call}");
    }
    takers(machine)
}

fn collect() -> [Call; 2] {
    [Call::Sweep { party: 0, n: 16 }, Call::Collect { party: 0 }]
}

fn merge(base: u16) -> Call {
    Call::Merge { party: 0, base }
}

fn revoke(base: u16) -> Call {
    Call::Revoke { party: 0, base }
}

/// Five reservations of a page each, of which parties 3, 3, 5 and 0 take the first four.
fn four_taken() -> Machine {
    let mut machine = Machine::start(5, 1).expect("V and F are in range");
    assert_eq!(takers(&machine), of(&[9]));
    let splits = [0, 16, 32, 48].map(|base| Call::Split { party: 0, base, len: 16 });
    assert_eq!(after(&mut machine, &splits), of(&[9; 5]));
    let gives = [(0, 3), (16, 3), (32, 5)].map(|(base, to)| Call::Give { party: 0, base, to });
    assert_eq!(after(&mut machine, &gives), of(&[9; 5]));
    let takes = [
        Call::Take { party: 3, base: 0, reg: 0 },
        Call::TakeMasked { party: 3, base: 16, reg: 1, mask: 0 },
        Call::TakeMasked { party: 5, base: 32, reg: 0, mask: 15 },
        Call::Take { party: 0, base: 48, reg: 0 },
    ];
    assert_eq!(after(&mut machine, &takes), of(&[3, 3, 5, 0, 9]));
    machine
}

#[test]
fn numbers_are_read_as_takers() {
    let read = of(&[0, 7, 8, 9]);
    assert_eq!(read, [Taker::Party(0), Taker::Party(7), Taker::Several, Taker::Nobody]);
}

#[test]
fn the_first_row_of_a_fresh_start() {
    for v in [1, 2, 256] {
        let machine = Machine::start(v, 1).expect("V and F are in range");
        let rows = &machine.state().rows;
        assert_eq!(rows[0], (9 << 48) + 1_048_576 * v);
        assert!(rows[1..].iter().all(|row| *row == 0));
    }
}

#[test]
fn each_party_is_written_down_by_both_takes() {
    for party in 0..8 {
        let give = Call::Give { party: 0, base: 0, to: party };
        let takes = [
            Call::Take { party, base: 0, reg: 0 },
            Call::TakeMasked { party, base: 0, reg: 0, mask: 15 },
        ];
        for take in takes {
            let mut machine = Machine::start(1, 1).expect("V and F are in range");
            assert_eq!(after(&mut machine, &[give, take]), [Taker::Party(party)]);
        }
    }
}

#[test]
fn a_merge_keeps_a_common_taker_and_joins_others_to_several() {
    let mut machine = four_taken();
    assert_eq!(after(&mut machine, &[merge(0)]), of(&[3, 5, 0, 9]));
    assert_eq!(after(&mut machine, &[merge(32)]), of(&[3, 8, 9]));
    assert_eq!(after(&mut machine, &[merge(0)]), of(&[8, 9]));
    assert_eq!(after(&mut machine, &[revoke(0)]), of(&[8, 9]));
    assert_eq!(after(&mut machine, &collect()), of(&[9, 9]));
    assert_eq!(after(&mut machine, &[merge(0)]), of(&[9]));
    let mut machine = four_taken();
    assert_eq!(after(&mut machine, &[merge(16), merge(16), merge(0)]), of(&[8, 9]));
}

#[test]
fn a_revoke_of_an_open_one_writes_0_and_another_keeps_the_taker() {
    let mut machine = four_taken();
    assert_eq!(after(&mut machine, &[revoke(32)]), of(&[3, 3, 5, 0, 9]));
    assert_eq!(after(&mut machine, &collect()), of(&[3, 3, 9, 0, 9]));
    assert_eq!(after(&mut machine, &[revoke(64)]), of(&[3, 3, 9, 0, 0]));
    assert_eq!(after(&mut machine, &collect()), of(&[3, 3, 9, 0, 9]));
    let calls = [
        Call::Give { party: 0, base: 32, to: 7 },
        Call::Split { party: 7, base: 32, len: 1 },
        Call::Take { party: 7, base: 33, reg: 7 },
    ];
    assert_eq!(after(&mut machine, &calls), of(&[3, 3, 9, 7, 0, 9]));
}

/// Every number in a row of each sort: 9 fits an Open one, 0 to 8 a Taken or Revoking one, 0 an
/// unused one, and what does not fit is refused under 1.
#[test]
fn a_taker_that_does_not_fit_is_refused_and_kept() {
    let mut machine = four_taken();
    assert_eq!(after(&mut machine, &[revoke(48)]), of(&[3, 3, 5, 0, 9]));
    let (state, cells, tags) = machine.into_parts();
    for (row, fitting) in [(0, 0..=8), (3, 0..=8), (4, 9..=9), (5, 0..=0), (63, 0..=0)] {
        for taker in 0..=255 {
            let mut state = state.clone();
            state.rows[row] = state.rows[row] & !(255 << 48) | taker << 48;
            let mut machine = Machine::of(state, cells.clone(), tags.clone());
            let before = machine.clone();
            let fits = fitting.contains(&taker);
            let refusal = if fits { Refusal::AboveSeven } else { Refusal::IllFormed };
            assert_eq!(machine.is_well_formed(), fits, "row {row}, taker {taker}");
            let answer = machine.call(&Call::Collect { party: 8 });
            assert_eq!(answer.granted(), Err(refusal), "row {row}, taker {taker}");
            assert_eq!(machine, before, "row {row}, taker {taker}");
        }
    }
}
