//! Principals and claims on pages, as request 2026-02 has them.

use cetomuhi::{Call, Claim, Frame, Machine, Principal, Refusal, State, VirtualPage};

fn claim(party: u8, principal: u8, page: u8) -> Call {
    Call::Claim { party, principal, page: VirtualPage(page) }
}

fn release(party: u8, principal: u8, page: u8) -> Call {
    Call::Release { party, principal, page: VirtualPage(page) }
}

fn destroy(party: u8, principal: u8) -> Call {
    Call::Destroy { party, principal }
}

fn unmap(page: u8) -> Call {
    Call::Unmap { party: 0, page: VirtualPage(page) }
}

/// Makes calls that are all granted and answer nothing, and keep the state well formed.
fn make(machine: &mut Machine, calls: &[Call]) {
    for call in calls {
        let answer = machine.call(call);
        assert_eq!((answer.code(), answer.number(), answer.tag()), (0, 0, false), "{call}");
        assert!(machine.is_well_formed(), "{call}");
    }
}

/// Page 0 is Mapped. Principal 1 of party 3 has limit 7, and below it 31 of party 5 limit 2.
fn two_houses() -> Machine {
    let mut machine = Machine::start(4, 3).expect("V and F are in range");
    let calls = [
        Call::Zero { party: 0, frame: Frame(0) },
        Call::Map { party: 0, page: VirtualPage(0), frame: Frame(0) },
        Call::Create { party: 0, parent: 0, child: 1, limit: 9, holder: 3 },
        Call::Create { party: 3, parent: 1, child: 31, limit: 2, holder: 5 },
    ];
    make(&mut machine, &calls);
    machine
}

/// What is spent and unspent of the principals in being.
fn limits(machine: &Machine) -> Vec<(u8, u16, u16)> {
    machine.state().principals().map(|it| (it.number, it.spent, it.unspent)).collect()
}

#[test]
fn a_fresh_start_has_principal_0() {
    let state = State::start(4, 3).expect("V and F are in range");
    let root = Principal { number: 0, holder: 0, parent: None, spent: 0, unspent: 8192 };
    assert!(state.principals().eq([root]) && state.claims().count() == 0);
    assert_eq!(state.principals[0], 4_294_975_488);
    assert!(state.principals[1..].iter().all(|number| *number == 0));
    assert!(State::default().principals().count() == 0 && state.counts == [0; 8192]);
}

#[test]
fn principals_and_claims_are_shown() {
    let mut machine = two_houses();
    make(&mut machine, &[claim(5, 31, 3), claim(5, 31, 0), claim(3, 1, 0), claim(5, 31, 0)]);
    let state = machine.state();
    let below = |number, holder, parent, spent, unspent| Principal {
        number,
        holder,
        parent: Some(parent),
        spent,
        unspent,
    };
    let root = Principal { number: 0, holder: 0, parent: None, spent: 0, unspent: 8183 };
    assert!(state.principals().eq([root, below(1, 3, 0, 1, 6), below(31, 5, 1, 2, 0)]));
    let claim = |principal, page, count| Claim { principal, page: VirtualPage(page), count };
    assert!(state.claims().eq([claim(1, 0, 1), claim(31, 0, 2), claim(31, 3, 1)]));
    let words: Vec<String> = state.principals().map(|it| it.to_string()).collect();
    let expected = [
        "principal 0, held by party 0, 0 spent and 8183 unspent",
        "principal 1, held by party 3, below principal 0, 1 spent and 6 unspent",
        "principal 31, held by party 5, below principal 1, 2 spent and 0 unspent",
    ];
    assert_eq!(words, expected);
    assert_eq!(claim(31, 0, 2).to_string(), "principal 31 claims page 0, count 2");
}

#[test]
fn a_page_stays_until_both_houses_let_go() {
    let mut machine = two_houses();
    make(&mut machine, &[claim(3, 1, 0), claim(5, 31, 0), release(3, 1, 0)]);
    assert_eq!(machine.call(&unmap(0)).granted(), Err(Refusal::Claimed));
    let revoke = Call::Revoke { party: 0, base: 0 };
    assert_eq!(machine.call(&revoke).granted(), Err(Refusal::WrongPage));
    make(&mut machine, &[release(5, 31, 0), unmap(0), revoke]);
    let mut machine = two_houses();
    make(&mut machine, &[claim(3, 1, 0), claim(5, 31, 0), destroy(3, 31)]);
    assert_eq!(machine.call(&unmap(0)).granted(), Err(Refusal::Claimed));
    make(&mut machine, &[destroy(0, 1), unmap(0)]);
}

#[test]
fn limits_are_spent_and_given_back() {
    let mut machine = two_houses();
    make(&mut machine, &[claim(5, 31, 0), claim(5, 31, 0), claim(5, 31, 1)]);
    assert_eq!(limits(&machine), [(0, 0, 8183), (1, 0, 7), (31, 2, 0)]);
    assert_eq!(machine.call(&claim(5, 31, 2)).granted(), Err(Refusal::ClaimLimit));
    make(&mut machine, &[claim(5, 31, 1), release(5, 31, 0)]);
    assert_eq!(limits(&machine)[2], (31, 2, 0));
    make(&mut machine, &[release(5, 31, 0), claim(5, 31, 2)]);
    assert_eq!(limits(&machine)[2], (31, 2, 0));
    make(&mut machine, &[destroy(3, 31)]);
    assert_eq!(limits(&machine), [(0, 0, 8183), (1, 0, 9)]);
    make(&mut machine, &[destroy(0, 1)]);
    assert_eq!(limits(&machine), [(0, 0, 8192)]);
}

#[test]
fn a_count_goes_to_65535() {
    let (mut state, cells, tags) = two_houses().into_parts();
    state.counts[256 + 2] = 65_534;
    state.principals[1] -= 1;
    let mut machine = Machine::of(state, cells, tags);
    make(&mut machine, &[claim(3, 1, 2)]);
    assert_eq!(machine.call(&claim(3, 1, 2)).granted(), Err(Refusal::ClaimLimit));
    make(&mut machine, &[release(3, 1, 2), claim(3, 1, 2)]);
    assert!(machine.state().claims().all(|it| it.count == 65_535));
}

/// A line of 31 below 0 of which each one claims a page, destroyed at its top.
#[test]
fn a_long_line_is_destroyed_at_once() {
    let mut machine = Machine::start(256, 1).expect("V and F are in range");
    for number in 1..32 {
        let (parent, limit) = (number - 1, 320 - 10 * u16::from(number));
        let create = Call::Create { party: 0, parent, child: number, limit, holder: 0 };
        make(&mut machine, &[create, claim(0, number, 255 - number)]);
    }
    assert_eq!((machine.state().principals().count(), machine.state().claims().count()), (32, 31));
    make(&mut machine, &[destroy(0, 1)]);
    let fresh = State::start(256, 1).expect("V and F are in range");
    assert_eq!(*machine.state(), fresh);
}
