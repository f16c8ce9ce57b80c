//! Document 01's session and its edges, and what the two takes give.

use cetomuhi::{Call, Capability, Frame, Machine, Refusal, VirtualPage};

fn codes(machine: &mut Machine, calls: &[Call]) -> Vec<u8> {
    calls.iter().map(|call| machine.call(call).code()).collect()
}

fn start(v: u64, f: u64) -> Machine {
    Machine::start(v, f).expect("V and F are in range")
}

#[test]
fn the_session_has_the_documents_answers() {
    let load = Call::Load { party: 3, a: 0, off: 6, d: 2 };
    let revoke = Call::Revoke { party: 0, base: 0 };
    let session = [
        (Call::Zero { party: 0, frame: Frame(0) }, (0, 0, false)),
        (Call::Map { party: 0, page: VirtualPage(0), frame: Frame(0) }, (0, 0, false)),
        (Call::Split { party: 0, base: 0, len: 16 }, (0, 0, false)),
        (Call::Give { party: 0, base: 0, to: 3 }, (0, 0, false)),
        (Call::TakeMasked { party: 3, base: 0, reg: 0, mask: 0x0F }, (0, 16, false)),
        (Call::Number { party: 3, d: 1, value: 42 }, (0, 0, false)),
        (Call::Store { party: 3, a: 0, off: 5, s: 1 }, (0, 0, false)),
        (Call::Store { party: 3, a: 0, off: 6, s: 0 }, (0, 0, false)),
        (load, (0, 64_425_558_016, true)),
        (revoke, (13, 0, false)),
        (Call::Unmap { party: 0, page: VirtualPage(0) }, (0, 0, false)),
        (revoke, (0, 0, false)),
        (Call::Sweep { party: 0, n: 10 }, (0, 6, false)),
        (Call::Collect { party: 0 }, (11, 0, false)),
        (Call::Sweep { party: 0, n: 255 }, (0, 0, false)),
        (Call::Collect { party: 0 }, (0, 0, false)),
        (load, (15, 0, false)),
    ];
    let mut machine = start(2, 1);
    for (call, expected) in session {
        let answer = machine.call(&call);
        assert_eq!((answer.code(), answer.number(), answer.tag()), expected, "{call}");
        assert!(machine.is_well_formed(), "{call}");
    }
}

#[test]
fn k_split_of_sixteen() {
    for (len, code) in [(15, 0), (16, 8), (0, 8)] {
        let split = Call::Split { party: 0, base: 0, len };
        assert_eq!(start(1, 1).call(&split).code(), code, "{split}");
    }
}

#[test]
fn k_take_twice() {
    let by = |party| Call::Take { party, base: 0, reg: 0 };
    let give = Call::Give { party: 0, base: 0, to: 3 };
    assert_eq!(codes(&mut start(1, 1), &[give, by(3), by(3)]), [0, 0, 6]);
    assert_eq!(codes(&mut start(1, 1), &[by(0), by(0)]), [0, 7]);
}

/// The capability in register 5 of party 0 after the call on a fresh machine.
fn taken_by(call: &Call) -> Option<Capability> {
    let mut machine = start(1, 1);
    assert_eq!(machine.call(call).granted().map(|word| word.number), Ok(16), "{call}");
    let register = machine.state().registers().next()?;
    assert_eq!((register.party, register.number), (0, 5), "{call}");
    register.word.capability()
}

#[test]
fn a_take_gives_load_and_store_and_one_by_mask_what_of_fifteen_is_in_it() {
    let with = |permissions| Some(Capability { base: 0, length: 16, permissions });
    let take = Call::Take { party: 0, base: 0, reg: 5 };
    assert_eq!(taken_by(&take), with(Capability::LOAD | Capability::STORE));
    for mask in 0..=255 {
        let take = Call::TakeMasked { party: 0, base: 0, reg: 5, mask };
        assert_eq!(taken_by(&take), with(mask & Capability::ALL));
    }
}

#[test]
fn a_take_by_mask_twice() {
    let by = |party| Call::TakeMasked { party, base: 0, reg: 0, mask: Capability::ALL };
    let give = Call::Give { party: 0, base: 0, to: 3 };
    assert_eq!(codes(&mut start(1, 1), &[give, by(3), by(3)]), [0, 0, 6]);
    assert_eq!(codes(&mut start(1, 1), &[by(0), by(0)]), [0, 7]);
}

#[test]
fn k_offset_in_length_sixteen() {
    let mut machine = start(1, 1);
    let setup = [
        Call::Zero { party: 0, frame: Frame(0) },
        Call::Map { party: 0, page: VirtualPage(0), frame: Frame(0) },
        Call::Take { party: 0, base: 0, reg: 0 },
    ];
    assert_eq!(codes(&mut machine, &setup), [0, 0, 0]);
    for (off, code) in [(15, 0), (16, 17)] {
        let load = Call::Load { party: 0, a: 0, off, d: 1 };
        let store = Call::Store { party: 0, a: 0, off, s: 1 };
        assert_eq!(codes(&mut machine, &[load, store]), [code, code], "offset {off}");
    }
}

#[test]
fn k_revoke_of_sixteen_and_fifteen_cells() {
    let revoke = Call::Revoke { party: 0, base: 0 };
    let split = Call::Split { party: 0, base: 0, len: 15 };
    assert_eq!(codes(&mut start(1, 1), &[revoke]), [0]);
    assert_eq!(codes(&mut start(1, 1), &[split, revoke]), [0, 10]);
}

#[test]
fn k_collect_with_no_and_one_cell_left() {
    let revoke = Call::Revoke { party: 0, base: 0 };
    let sweep = |n| Call::Sweep { party: 0, n };
    let collect = Call::Collect { party: 0 };
    assert_eq!(codes(&mut start(1, 1), &[revoke, sweep(16), collect]), [0, 0, 0]);
    assert_eq!(codes(&mut start(1, 1), &[revoke, sweep(15), collect]), [0, 0, 11]);
}

#[test]
fn k_number_of_pages_and_the_other_ends_of_a_start() {
    for (v, f) in [(1, 1), (256, 1), (1, 128), (256, 128)] {
        assert!(start(v, f).is_well_formed());
    }
    let out = [(257, 1), (0, 1), (1, 0), (1, 129), (65_537, 1), (1 << 32 | 1, 1), (1, 1 << 63 | 1)];
    for (v, f) in out {
        assert_eq!(Machine::start(v, f), Err(Refusal::IllFormed), "V {v}, F {f}");
    }
}

#[test]
fn the_64th_and_the_65th_reservation() {
    let mut machine = start(256, 1);
    for base in 0..63 {
        assert_eq!(machine.call(&Call::Split { party: 0, base, len: 1 }).code(), 0);
    }
    assert_eq!(machine.state().reservations().count(), 64);
    assert_eq!(machine.call(&Call::Split { party: 0, base: 63, len: 1 }).code(), 9);
    assert_eq!(machine.call(&Call::Merge { party: 0, base: 62 }).code(), 0);
    assert_eq!(machine.call(&Call::Split { party: 0, base: 62, len: 1 }).code(), 0);
}

#[test]
fn register_seven_and_eight() {
    let mut machine = start(1, 1);
    assert_eq!(machine.call(&Call::Number { party: 7, d: 7, value: 1 }).code(), 0);
    assert_eq!(machine.call(&Call::Number { party: 7, d: 8, value: 1 }).code(), 4);
    assert_eq!(machine.call(&Call::Number { party: 8, d: 7, value: 1 }).code(), 4);
}

/// The stored lines of the example begin with what `desk` prints on the same calls.
#[test]
fn the_examples_lines_agree_with_desks() {
    let root = concat!(env!("CARGO_MANIFEST_DIR"), "/../..");
    let read = |name| std::fs::read_to_string(format!("{root}/{name}")).expect(name);
    let first_three = |line: &str| line.split_whitespace().take(3).collect::<Vec<_>>().join(" ");
    let example: Vec<String> = read("tests/examples.out").lines().map(first_three).collect();
    let desk: Vec<String> = read("examples/scene.out").lines().map(String::from).collect();
    assert_eq!(example, desk);
}
