//! Every refusal, and that a refused call keeps every byte of state and memory.

use cetomuhi::{Call, Frame, Machine, Refusal, State, VirtualPage};

/// Page 0 is Mapped to frame 0, page 2 Freed; cells 0 to 31 are party 1's in register 0, in pieces of
/// all sorts in its other registers; the mailbox of party 2 is full; cells 32 to 47 are being revoked.
/// Principal 1 is party 3's and claims page 0 with all that it has; below it 2 is party 5's.
fn busy() -> Machine {
    let calls = [
        Call::Zero { party: 0, frame: Frame(0) },
        Call::Zero { party: 0, frame: Frame(1) },
        Call::Map { party: 0, page: VirtualPage(0), frame: Frame(0) },
        Call::Split { party: 0, base: 0, len: 32 },
        Call::Split { party: 0, base: 32, len: 16 },
        Call::Split { party: 0, base: 48, len: 8 },
        Call::Give { party: 0, base: 0, to: 1 },
        Call::TakeMasked { party: 1, base: 0, reg: 0, mask: 15 },
        Call::Narrow { party: 1, s: 0, off: 0, len: 16, mask: 2, d: 1 },
        Call::Narrow { party: 1, s: 0, off: 0, len: 16, mask: 1, d: 2 },
        Call::Number { party: 1, d: 3, value: u64::MAX },
        Call::Store { party: 1, a: 0, off: 3, s: 0 },
        Call::Grant { party: 1, s: 0, to: 2 },
        Call::Revoke { party: 0, base: 32 },
        Call::Sweep { party: 0, n: 5 },
        Call::Create { party: 0, parent: 0, child: 1, limit: 1, holder: 3 },
        Call::Create { party: 3, parent: 1, child: 2, limit: 0, holder: 5 },
        Call::Claim { party: 3, principal: 1, page: VirtualPage(0) },
    ];
    let mut machine = Machine::start(4, 3).expect("V and F are in range");
    for call in calls {
        assert_eq!(machine.call(&call).code(), 0, "{call}");
    }
    machine
}

fn is_kept(mut machine: Machine, call: &Call, refusal: Refusal) {
    let before = machine.clone();
    assert_eq!(machine.call(call).granted(), Err(refusal), "{call}");
    assert_eq!(machine, before, "{call}");
}

#[test]
fn refused_calls_keep_every_byte() {
    let (page, frame) = (VirtualPage, Frame);
    let refused = [
        (Call::Number { party: 8, d: 0, value: 1 }, 4),
        (Call::Give { party: 0, base: 48, to: 8 }, 4),
        (Call::Grant { party: 1, s: 255, to: 2 }, 4),
        (Call::TakeMasked { party: 8, base: 48, reg: 0, mask: 15 }, 4),
        (Call::TakeMasked { party: 0, base: 48, reg: 8, mask: 15 }, 4),
        (Call::Map { party: 1, page: page(2), frame: frame(1) }, 5),
        (Call::Collect { party: 7 }, 5),
        (Call::Take { party: 2, base: 48, reg: 0 }, 6),
        (Call::TakeMasked { party: 2, base: 48, reg: 0, mask: 15 }, 6),
        (Call::TakeMasked { party: 0, base: 49, reg: 0, mask: 15 }, 6),
        (Call::Split { party: 0, base: 49, len: 1 }, 6),
        (Call::Take { party: 0, base: 0, reg: 0 }, 7),
        (Call::TakeMasked { party: 0, base: 0, reg: 0, mask: 15 }, 7),
        (Call::TakeMasked { party: 0, base: 32, reg: 0, mask: 0 }, 7),
        (Call::Revoke { party: 0, base: 32 }, 7),
        (Call::Merge { party: 0, base: 56 }, 7),
        (Call::Split { party: 0, base: 48, len: 8 }, 8),
        (Call::Revoke { party: 0, base: 48 }, 10),
        (Call::Revoke { party: 0, base: 0 }, 11),
        (Call::Collect { party: 0 }, 11),
        (Call::Map { party: 0, page: page(4), frame: frame(1) }, 12),
        (Call::Zero { party: 0, frame: frame(3) }, 12),
        (Call::Map { party: 0, page: page(0), frame: frame(1) }, 13),
        (Call::Unmap { party: 0, page: page(3) }, 13),
        (Call::Map { party: 0, page: page(3), frame: frame(2) }, 14),
        (Call::Zero { party: 0, frame: frame(1) }, 14),
        (Call::Load { party: 1, a: 3, off: 0, d: 0 }, 15),
        (Call::Load { party: 1, a: 1, off: 0, d: 0 }, 16),
        (Call::Store { party: 1, a: 2, off: 0, s: 3 }, 16),
        (Call::Store { party: 1, a: 1, off: 0, s: 0 }, 16),
        (Call::Load { party: 1, a: 0, off: 32, d: 0 }, 17),
        (Call::Narrow { party: 1, s: 0, off: 1, len: 32, mask: 15, d: 0 }, 17),
        (Call::Load { party: 1, a: 0, off: 16, d: 0 }, 18),
        (Call::Grant { party: 1, s: 0, to: 2 }, 19),
        (Call::Receive { party: 1, d: 0 }, 19),
    ];
    for (call, number) in refused {
        is_kept(busy(), &call, Refusal::of(number).expect("numbers are 1 to 22"));
    }
}

#[test]
fn refused_calls_on_claims_keep_every_byte() {
    let create =
        |party, parent, child, limit, holder| Call::Create { party, parent, child, limit, holder };
    let claim = |party, principal, page| Call::Claim { party, principal, page: VirtualPage(page) };
    let release =
        |party, principal, page| Call::Release { party, principal, page: VirtualPage(page) };
    let destroy = |party, principal| Call::Destroy { party, principal };
    let refused = [
        (create(8, 0, 3, 0, 0), 4),
        (create(0, 0, 3, 0, 8), 4),
        (claim(8, 32, 4), 4),
        (release(8, 32, 4), 4),
        (destroy(8, 32), 4),
        (claim(3, 32, 4), 12),
        (release(3, 1, 255), 12),
        (create(0, 1, 3, 0, 0), 20),
        (create(0, 3, 4, 0, 0), 20),
        (create(0, 0, 2, 0, 0), 20),
        (create(0, 0, 32, 9999, 0), 20),
        (claim(0, 1, 0), 20),
        (release(5, 1, 0), 20),
        (destroy(3, 1), 20),
        (destroy(0, 2), 20),
        (destroy(0, 0), 20),
        (create(3, 1, 3, 1, 3), 21),
        (claim(3, 1, 1), 21),
        (release(3, 1, 1), 21),
        (Call::Unmap { party: 0, page: VirtualPage(0) }, 22),
    ];
    for (call, number) in refused {
        is_kept(busy(), &call, Refusal::of(number).expect("numbers are 1 to 22"));
    }
}

#[test]
fn a_full_table_is_kept() {
    let mut machine = Machine::start(8, 1).expect("V and F are in range");
    for base in 0..63 {
        assert_eq!(machine.call(&Call::Split { party: 0, base, len: 1 }).code(), 0);
    }
    is_kept(machine, &Call::Split { party: 0, base: 63, len: 1 }, Refusal::TableFull);
}

#[test]
fn memory_of_another_length_is_kept() {
    let call = Call::Store { party: 1, a: 0, off: 0, s: 3 };
    let (state, cells, tags) = busy().into_parts();
    for (cell_count, tag_count) in [(47, 48), (48, 47), (49, 48), (0, 0), (64, 64)] {
        let (mut cells, mut tags) = (cells.clone(), tags.clone());
        cells.resize(cell_count, 7);
        tags.resize(tag_count, 1);
        is_kept(Machine::of(state.clone(), cells, tags), &call, Refusal::LentLength);
    }
}

/// Changes that make a well-formed state ill-formed, in each array but the registers' numbers.
#[test]
fn ill_formed_states_are_kept() {
    let changes: [fn(&mut State); 34] = [
        |state| state.numbers[0] = 0,
        |state| state.numbers[1] = 129,
        |state| state.numbers[2] = 3,
        |state| state.numbers[3] = 49,
        |state| state.numbers[4] = 16,
        |state| state.numbers[5] = 0,
        |state| state.marks[63] = 2,
        |state| state.mail[0] = 1,
        |state| state.flags[2] = 0xFF,
        |state| state.rows[63] = 1,
        |state| state.rows[0] |= 1 << 40,
        |state| state.rows[2] |= 8 << 40,
        |state| state.rows[0] |= 9 << 48,
        |state| state.rows[1] |= 9 << 48,
        |state| state.rows[2] ^= 1 << 48,
        |state| state.rows[4] |= 9 << 48,
        |state| state.rows[2] |= 1 << 56,
        |state| state.rows[2] |= 3 << 32,
        |state| state.rows[3] += 1 << 16,
        |state| state.pages[1] = 2,
        |state| state.pages[2] = 0,
        |state| state.pages[255] = 1,
        |state| state.frames[2] = 3,
        |state| state.frames[127] = 1,
        |state| state.principals[0] = 0,
        |state| state.principals[0] += 1,
        |state| state.principals[0] |= 1 << 24,
        |state| state.principals[1] |= 1 << 63,
        |state| state.principals[1] ^= 2 << 16,
        |state| state.principals[2] |= 8 << 24,
        |state| state.principals[31] = 1,
        |state| state.counts[256] = 0,
        |state| state.counts[512] = 1,
        |state| state.counts[8191] = 1,
    ];
    for (index, change) in changes.iter().enumerate() {
        let (mut state, cells, tags) = busy().into_parts();
        change(&mut state);
        assert!(!state.is_well_formed(), "change {index}");
        let machine = Machine::of(state, cells, tags);
        is_kept(machine, &Call::Collect { party: 0 }, Refusal::IllFormed);
    }
    let (mut state, cells, tags) = busy().into_parts();
    state.words = [u64::MAX; 64];
    assert!(Machine::of(state, cells, tags).is_well_formed(), "registers may hold any number");
}

#[test]
fn a_refused_start_leaves_zeros() {
    let (mut state, ..) = busy().into_parts();
    assert_eq!(state.restart(257, 1), Err(Refusal::IllFormed));
    assert_eq!(state, State::default());
    assert!(!state.is_well_formed());
    assert_eq!(state.restart(4, 3), Ok(()));
    assert_eq!(Ok(state), State::start(4, 3));
}

#[test]
fn bytes_that_are_no_command_are_refused_under_3() {
    for input in [
        &[][..],
        &[0],
        &[0xFF, 0, 0],
        &[0x12, 0, 0, 1, 0, 0],
        &[0x01, 0, 0, 0],
        &[0x0E, 0, 0, 0, 0, 0, 0, 0, 0, 0],
        &[0x11, 0, 0, 0, 0],
    ] {
        let mut machine = busy();
        let done = machine.command(input, 0);
        assert_eq!((done.answer.granted(), done.used), (Err(Refusal::NoCommand), 0), "{input:?}");
        assert_eq!(machine, busy());
    }
}
