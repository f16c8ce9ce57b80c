//! Which reservations lie where, as request 2026-07 has it.

use cetomuhi::{raw, Call, Machine, Refusal, State};

const OPEN: u64 = 0;
const TAKEN: u64 = 1;
const REVOKING: u64 = 2;

/// A record of holder 1, taken by party 2 unless it is Open.
fn record(base: u64, length: u64, state: u64) -> u64 {
    let taker = if state == OPEN { 9 } else { 2 };
    base | length << 16 | state << 32 | 1 << 40 | taker << 48
}

/// Seven records, of every state and of one that is none; they end at 100.
fn seven() -> Vec<u64> {
    vec![
        record(0, 16, OPEN),
        record(16, 8, TAKEN),
        record(24, 8, OPEN),
        record(32, 32, REVOKING),
        record(64, 4, OPEN),
        record(68, 1, 3),
        record(69, 31, OPEN),
    ]
}

/// As many records of so many cells each.
fn equal(count: u64, cells: u64) -> Vec<u64> {
    (0..count).map(|place| record(cells * place, cells, OPEN)).collect()
}

/// A machine of which only the table is there: its state is not well formed.
fn machine_of(rows: &[u64]) -> Machine {
    let mut state = State::default();
    state.numbers[2] = rows.len().try_into().expect("few rows");
    state.rows.iter_mut().zip(rows).for_each(|(to, from)| *to = *from);
    Machine::of(state, vec![], vec![])
}

type Listing = fn(&[u64], u64, u64, &mut [u16], &mut u64) -> u8;

/// A list from a lent slice: its bases come first, and the rest is kept; a refusal keeps all.
fn lent(ask: Listing, rows: &[u64], range: (u64, u64), room: usize) -> Result<Vec<u16>, Refusal> {
    let (mut bases, mut count) = (vec![0xA5A5; room], u64::MAX);
    let code = ask(rows, range.0, range.1, &mut bases, &mut count);
    assert_eq!(code == 0, count != u64::MAX, "{range:?}");
    let rest = bases.split_off(if code == 0 { count as usize } else { 0 });
    assert!(rest.iter().all(|base| *base == 0xA5A5), "{range:?}");
    match code {
        0 => Ok(bases),
        _ => Err(Refusal::of(code.into()).expect("a refusal")),
    }
}

/// What a machine, its state and the exported function answer, which is one thing.
fn sharing(rows: &[u64], first: u64, cells: u64) -> Result<Vec<u16>, Refusal> {
    let machine = machine_of(rows);
    let answer = machine.sharing(first, cells);
    assert_eq!(machine.state().sharing(first, cells), answer, "{first} {cells}");
    for room in [64, 65] {
        assert_eq!(lent(raw::sharing, rows, (first, cells), room), answer, "{first} {cells}");
    }
    answer
}

fn within(rows: &[u64], first: u64, cells: u64) -> Result<Vec<u16>, Refusal> {
    let machine = machine_of(rows);
    let answer = machine.within(first, cells);
    assert_eq!(machine.state().within(first, cells), answer, "{first} {cells}");
    for room in [64, 65] {
        assert_eq!(lent(raw::within, rows, (first, cells), room), answer, "{first} {cells}");
    }
    answer
}

/// The same for the nearest. What stood where the function writes is there no longer, unless it
/// refuses.
fn nearest(rows: &[u64], cell: u64, cells: u64) -> Result<Option<u16>, Refusal> {
    let machine = machine_of(rows);
    let answer = machine.nearest(cell, cells);
    assert_eq!(machine.state().nearest(cell, cells), answer, "{cell} {cells}");
    let expected = match answer {
        Ok(Some(base)) => (0, 1, base.into()),
        Ok(None) => (0, 0, 0),
        Err(refusal) => (refusal.number(), 7, u64::MAX),
    };
    let (mut found, mut base) = (7, u64::MAX);
    let code = raw::nearest(rows, cell, cells, &mut found, &mut base);
    assert_eq!((code, found, base), expected, "{cell} {cells}");
    answer
}

#[test]
fn lists_of_seven() {
    let rows = seven();
    let all = vec![0, 16, 24, 32, 64, 68, 69];
    let shared: [(u64, u64, &[u16]); 8] = [
        (0, 1, &[0]),
        (15, 1, &[0]),
        (15, 2, &[0, 16]),
        (24, 8, &[24]),
        (23, 10, &[16, 24, 32]),
        (40, 4, &[32]),
        (67, 3, &[64, 68, 69]),
        (99, 1, &[69]),
    ];
    for (first, cells, bases) in shared {
        assert_eq!(sharing(&rows, first, cells).as_deref(), Ok(bases), "{first} {cells}");
    }
    let inside: [(u64, u64, &[u16]); 8] = [
        (0, 16, &[0]),
        (1, 22, &[]),
        (1, 23, &[16]),
        (15, 10, &[16]),
        (23, 42, &[24, 32]),
        (23, 45, &[24, 32, 64]),
        (40, 4, &[]),
        (69, 31, &[69]),
    ];
    for (first, cells, bases) in inside {
        assert_eq!(within(&rows, first, cells).as_deref(), Ok(bases), "{first} {cells}");
    }
    assert_eq!(sharing(&rows, 0, 100), Ok(all.clone()));
    assert_eq!(within(&rows, 0, 100), Ok(all));
}

/// 64 records of 64 cells end at 4,096, and a list may name them all.
#[test]
fn a_full_table() {
    let rows = equal(64, 64);
    let all: Vec<u16> = (0..64).map(|place| 64 * place).collect();
    assert_eq!(sharing(&rows, 0, 4096), Ok(all.clone()));
    assert_eq!(sharing(&rows, 63, 3970), Ok(all.clone()));
    assert_eq!(within(&rows, 0, 4096), Ok(all.clone()));
    assert_eq!(within(&rows, 1, 4095).as_deref(), Ok(&all[1..]));
    assert_eq!(within(&rows, 0, 4095).as_deref(), Ok(&all[..63]));
    assert_eq!(sharing(&rows, 4095, 1), Ok(vec![4032]));
    assert_eq!(sharing(&rows, 4095, 2), Err(Refusal::WrongRange));
    assert_eq!(within(&rows, 4096, 1), Err(Refusal::WrongRange));
    assert_eq!((nearest(&rows, 1984, 64), nearest(&rows, 1984, 65)), (Ok(Some(1984)), Ok(None)));
}

/// Open are 0 to 15, 24 to 31, 64 to 67 and 69 to 99: 16, 8, 4 and 31 cells.
#[test]
fn the_nearest_of_seven() {
    let expected = [
        (0, 1, 0),
        (27, 1, 24),
        (67, 4, 64),
        (19, 1, 0),
        (20, 1, 24),
        (47, 1, 24),
        (48, 1, 64),
        // As far from one as from the other.
        (68, 1, 64),
        (50, 8, 24),
        (42, 9, 0),
        (51, 8, 69),
        (43, 9, 69),
        // Those of fewer cells are passed over.
        (65, 5, 69),
        (27, 16, 0),
        (0, 17, 69),
        // Past the end, and numbers that must not be cut to cell 5.
        (100, 1, 69),
        (261, 1, 69),
        (65_541, 1, 69),
        ((1 << 32) + 5, 1, 69),
        ((1 << 32) + 50, 1, 69),
        (u64::MAX, 31, 69),
    ];
    for (cell, cells, base) in expected {
        assert_eq!(nearest(&seven(), cell, cells), Ok(Some(base)), "{cell} {cells}");
    }
    for cells in [32, 257, 65_537, (1 << 32) + 1, u64::MAX] {
        assert_eq!(nearest(&seven(), 5, cells), Ok(None), "{cells}");
    }
}

/// Open is number 0 alone. The other bits of a record are not looked at.
#[test]
fn states_holders_and_takers() {
    for state in 0..256 {
        let rows = [record(0, 16, state), record(16, 16, state) | 0xFF_FFFF << 40];
        assert_eq!(sharing(&rows, 15, 2), Ok(vec![0, 16]));
        assert_eq!(within(&rows, 1, 31), Ok(vec![16]));
        let open = (state == OPEN).then_some(16);
        assert_eq!(nearest(&rows, 20, 16), Ok(open), "state {state}");
    }
}

/// Cell 4 is in a record of all that have cells.
#[test]
fn records_that_are_no_table_are_refused() {
    let mut late = equal(64, 64);
    late[63] = record(4031, 64, OPEN);
    let first = record(0, 16, OPEN);
    let tables = [
        vec![],
        equal(65, 1),
        vec![record(0, 0, OPEN)],
        vec![record(0, 0, OPEN), first],
        vec![first, record(16, 0, OPEN), record(16, 16, OPEN)],
        vec![first, record(17, 15, OPEN)],
        vec![first, record(15, 17, OPEN)],
        vec![record(1, 16, OPEN)],
        vec![record(16, 16, OPEN), first],
        vec![record(0, 4097, OPEN)],
        vec![record(0, 4095, OPEN), record(4095, 2, OPEN)],
        vec![record(0, 65_535, OPEN), record(65_535, 1, OPEN), record(0, 5, OPEN)],
        late,
    ];
    for (index, rows) in tables.iter().enumerate() {
        assert_eq!(sharing(rows, 4, 1), Err(Refusal::WrongRange), "table {index}");
        assert_eq!(within(rows, 4, 1), Err(Refusal::WrongRange), "table {index}");
        assert_eq!(nearest(rows, 4, 1), Err(Refusal::WrongRange), "table {index}");
    }
}

#[test]
fn ranges_and_slices_that_are_refused() {
    let rows = seven();
    let ranges = [
        (0, 0),
        (100, 0),
        (99, 2),
        (0, 101),
        (100, 1),
        (65_536, 1),
        (5, 65_537),
        (5, (1 << 32) + 1),
        (u64::MAX, 1),
        (1, u64::MAX),
        (1 << 63, 1 << 63),
        (u64::MAX, 17),
        (u64::MAX, u64::MAX),
    ];
    for (first, cells) in ranges {
        assert_eq!(sharing(&rows, first, cells), Err(Refusal::WrongRange), "{first} {cells}");
        assert_eq!(within(&rows, first, cells), Err(Refusal::WrongRange), "{first} {cells}");
    }
    assert_eq!(nearest(&rows, 0, 0), Err(Refusal::WrongRange));
    assert_eq!(nearest(&rows, u64::MAX, 0), Err(Refusal::WrongRange));
    for room in 0..64 {
        let refused = Err(Refusal::WrongRange);
        assert_eq!(lent(raw::sharing, &rows, (0, 1), room), refused, "room for {room}");
        assert_eq!(lent(raw::within, &rows, (40, 4), room), refused, "room for {room}");
    }
}

/// The count of rows says where the table of a state ends; one above 64 is refused.
#[test]
fn the_table_of_a_state() {
    let (mut state, ..) = machine_of(&equal(64, 64)).into_parts();
    for count in [0, 65, 128, 320, u16::MAX] {
        state.numbers[2] = count;
        assert_eq!(state.sharing(0, 1), Err(Refusal::WrongRange), "count {count}");
        assert_eq!(state.within(0, 64), Err(Refusal::WrongRange), "count {count}");
        assert_eq!(state.nearest(0, 1), Err(Refusal::WrongRange), "count {count}");
    }
    state.numbers[2] = 2;
    assert_eq!(state.sharing(127, 1), Ok(vec![64]));
    assert_eq!(state.sharing(127, 2), Err(Refusal::WrongRange));
    assert_eq!(state.nearest(4096, 1), Ok(Some(64)));
}

#[test]
fn the_table_of_a_machine() {
    let calls = [
        Call::Split { party: 0, base: 0, len: 16 },
        Call::Split { party: 0, base: 16, len: 8 },
        Call::Split { party: 0, base: 24, len: 8 },
        Call::Take { party: 0, base: 16, reg: 0 },
        Call::Revoke { party: 0, base: 32 },
    ];
    let mut machine = Machine::start(4, 1).expect("V and F are in range");
    assert_eq!(machine.sharing(63, 1), Ok(vec![0]));
    for call in calls {
        assert_eq!(machine.call(&call).code(), 0, "{call}");
    }
    let before = machine.clone();
    assert_eq!(machine.sharing(20, 13), Ok(vec![16, 24, 32]));
    assert_eq!(machine.within(15, 49), Ok(vec![16, 24, 32]));
    assert_eq!(machine.sharing(63, 2), Err(Refusal::WrongRange));
    assert_eq!((machine.nearest(50, 1), machine.nearest(50, 9)), (Ok(Some(24)), Ok(Some(0))));
    assert_eq!(machine.nearest(50, 17), Ok(None));
    assert_eq!(machine, before);
}
