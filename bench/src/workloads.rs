//! The sessions and queries that the benchmark times.

use crate::generate;
use crate::plain::maps::{LAST_END, LIST_ROOM};
use crate::plain::{Action, Call, INPUT_LIMIT};
use crate::queries::{Kind, Query};

/// Generated sessions of several sizes, each as long as an input may be.
pub fn mix() -> Vec<Vec<u8>> {
    let sizes = [(2, 1), (8, 4), (16, 16), (64, 32), (256, 128)];
    let seeds = (0u64..).step_by(7);
    let seeded = sizes.iter().cycle().take(15).zip(seeds);
    seeded.map(|(&(v, f), seed)| generate::productive(seed, v, f, INPUT_LIMIT - 600)).collect()
}

/// What the cells hold that a sweep passes.
#[derive(Clone, Copy, PartialEq)]
pub enum Cells {
    Untagged,
    Tagged,
    Dying,
}

pub const SWEPT_CELLS: u16 = 2_048;

/// All 2,048 lent cells Mapped and filled, a revocation begun, and a sweep of `count` cells.
pub fn sweep(cells: Cells, count: u16) -> Vec<u8> {
    let mut session = Session::start(256, 128);
    for index in 0..128 {
        session.call(0, Action::Zero { frame: index });
        session.call(0, Action::Map { page: index, frame: index });
    }
    session.call(0, Action::Split { base: 0, len: SWEPT_CELLS });
    session.call(0, Action::Split { base: SWEPT_CELLS, len: 16 });
    session.call(0, Action::TakeMasked { base: 0, reg: 0, mask: 15 });
    session.call(0, Action::Take { base: SWEPT_CELLS, reg: 1 });
    session.call(0, Action::Number { d: 2, value: u64::from(SWEPT_CELLS) });
    let s = match cells {
        Cells::Tagged => 0,
        Cells::Dying => 1,
        Cells::Untagged => 2,
    };
    for off in 0..SWEPT_CELLS {
        session.call(0, Action::Store { a: 0, off, s });
    }
    session.call(0, Action::Revoke { base: SWEPT_CELLS });
    session.call(0, Action::Sweep { n: count });
    session.bytes
}

/// Calls whose work does not depend on V or F: the same ones at every size, all granted.
pub fn small_calls(v: u16, f: u8) -> Vec<u8> {
    let mut session = Session::start(v, f);
    session.settle();
    while session.bytes.len() < INPUT_LIMIT - 128 {
        session.small_round();
    }
    session.bytes
}

/// Sessions of one or a few kinds of call over and over, all granted.
pub fn kinds() -> Vec<(&'static str, Vec<u8>)> {
    let zero = Action::Zero { frame: 1 };
    let map = Action::Map { page: 1, frame: 1 };
    let unmap = Action::Unmap { page: 1 };
    let revoke = Action::Revoke { base: 16 };
    let sweep = Action::Sweep { n: 0xFFFF };
    let narrow = Action::Narrow { s: 0, off: 1, len: 4, mask: 15, d: 3 };
    let split = |base| Action::Split { base, len: 1 };
    let merge = |base| Action::Merge { base };
    let rounds: [(&str, &[Action]); 12] = [
        ("number", &[Action::Number { d: 4, value: 42 }]),
        ("load of a number", &[Action::Load { a: 0, off: 0, d: 4 }]),
        ("load of a capability", &[Action::Load { a: 0, off: 5, d: 4 }]),
        ("store of a number", &[Action::Store { a: 0, off: 1, s: 1 }]),
        ("store of a capability", &[Action::Store { a: 0, off: 2, s: 0 }]),
        ("narrow", &[narrow]),
        ("grant, receive", &[Action::Grant { s: 0, to: 0 }, Action::Receive { d: 5 }]),
        ("split, merge", &[split(8), merge(8)]),
        ("split, merge below 60 rows", &[split(16), merge(16)]),
        ("give", &[Action::Give { base: 8, to: 0 }]),
        ("revoke, sweep, collect", &[revoke, sweep, Action::Collect]),
        (
            "zero, map, unmap, revoke, sweep, collect",
            &[zero, map, unmap, revoke, sweep, Action::Collect],
        ),
    ];
    let moved = [
        ("split, merge at 1 row", moves(1)),
        ("split, merge at 32 rows", moves(32)),
        ("split, merge at 63 rows", moves(63)),
    ];
    let rounds = rounds.map(|(name, round)| (name, repeated(name, round)));
    rounds.into_iter().chain(moved).chain(claims()).collect()
}

/// Claims on one page, and principals alone and in a line of 31, created and destroyed.
fn claims() -> [(&'static str, Vec<u8>); 3] {
    let claim = Action::Claim { principal: 0, page: 1 };
    let release = Action::Release { principal: 0, page: 1 };
    let create = |parent| {
        let (child, limit) = (parent + 1, 40 * (31 - u16::from(parent)));
        Action::Create { parent, child, limit, holder: 0 }
    };
    let destroy = Action::Destroy { principal: 1 };
    let line: Vec<Action> = (0..31).map(create).chain([destroy]).collect();
    let rounds: [(&str, &[Action]); 3] = [
        ("claim, release", &[claim, release]),
        ("create, destroy", &[create(0), destroy]),
        ("create 31 in a line, destroy them", &line),
    ];
    rounds.map(|(name, round)| (name, repeated(name, round)))
}

/// A start, and so many principals that claim page 1, V being above that.
pub fn claimed(v: u16, f: u8, claimants: u8) -> Vec<u8> {
    let mut session = Session::start(v, f);
    for number in 0..claimants {
        if number > 0 {
            session.call(0, Action::Create { parent: 0, child: number, limit: 1, holder: 0 });
        }
        session.call(0, Action::Claim { principal: number, page: 1 });
    }
    session.bytes
}

/// Queries of all kinds over so many Open records of equal length up to cell 4,096.
pub fn queries(records: usize) -> [(&'static str, Query); 5] {
    let length = LAST_END / records;
    let row = |place| (place * length) as u64 | (length as u64) << 16;
    let query = |kind, first, cells| {
        let rows = (0..records).map(row).collect();
        Query { kind, rows, first, cells, room: LIST_ROOM }
    };
    let (all, middle) = (LAST_END as u64, LAST_END as u64 / 2);
    [
        ("sharing, all cells", query(Kind::Sharing, 0, all)),
        ("sharing, one cell", query(Kind::Sharing, middle, 1)),
        ("within, all cells", query(Kind::Within, 0, all)),
        ("within, one cell", query(Kind::Within, middle, 1)),
        ("nearest to the middle, of 1 cell or more", query(Kind::Nearest, middle, 1)),
    ]
}

/// The first of so many reservations split and merged over and over, so that all others move.
fn moves(rows: u16) -> Vec<u8> {
    let mut session = Session::start(16, 16);
    (0..rows - 1).for_each(|row| session.call(0, Action::Split { base: 2 * row, len: 2 }));
    while session.bytes.len() < INPUT_LIMIT - 64 {
        session.call(0, Action::Split { base: 0, len: 1 });
        session.call(0, Action::Merge { base: 0 });
    }
    session.bytes
}

/// Pairs of sessions, the second one like the first with calls of one kind more, all granted: kinds
/// that nothing but other kinds can undo.
pub fn kinds_by_difference() -> Vec<(&'static str, Vec<u8>, Vec<u8>)> {
    let zero = |frame: u8| Action::Zero { frame };
    let map = |frame: u8| Action::Map { page: frame, frame };
    let unmap = |page: u8| Action::Unmap { page };
    let split = |base: u8| Action::Split { base: base.into(), len: 1 };
    let take = |base: u8| Action::Take { base: base.into(), reg: base % 8 };
    let take_masked = |base: u8| Action::TakeMasked { base: base.into(), reg: base % 8, mask: 15 };
    let (frames, rows) = (0..128, 0..63);
    let mut session = Session::start(256, 128);
    let mut before = session.bytes.clone();
    let mut step = |name, calls: Vec<Action>| {
        calls.into_iter().for_each(|action| session.call(0, action));
        let shorter = std::mem::replace(&mut before, session.bytes.clone());
        (name, shorter, session.bytes.clone())
    };
    let mut pairs = vec![
        step("zero", frames.clone().map(zero).collect()),
        step("map", frames.clone().map(map).collect()),
        step("unmap", frames.map(unmap).collect()),
        step("split, 1 to 63 rows", rows.clone().map(split).collect()),
        step("take, of 64 rows", rows.clone().map(take).collect()),
    ];
    // The same rows, taken by mask instead.
    let split_only = pairs[4].1.clone();
    let mut masked = Session { bytes: split_only.clone() };
    rows.map(take_masked).for_each(|action| masked.call(0, action));
    pairs.push(("take by mask, of 64 rows", split_only, masked.bytes));
    pairs
}

fn repeated(name: &str, round: &[Action]) -> Vec<u8> {
    let mut session = Session::start(16, 16);
    session.settle();
    session.call(0, Action::Store { a: 0, off: 5, s: 0 });
    session.call(0, Action::Split { base: 8, len: 8 });
    session.call(0, Action::Split { base: 16, len: 16 });
    if name.ends_with("60 rows") {
        (32..91).for_each(|base| session.call(0, Action::Split { base, len: 1 }));
    }
    while session.bytes.len() < INPUT_LIMIT - 256 {
        round.iter().for_each(|action| session.call(0, *action));
    }
    session.bytes
}

struct Session {
    bytes: Vec<u8>,
}

impl Session {
    fn start(v: u16, f: u8) -> Session {
        Session { bytes: [&v.to_be_bytes()[..], &[f]].concat() }
    }

    fn call(&mut self, party: u8, action: Action) {
        Call { party, action }.write(&mut self.bytes);
    }

    /// Page 0 is Mapped, and party 0 takes its lower half, for capabilities too, into register 0.
    fn settle(&mut self) {
        self.call(0, Action::Zero { frame: 0 });
        self.call(0, Action::Map { page: 0, frame: 0 });
        self.call(0, Action::Split { base: 0, len: 8 });
        self.call(0, Action::TakeMasked { base: 0, reg: 0, mask: 15 });
    }

    fn small_round(&mut self) {
        self.call(0, Action::Number { d: 1, value: 42 });
        self.call(0, Action::Store { a: 0, off: 5, s: 1 });
        self.call(0, Action::Load { a: 0, off: 5, d: 2 });
        self.call(0, Action::Narrow { s: 0, off: 1, len: 4, mask: 15, d: 3 });
        self.call(0, Action::Grant { s: 3, to: 1 });
        self.call(1, Action::Receive { d: 0 });
        self.call(1, Action::Store { a: 0, off: 0, s: 0 });
        self.call(1, Action::Load { a: 0, off: 0, d: 1 });
        self.call(0, Action::Split { base: 8, len: 4 });
        self.call(0, Action::Merge { base: 8 });
        self.call(0, Action::Give { base: 8, to: 2 });
        self.call(2, Action::Give { base: 8, to: 0 });
    }
}

#[cfg(test)]
mod tests {
    use super::*;
    use crate::tally::Tally;

    fn all_granted(input: &[u8]) -> bool {
        let mut tally = Tally::default();
        tally.add(input);
        input.len() <= INPUT_LIMIT && tally.codes[0] == tally.commands + 1
    }

    #[test]
    fn timed_calls_are_granted() {
        for cells in [Cells::Untagged, Cells::Tagged, Cells::Dying] {
            assert!(all_granted(&sweep(cells, 0)) && all_granted(&sweep(cells, SWEPT_CELLS)));
        }
        for (v, f) in [(1, 1), (16, 128), (256, 16)] {
            assert!(all_granted(&small_calls(v, f)));
        }
        for (name, input) in kinds() {
            assert!(all_granted(&input), "{name}");
        }
        for claimants in [0, 1, 3, 32] {
            assert!(all_granted(&claimed(16, 16, claimants)), "{claimants}");
        }
        for (name, query) in [1, 8, 64].into_iter().flat_map(queries) {
            assert_eq!(query.expected().0.code, 0, "{name}");
        }
        for (name, shorter, longer) in kinds_by_difference() {
            assert!(all_granted(&longer) && longer.starts_with(&shorter), "{name}");
        }
    }
}
