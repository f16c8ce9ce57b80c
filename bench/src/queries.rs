//! A query of request 2026-07 with all that it is lent, asked of one version of the rules or another.

mod tally;

use crate::plain::maps::{self, loops, Cause, REFUSED};
use crate::proved;
pub use tally::Queries;

#[derive(Clone, Copy, Debug, PartialEq, Eq, PartialOrd, Ord)]
pub enum Kind {
    Sharing,
    Within,
    Nearest,
}

pub const KINDS: [Kind; 3] = [Kind::Sharing, Kind::Within, Kind::Nearest];

pub type List = fn(&[u64], u64, u64, &mut [u16], &mut u64) -> u8;
pub type Find = fn(&[u64], u64, u64, &mut u64, &mut u64) -> u8;

/// One version of the three functions.
pub struct Version {
    pub sharing: List,
    pub within: List,
    pub nearest: Find,
}

pub const PROVED: Version =
    Version { sharing: proved::sharing, within: proved::within, nearest: proved::nearest };
pub const LOOPS: Version =
    Version { sharing: loops::sharing, within: loops::within, nearest: loops::nearest };

/// The boxes here are as long as what they hold, so that a tool that watches the heap sees a step past
/// an end.
#[derive(Clone, Debug, PartialEq)]
pub struct Query {
    pub kind: Kind,
    pub rows: Box<[u64]>,
    /// The first cell of a list's range, or the cell to be near.
    pub first: u64,
    pub cells: u64,
    /// How long a list's slice is.
    pub room: usize,
}

/// The code, and all that a query may write: `numbers` are a list's count, or found and base; `bases`
/// is a list's slice.
#[derive(Clone, Debug, PartialEq)]
pub struct Reply {
    pub code: u8,
    pub numbers: [u64; 2],
    pub bases: Box<[u16]>,
}

impl Reply {
    /// Before an answer: numbers that no answer has, other ones at every place.
    pub fn unwritten(room: usize) -> Reply {
        let bases = (0..room).map(|place| 0xA000 + place as u16).collect();
        Reply { code: 0xA5, numbers: [0xA5A5 << 32, 0x5A5A << 32], bases }
    }
}

impl Query {
    /// Has a version write its answer over what the reply has.
    pub fn ask(&self, version: &Version, reply: &mut Reply) {
        let Query { rows, first, cells, .. } = self;
        let [one, other] = &mut reply.numbers;
        reply.code = match self.kind {
            Kind::Sharing => (version.sharing)(rows, *first, *cells, &mut reply.bases, one),
            Kind::Within => (version.within)(rows, *first, *cells, &mut reply.bases, one),
            Kind::Nearest => (version.nearest)(rows, *first, *cells, one, other),
        };
    }

    pub fn reply(&self, version: &Version) -> Reply {
        let mut reply = Reply::unwritten(self.room);
        self.ask(version, &mut reply);
        reply
    }

    /// What is expected, found cell by cell, and why if it is a refusal.
    pub fn expected(&self) -> (Reply, Vec<Cause>) {
        let mut reply = Reply::unwritten(self.room);
        let Query { rows, first, cells, .. } = self;
        let kept = reply.numbers;
        let counted = |count| [count, kept[1]];
        let found = |base: Option<u16>| base.map_or([0, 0], |base| [1, base.into()]);
        let bases = &mut reply.bases;
        let answer = match self.kind {
            Kind::Sharing => maps::sharing(rows, *first, *cells, bases).map(counted),
            Kind::Within => maps::within(rows, *first, *cells, bases).map(counted),
            Kind::Nearest => maps::nearest(rows, *first, *cells).map(found),
        };
        match answer {
            Ok(numbers) => (Reply { code: 0, numbers, ..reply }, vec![]),
            Err(causes) => (Reply { code: REFUSED, ..reply }, causes),
        }
    }

    /// Where a version answers otherwise than expected or does not keep the records, if it does.
    pub fn fault(&self, version: &Version, expected: &Reply) -> Option<String> {
        let before = self.clone();
        let reply = self.reply(version);
        if reply == *expected && *self == before {
            return None;
        }
        let Query { kind, rows, first, cells, .. } = before;
        Some(format!("{kind:?} {first} {cells} of {rows:X?}: {reply:?} instead of {expected:?}"))
    }
}
