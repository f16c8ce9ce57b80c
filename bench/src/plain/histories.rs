//! Every short history (document 02, 2026-10): each sequence of at most three of the listed commands
//! that are granted in their turn from the fresh start with V 1 and F 1, as a line.

use super::call::{Action, Call};
use super::state::{Memory, State};

const PARTIES: [u8; 2] = [0, 1];
const BASES: [u16; 2] = [0, 8];
const LENGTHS: [u16; 2] = [8, 16];
const MOST: usize = 3;

/// The lines of all short histories, shorter ones first, then in rising byte order.
pub fn short_histories() -> Vec<u8> {
    let calls = listed();
    let state = State::start(1, 1).expect("V and F are in range");
    let mut lines = Vec::new();
    for count in 0..=MOST {
        extend(&calls, &state, (&[0; 16], &[0; 16]), &mut Vec::new(), count, &mut lines);
    }
    lines
}

/// Appends the lines that begin with `history` and go on from `state` with `more` commands.
fn extend(
    calls: &[Call],
    state: &State,
    lent: (&[u64; 16], &[u8; 16]),
    history: &mut Vec<u8>,
    more: usize,
    lines: &mut Vec<u8>,
) {
    if more == 0 {
        for byte in history.iter() {
            lines.extend([digit(byte / 16), digit(byte % 16)]);
        }
        lines.push(b'\n');
        return;
    }
    for &call in calls {
        let (mut next, mut cells, mut tags) = (state.clone(), *lent.0, *lent.1);
        let mut memory = Memory { cells: &mut cells, tags: &mut tags };
        if next.call(&mut memory, call).code == 0 {
            let length = history.len();
            call.write(history);
            extend(calls, &next, (&cells, &tags), history, more - 1, lines);
            history.truncate(length);
        }
    }
}

/// The commands from 01 to 0A with each choice of operands, in the order of their bytes.
fn listed() -> Vec<Call> {
    let each_base = |make: &dyn Fn(u16) -> Vec<Action>| BASES.into_iter().flat_map(make).collect();
    let kinds: [Vec<Action>; 10] = [
        each_base(&|base| vec![Action::Take { base, reg: 0 }]),
        each_base(&|base| LENGTHS.map(|len| Action::Split { base, len }).to_vec()),
        each_base(&|base| vec![Action::Merge { base }]),
        each_base(&|base| PARTIES.map(|to| Action::Give { base, to }).to_vec()),
        each_base(&|base| vec![Action::Revoke { base }]),
        LENGTHS.map(|n| Action::Sweep { n }).to_vec(),
        vec![Action::Collect],
        vec![Action::Map { page: 0, frame: 0 }],
        vec![Action::Unmap { page: 0 }],
        vec![Action::Zero { frame: 0 }],
    ];
    let calls = kinds.iter().flat_map(|actions| {
        PARTIES
            .into_iter()
            .flat_map(|party| actions.iter().map(move |&action| Call { party, action }))
    });
    calls.collect()
}

fn digit(number: u8) -> u8 {
    b"0123456789ABCDEF"[usize::from(number)]
}
