//! Counts of what sessions do, found by the plain implementation.

mod claims;

use crate::plain::table::{Standing, ROWS};
use crate::plain::{
    capability as cap, read, Action, Answer, Call, Memory, State, INPUT_LIMIT, KINDS,
};
use std::collections::BTreeMap;
use std::fmt;

#[derive(Default)]
pub struct Tally {
    pub sessions: u64,
    pub commands: u64,
    /// Answers by code, those of starts included.
    pub codes: [u64; 23],
    /// Commands granted, by the command's number.
    pub granted: [u64; KINDS + 1],
    /// Capabilities that loads put into a register: with their tag, without permission 4 for it, and
    /// with permission 4 but dying.
    pub loaded: u64,
    pub loaded_unpermitted: u64,
    pub loaded_dying: u64,
    /// Loads, and those of a capability, while a revocation runs.
    pub running_loads: u64,
    pub running_loads_of_capabilities: u64,
    /// Dying capabilities stored while a revocation runs, behind and ahead of the sweep place.
    pub stored_behind: u64,
    pub stored_ahead: u64,
    /// Tags that sweeps cleared.
    pub swept: u64,
    /// Merges of Taken reservations with equal and with different takers; revokes of Open ones.
    pub joined_alike: u64,
    pub joined_unlike: u64,
    pub revoked_open: u64,
    /// Sessions in which the table is full at some time, and in which all mailboxes are.
    pub full_tables: u64,
    pub full_mailboxes: u64,
    /// Calls on principals and claims, by their case in words.
    pub claims: BTreeMap<&'static str, u64>,
    /// The longest way up from a principal to 0.
    pub deepest: usize,
}

impl Tally {
    pub fn add(&mut self, input: &[u8]) {
        self.sessions += 1;
        let input = &input[..input.len().min(INPUT_LIMIT)];
        let started = match *input {
            [v1, v0, f, ..] => State::start(u16::from_be_bytes([v1, v0]), f).ok(),
            _ => None,
        };
        self.codes[usize::from(started.is_none())] += 1;
        if let Some(state) = started {
            self.add_commands(state, &input[3..]);
        }
    }

    fn add_commands(&mut self, mut state: State, mut input: &[u8]) {
        let lent = state.pages.lent_cells();
        let (mut cells, mut tags) = (vec![0; lent], vec![0; lent]);
        let (mut table_full, mut mailboxes_full) = (false, false);
        while !input.is_empty() {
            self.commands += 1;
            let Some((call, used)) = read(input) else {
                self.codes[3] += 1;
                break;
            };
            let dying = dying_store(&state, call);
            let taker = taker_change(&state, call);
            let load = load_in(&state, &tags, call);
            let claim = claims::if_granted(&state.claims, call.action);
            let is_sweep = matches!(call.action, Action::Sweep { .. });
            let before = if is_sweep { count(&tags) } else { 0 };
            let mut memory = Memory { cells: &mut cells, tags: &mut tags };
            let answer = state.step(&mut memory, call);
            self.add_answer(input[0], answer, dying);
            self.add_taker_change(taker.filter(|_| answer.code == 0));
            self.add_load(load.filter(|_| answer.code == 0), answer.tag);
            self.add_claim(claim, &state, call, answer.code);
            self.swept += if is_sweep { before - count(&tags) } else { 0 };
            table_full |= state.table.rows().len() == ROWS;
            mailboxes_full |= state.mailboxes.iter().all(|slot| slot.tag);
            input = &input[used..];
        }
        self.full_tables += u64::from(table_full);
        self.full_mailboxes += u64::from(mailboxes_full);
    }

    fn add_answer(&mut self, command: u8, answer: Answer, dying: Option<Side>) {
        self.codes[usize::from(answer.code)] += 1;
        if answer.code != 0 {
            return;
        }
        self.granted[usize::from(command)] += 1;
        match dying {
            Some(Side::Behind) => self.stored_behind += 1,
            Some(Side::Ahead) => self.stored_ahead += 1,
            None => {}
        }
    }

    fn add_load(&mut self, load: Option<Load>, tag: bool) {
        let Some(load) = load else { return };
        let while_running = u64::from(load.while_running);
        self.running_loads += while_running;
        if load.of_a_capability {
            self.running_loads_of_capabilities += while_running;
            match (tag, load.permitted) {
                (true, _) => self.loaded += 1,
                (false, true) => self.loaded_dying += 1,
                (false, false) => self.loaded_unpermitted += 1,
            }
        }
    }

    /// The state is the one after the call, which is the one before it if the call is refused.
    fn add_claim(&mut self, granted: Option<&'static str>, state: &State, call: Call, code: u8) {
        let case = match code {
            0 => granted,
            _ => claims::if_refused(state, call, code),
        };
        if let Some(words) = case {
            *self.claims.entry(words).or_default() += 1;
            let depths = state.claims.principals().map(|(number, _)| state.claims.depth(number));
            self.deepest = self.deepest.max(depths.max().unwrap_or(0));
        }
    }

    fn add_taker_change(&mut self, change: Option<TakerChange>) {
        match change {
            Some(TakerChange::JoinsAlike) => self.joined_alike += 1,
            Some(TakerChange::JoinsUnlike) => self.joined_unlike += 1,
            Some(TakerChange::RevokesOpen) => self.revoked_open += 1,
            None => {}
        }
    }
}

fn count(tags: &[u8]) -> u64 {
    tags.iter().map(|tag| u64::from(*tag)).sum()
}

/// Where a store lands, seen from the sweep place.
enum Side {
    Behind,
    Ahead,
}

/// Where the call would store a capability of the revoked range, if it is such a store.
fn dying_store(state: &State, call: Call) -> Option<Side> {
    let running = state.revocation?;
    let Action::Store { a, off, s } = call.action else { return None };
    let registers = state.registers.get(usize::from(call.party))?;
    let stored = registers.get(usize::from(s))?;
    if !stored.tag || !running.range.kills(stored.cell) {
        return None;
    }
    let place = addressed(state, call.party, a, off)?;
    Some(if place < running.place { Side::Behind } else { Side::Ahead })
}

/// How a taker comes about other than by a take and a collect.
enum TakerChange {
    JoinsAlike,
    JoinsUnlike,
    RevokesOpen,
}

/// What the call would do to takers, if it is granted.
fn taker_change(state: &State, call: Call) -> Option<TakerChange> {
    let (Action::Merge { base } | Action::Revoke { base }) = call.action else { return None };
    let mut rows = state.table.rows().iter().skip_while(|row| row.base != base);
    let row = rows.next()?;
    match (call.action, row.standing) {
        (Action::Revoke { .. }, Standing::Open) => Some(TakerChange::RevokesOpen),
        (Action::Merge { .. }, Standing::Taken) => match rows.next()?.taker == row.taker {
            true => Some(TakerChange::JoinsAlike),
            false => Some(TakerChange::JoinsUnlike),
        },
        _ => None,
    }
}

/// A load: whether a revocation runs, whether the cell is tagged, and whether the register has
/// permission 4.
struct Load {
    while_running: bool,
    of_a_capability: bool,
    permitted: bool,
}

/// The load that the call is, if it is one of a cell in lent memory.
fn load_in(state: &State, tags: &[u8], call: Call) -> Option<Load> {
    let Action::Load { a, off, .. } = call.action else { return None };
    let place = addressed(state, call.party, a, off)?;
    let through = state.registers.get(usize::from(call.party))?.get(usize::from(a))?;
    Some(Load {
        while_running: state.revocation.is_some(),
        of_a_capability: tags[place] != 0,
        permitted: cap::allows(through.cell, cap::LOAD_CAPABILITY),
    })
}

/// The lent cell at a register's base and an offset, if there is one.
fn addressed(state: &State, party: u8, a: u8, off: u16) -> Option<usize> {
    let through = state.registers.get(usize::from(party))?.get(usize::from(a))?;
    let cell = usize::from(cap::base(through.cell)) + usize::from(off);
    state.pages.lent_place(cell).ok()
}

impl fmt::Display for Tally {
    fn fmt(&self, out: &mut fmt::Formatter) -> fmt::Result {
        writeln!(out, "sessions {}, commands {}", self.sessions, self.commands)?;
        writeln!(out, "answers by code:")?;
        for (code, count) in self.codes.iter().enumerate() {
            writeln!(out, "  {code:>2} {count:>10}")?;
        }
        writeln!(out, "granted by command:")?;
        for (command, count) in self.granted.iter().enumerate().skip(1) {
            writeln!(out, "  {command:02X} {count:>10}")?;
        }
        writeln!(
            out,
            "capabilities loaded: {} with their tag, {} without permission 4 for it, {} dying",
            self.loaded, self.loaded_unpermitted, self.loaded_dying
        )?;
        writeln!(
            out,
            "loads while a revocation runs: {}, of a capability {}",
            self.running_loads, self.running_loads_of_capabilities
        )?;
        writeln!(
            out,
            "dying capabilities stored: {} behind the sweep place, {} ahead; tags swept {}",
            self.stored_behind, self.stored_ahead, self.swept
        )?;
        writeln!(
            out,
            "Taken ones merged: {} with equal takers, {} with different ones; Open ones revoked {}",
            self.joined_alike, self.joined_unlike, self.revoked_open
        )?;
        writeln!(
            out,
            "sessions with a full table {}, with all mailboxes full {}",
            self.full_tables, self.full_mailboxes
        )?;
        writeln!(out, "principals and claims, {} parents at most:", self.deepest)?;
        self.claims.iter().try_for_each(|(words, count)| writeln!(out, "  {count:>10} {words}"))
    }
}
