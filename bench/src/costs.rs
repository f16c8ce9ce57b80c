//! The cost of a page, asked of the plain and of the proved machine between the commands of a session.

use crate::generate::Random;
use crate::plain::claims::PRINCIPALS;
use crate::plain::{read, Action, Call, Cost, Memory, State, INPUT_LIMIT};
use crate::proved::Machine;
use std::collections::BTreeMap;
use std::fmt;

/// How many questions were asked, by their case in words, which the plain machine finds.
#[derive(Default)]
pub struct Costs {
    pub cases: BTreeMap<&'static str, u64>,
    /// Those that the two answered differently.
    pub differences: u64,
}

impl Costs {
    /// Plays a session on both machines and asks them after its start, after every few commands, at
    /// its end, and with a page that more and more claim.
    pub fn add(&mut self, seed: u64, input: &[u8]) {
        let mut random = Random::new(!seed);
        let input = &input[..input.len().min(INPUT_LIMIT)];
        let Some((mut machines, mut rest)) = Machines::start(input) else { return };
        loop {
            for page in pages(&mut random, &machines.plain) {
                self.ask(seed, &machines, page);
            }
            let done = machines.make(rest, 1 + random.below(40));
            if done == 0 {
                break;
            }
            rest = &rest[done..];
        }
        let page = random.below(machines.plain.pages.pages().len());
        self.crowd(seed, &mut machines, page as u8);
    }

    /// Has one principal after another claim a page, and creates those that are not in being: in a
    /// session only a few claim the same one.
    fn crowd(&mut self, seed: u64, machines: &mut Machines, page: u8) {
        for principal in 0..PRINCIPALS as u8 {
            let (parent, limit, holder) = (0, 1, 0);
            machines.call(0, Action::Create { parent, child: principal, limit, holder });
            let entry = machines.plain.claims.principal(principal);
            let party = entry.map_or(0, |entry| entry.holder);
            machines.call(party, Action::Claim { principal, page });
            self.ask(seed, machines, page.into());
        }
    }

    fn ask(&mut self, seed: u64, machines: &Machines, page: u64) {
        let plain = machines.plain.page_cost(page);
        let proved = machines.proved.page_cost(page);
        self.count(plain, Some(&machines.plain), page);
        if plain != proved {
            println!("seed {seed}: cost of page {page}: proved {proved:?}, plain {plain:?}");
            self.differences += 1;
        }
    }

    /// Counts what the plain rules answer, of a state if the arrays are one.
    pub fn count(&mut self, cost: Cost, state: Option<&State>, page: u64) {
        let claimants = || state.map_or(0, |state| state.claims.claimants(page as usize));
        let case = match cost.code {
            1 => "refused under 1",
            12 => "refused under 12",
            _ => match claimants() {
                0 => "of a page that nobody claims",
                1 => "of a page that one claims",
                2..=16 => "of a page that 2 to 16 claim",
                _ => "of a page that 17 to 32 claim",
            },
        };
        *self.cases.entry(case).or_default() += 1;
    }
}

impl fmt::Display for Costs {
    fn fmt(&self, out: &mut fmt::Formatter) -> fmt::Result {
        writeln!(out, "costs asked {}:", self.cases.values().sum::<u64>())?;
        self.cases.iter().try_for_each(|(words, count)| writeln!(out, "  {count:>10} {words}"))
    }
}

/// The page that most claim, any other, the last one, V, and a number beyond.
fn pages(random: &mut Random, state: &State) -> [u64; 5] {
    let v = state.pages.pages().len();
    let most = (0..v).max_by_key(|page| state.claims.claimants(*page)).unwrap_or(0);
    let any = random.below(v);
    let beyond = *random.pick(&[256, 1 << 16, 1 << 32, u64::MAX - 255]) + any as u64;
    [most as u64, any as u64, v as u64 - 1, v as u64, beyond]
}

/// Both machines, which have made the same commands.
pub struct Machines {
    pub plain: State,
    pub proved: Machine,
    cells: Vec<u64>,
    tags: Vec<u8>,
}

impl Machines {
    /// Both as a session's first bytes start them, and its commands; None: the start is refused.
    pub fn start(input: &[u8]) -> Option<(Machines, &[u8])> {
        let [v1, v0, f, ref commands @ ..] = *input else { return None };
        let v = u16::from_be_bytes([v1, v0]);
        let plain = State::start(v, f).ok()?;
        let lent = plain.pages.lent_cells();
        let (cells, tags) = (vec![0; lent], vec![0; lent]);
        Some((Machines { plain, proved: Machine::start(v, f), cells, tags }, commands))
    }

    fn call(&mut self, party: u8, action: Action) {
        let mut bytes = Vec::new();
        Call { party, action }.write(&mut bytes);
        self.make(&bytes, 1);
    }

    /// Makes as many commands on both as there are, `most` at most: the length of their bytes.
    pub fn make(&mut self, input: &[u8], most: usize) -> usize {
        let mut done = 0;
        for _ in 0..most {
            let Some((call, used)) = read(&input[done..]) else { break };
            let mut memory = Memory { cells: &mut self.cells, tags: &mut self.tags };
            self.plain.step(&mut memory, call);
            done += used;
        }
        self.proved.make(&input[..done]);
        done
    }
}
