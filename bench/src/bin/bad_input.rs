//! Random states, lengths and bytes through every exported function.
//!
//! `bad_input [ROUNDS [SEED]]`, 1,000,000 rounds from seed 1 on. Each round has its state in arrays
//! of their own and calls all twelve functions. There must be an answer each time, and it must be the
//! plain rules' one; what is refused must keep every byte. Exit status 1 if any differs.

use cetomuhi::{raw, VERSION};
use cetomuhi_bench::costs::Costs;
use cetomuhi_bench::generate::{queries, Random};
use cetomuhi_bench::lent::{written, Lent};
use cetomuhi_bench::plain::{self, Cost, Memory, Refusal};
use cetomuhi_bench::queries::{Kind, Queries, PROVED};
use cetomuhi_bench::{odd, operands};
use std::process::ExitCode;

fn main() -> ExitCode {
    let words: Vec<String> = std::env::args().skip(1).collect();
    let numbers: Option<Vec<u64>> = words.iter().map(|word| word.parse().ok()).collect();
    let (rounds, seed) = match numbers.as_deref() {
        Some([]) => (1_000_000, 1),
        Some([rounds]) => (*rounds, 1),
        Some([rounds, seed]) => (*rounds, *seed),
        _ => {
            eprintln!("usage: bad_input [ROUNDS [SEED]]");
            return ExitCode::from(2);
        }
    };
    println!("seed {seed}");
    let mut random = Random::new(seed);
    let sound = odd::sound_states(&mut random, 500.min(rounds as usize));
    let mut tally = Tally::default();
    for round in 0..rounds {
        let faults = try_all(&mut random, &sound, &mut tally);
        faults.iter().flatten().for_each(|fault| println!("round {round}: {fault}"));
        tally.differences += faults.iter().flatten().count();
    }
    tally.report(rounds);
    ExitCode::from(u8::from(tally.differences > 0))
}

#[derive(Default)]
struct Tally {
    well_formed: u64,
    started: u64,
    written: u64,
    read: u64,
    /// Answers of single commands and of runs, by code.
    codes: [u64; 23],
    costs: Costs,
    queries: Queries,
    differences: usize,
}

impl Tally {
    fn report(&self, rounds: u64) {
        println!("rounds {rounds}, well formed {}, started {}", self.well_formed, self.started);
        println!("calls written {}, read {}", self.written, self.read);
        println!("answers by code:");
        for (code, count) in self.codes.iter().enumerate() {
            println!("  {code:>2} {count:>10}");
        }
        print!("{}{}", self.costs, self.queries);
        println!("differences {}", self.differences);
    }
}

type Fault = Option<&'static str>;

fn wrong_if(condition: bool, fault: &'static str) -> Fault {
    condition.then_some(fault)
}

fn try_all(random: &mut Random, sound: &[Lent], tally: &mut Tally) -> [Fault; 11] {
    let lent = odd::state(random, sound);
    let which = random.number();
    [
        try_well_formed(&lent, tally),
        try_page_cost(random, &lent, tally),
        try_query(random, Kind::Sharing, &lent, tally),
        try_query(random, Kind::Within, &lent, tally),
        try_query(random, Kind::Nearest, &lent, tally),
        try_command(random, lent.clone(), tally),
        try_commands(random, lent.clone(), tally),
        try_start(random, lent.clone(), tally),
        try_write(random, tally),
        try_read(random, &lent, tally),
        wrong_if(
            raw::version() != VERSION || (which > 11 && raw::size(which) != 0),
            "version, size",
        ),
    ]
}

fn is_well_formed(lent: &Lent) -> bool {
    lent.plain().is_some_and(|state| state.is_well_formed())
}

fn try_well_formed(lent: &Lent, tally: &mut Tally) -> Fault {
    let found = raw::well_formed(lent.arrays());
    tally.well_formed += u64::from(found);
    wrong_if(found != is_well_formed(lent), "well_formed: another answer")
}

fn try_page_cost(random: &mut Random, lent: &Lent, tally: &mut Tally) -> Fault {
    let page = odd::page(random, lent);
    let state = lent.plain();
    let expected = match &state {
        Some(state) => state.page_cost(page),
        None => Refusal::IllFormed.into(),
    };
    tally.costs.count(expected, state.as_ref(), page);
    let before = lent.clone();
    let (mut share, mut remainder) = (random.number(), random.number());
    let code = raw::page_cost(lent.arrays(), page, &mut share, &mut remainder);
    wrong_if(Cost { code, share, remainder } != expected, "page_cost: another answer")
        .or(wrong_if(*lent != before, "page_cost: not kept"))
}

fn try_query(random: &mut Random, kind: Kind, lent: &Lent, tally: &mut Tally) -> Fault {
    let used = lent.numbers.get(2).map_or(0, |count| usize::from(*count));
    let query = queries::odd(random, kind, lent.rows.get(..used).unwrap_or(&lent.rows));
    let (expected, causes) = query.expected();
    tally.queries.count(&query, &expected, &causes);
    let words = match kind {
        Kind::Sharing => "sharing: another answer, or not kept",
        Kind::Within => "within: another answer, or not kept",
        Kind::Nearest => "nearest: another answer, or not kept",
    };
    query.fault(&PROVED, &expected).map(|_| words)
}

/// What the plain rules make of lent arrays and memory, if these are a well-formed state; the
/// numbers that they answer, and where they stand.
fn expected(
    lent: &Lent,
    run: impl FnOnce(&mut plain::State, &mut Memory) -> (Vec<u64>, usize),
) -> Option<(Lent, Vec<u64>, usize)> {
    let mut state = lent.plain().filter(plain::State::is_well_formed)?;
    let (mut cells, mut tags) = (lent.cells.clone(), lent.tags.clone());
    let (answers, at) = run(&mut state, &mut Memory { cells: &mut cells, tags: &mut tags });
    Some((Lent::of(&written(&state), &cells, &tags), answers, at))
}

const KEPT: u64 = 0xA5A5;

fn try_command(random: &mut Random, mut lent: Lent, tally: &mut Tally) -> Fault {
    let input = odd::bytes(random, &lent);
    let at = odd::place(random, input.len());
    let room = *random.pick(&[4, 4, 4, 5, 8, 3, 0]);
    let mut answers = vec![KEPT; room].into_boxed_slice();
    let before = lent.clone();
    let (after, told, _) = expected(&before, |state, memory| {
        let (answer, used) = state.command(memory, &input, at);
        (answer.numbers(used).into(), at)
    })
    .unwrap_or((before.clone(), vec![1, 0, 0, 0], at));
    let (arrays, memory) = lent.lend();
    let done = raw::command(arrays, memory, &input, at, &mut answers);
    if room < 4 {
        let kept = answers.iter().all(|number| *number == KEPT);
        return wrong_if(done != 0 || lent != before || !kept, "command: done without room");
    }
    tally.codes[told[0] as usize] += 1;
    let kept = answers[4..].iter().all(|number| *number == KEPT);
    wrong_if(done != 1 || answers[..4] != told || !kept, "command: another answer")
        .or(wrong_if(told[0] != 0 && lent != before, "command: refused, and not kept"))
        .or(wrong_if(lent != after, "command: another state or memory"))
}

fn try_commands(random: &mut Random, mut lent: Lent, tally: &mut Tally) -> Fault {
    let input = odd::bytes(random, &lent);
    let begin = odd::place(random, input.len());
    let room = random.below(40);
    let mut answers = vec![KEPT; room].into_boxed_slice();
    let before = lent.clone();
    let is_idle = room < 4 || begin >= input.len();
    let refused = if is_idle { vec![] } else { vec![1, 0, 0, 0] };
    let (after, told, stands) = expected(&before, |state, memory| {
        let mut told = vec![0; room];
        let (done, at) = state.commands(memory, &input, begin, &mut told);
        told.truncate(4 * done);
        (told, at)
    })
    .unwrap_or((before.clone(), refused, begin));
    let mut at = begin;
    let (arrays, memory) = lent.lend();
    let done = raw::commands(arrays, memory, &input, &mut at, &mut answers);
    told.chunks(4).for_each(|four| tally.codes[four[0] as usize] += 1);
    let kept = answers[told.len()..].iter().all(|number| *number == KEPT);
    let all_refused = told.chunks(4).all(|four| four[0] != 0);
    wrong_if(4 * done != told.len() || at != stands, "commands: another count or place")
        .or(wrong_if(answers[..told.len()] != told || !kept, "commands: other answers"))
        .or(wrong_if(all_refused && lent != before, "commands: all refused, and not kept"))
        .or(wrong_if(lent != after, "commands: another state or memory"))
}

fn try_start(random: &mut Random, mut lent: Lent, tally: &mut Tally) -> Fault {
    let any = random.number();
    let v = *random.pick(&[0, 1, 2, 255, 256, 257, 65_537, any]);
    let f = *random.pick(&[0, 1, 2, 127, 128, 129, 65_537, any]);
    let before = lent.clone();
    let code = raw::start(v, f, lent.lend().0);
    tally.started += u64::from(code == 0);
    let fresh = match (u16::try_from(v), u8::try_from(f)) {
        (Ok(v), Ok(f)) => plain::State::start(v, f).ok(),
        _ => None,
    };
    let (after, expected) = match (before.is_sized(), &fresh) {
        (false, _) => (before, 1),
        (true, None) => (Lent::of(&cetomuhi::State::default(), &before.cells, &before.tags), 1),
        (true, Some(state)) => (Lent::of(&written(state), &before.cells, &before.tags), 0),
    };
    wrong_if(code != expected || lent != after, "start: another code or state")
}

fn try_write(random: &mut Random, tally: &mut Tally) -> Fault {
    let numbers = odd::call_numbers(random);
    let mut out = vec![0xA5; random.below(14)].into_boxed_slice();
    let bytes = operands::bytes(&numbers).filter(|bytes| bytes.len() <= out.len());
    let expected = bytes.unwrap_or_default();
    let used = raw::write(&numbers, &mut out);
    tally.written += u64::from(used > 0);
    let (found, rest) = out.split_at(expected.len());
    let kept = rest.iter().all(|byte| *byte == 0xA5);
    wrong_if(used != expected.len() || found != expected || !kept, "write: other bytes")
}

fn try_read(random: &mut Random, lent: &Lent, tally: &mut Tally) -> Fault {
    let input = odd::bytes(random, lent);
    let at = odd::place(random, input.len());
    let room = *random.pick(&[7, 7, 7, 6, 8, 0]);
    let mut numbers = vec![KEPT; room].into_boxed_slice();
    let found = input.get(at..).and_then(operands::numbers).filter(|_| room == 7);
    let (expected, length) = match found {
        Some((seven, length)) => (seven.into(), length),
        None => (numbers.clone(), 0),
    };
    let used = raw::read(&input, at, &mut numbers);
    tally.read += u64::from(used > 0);
    wrong_if(used != length || numbers != expected, "read: another call")
}
