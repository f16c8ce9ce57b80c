//! Prints what a command costs through the library's C boundary: one at a time, with the state
//! tested at every command, and in runs, with the state tested once a run. The plain version does
//! the same on the same input in the same run of this program. The table is markdown.

use cetomuhi::{Machine, State, ANSWER_NUMBERS};
use cetomuhi_bench::generate::Author;
use cetomuhi_bench::lent::written;
use cetomuhi_bench::plain::{self, Memory};
use cetomuhi_bench::timing::fastest;
use std::hint::black_box;
use std::time::Duration;

const BYTES: usize = 250_000;

fn main() {
    println!("Nanoseconds a command through the C boundary, a mix of generated calls:\n");
    println!("| V | F | commands | plain | proved | ratio |");
    println!("|---:|---:|---|---:|---:|---:|");
    for (v, f) in [(16, 16), (256, 128)] {
        let input = Author::begin(7, v, f).more(BYTES);
        let commands = agree(v, f, &input) as f64;
        for (name, run) in WAYS {
            let seconds = time(v, f, &input, run);
            let [plain, proved] = seconds.map(|seconds| seconds * 1e9 / commands);
            println!("| {v} | {f} | {name} | {plain:.2} | {proved:.2} | {:.2} |", plain / proved);
        }
    }
}

/// How the commands are made; None: one at a time, tested.
const WAYS: [(&str, Option<usize>); 4] = [
    ("one at a time", None),
    ("in runs of 1", Some(1)),
    ("in runs of 16", Some(16)),
    ("in runs of 1,000", Some(1_000)),
];

/// A state with its memory, by the plain rules.
struct Plain {
    state: plain::State,
    cells: Vec<u64>,
    tags: Vec<u8>,
}

impl Plain {
    fn start(v: u16, f: u8) -> Plain {
        let state = plain::State::start(v, f).expect("V and F are in range");
        let lent = state.pages.lent_cells();
        Plain { state, cells: vec![0; lent], tags: vec![0; lent] }
    }

    fn make(&mut self, input: &[u8], run: Option<usize>, answers: &mut [u64]) {
        let mut memory = Memory { cells: &mut self.cells, tags: &mut self.tags };
        let mut at = 0;
        while at < input.len() {
            at = match run {
                None => {
                    let (answer, used) = self.state.command(&mut memory, input, at);
                    answers[..ANSWER_NUMBERS].copy_from_slice(&answer.numbers(used));
                    at + used
                }
                Some(count) => {
                    let room = &mut answers[..ANSWER_NUMBERS * count];
                    self.state.commands(&mut memory, input, at, room).1
                }
            };
            black_box(&answers);
        }
    }
}

fn make(machine: &mut Machine, input: &[u8], run: Option<usize>, answers: &mut [u64]) {
    let mut at = 0;
    while at < input.len() {
        match run {
            None => at += black_box(machine.command(input, at)).used,
            Some(count) => {
                machine.commands_into(input, &mut at, &mut answers[..ANSWER_NUMBERS * count]);
            }
        }
        black_box(&answers);
    }
}

/// Seconds of the plain and the proved machine for the whole input, each the fastest of many turns.
fn time(v: u16, f: u8, input: &[u8], run: Option<usize>) -> [f64; 2] {
    let room = ANSWER_NUMBERS * run.unwrap_or(1);
    let (mut by_plain, mut by_library) = (vec![0; room], vec![0; room]);
    let mut plain = || Plain::start(v, f).make(black_box(input), run, &mut by_plain);
    let mut library = || make(&mut start(v, f), black_box(input), run, &mut by_library);
    let best = fastest(&mut [&mut plain, &mut library], Duration::from_millis(1_500));
    [best[0], best[1]]
}

fn start(v: u16, f: u8) -> Machine {
    Machine::start(v.into(), f.into()).expect("V and F are in range")
}

/// How many commands the input has. Both machines must answer them alike and leave the same.
fn agree(v: u16, f: u8, input: &[u8]) -> usize {
    let most = ANSWER_NUMBERS * input.len();
    let (mut expected, mut found) = (vec![0; most], vec![0; most]);
    let mut plain = Plain::start(v, f);
    let mut memory = Memory { cells: &mut plain.cells, tags: &mut plain.tags };
    let (done, _) = plain.state.commands(&mut memory, input, 0, &mut expected);
    let mut state = State::start(v.into(), f.into()).expect("V and F are in range");
    let (mut cells, mut tags) = (vec![0; plain.cells.len()], vec![0; plain.tags.len()]);
    state.commands_into(&mut cells, &mut tags, input, &mut 0, &mut found);
    let same_memory = cells == plain.cells && tags == plain.tags;
    let same_state = state == written(&plain.state);
    assert!(expected == found && same_memory && same_state, "the two differ: run load");
    done
}
