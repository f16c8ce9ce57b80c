//! Many commands on one state through the library, against the plain rules.
//!
//! `load [COMMANDS [SEED [V F]]]`, 10,000,000 commands from seed 1 on, V 64 and F 32. They are
//! made one by one or in runs of several lengths. Every answer is compared; state, cells and tags
//! are compared at 1,000 places or more and at the end. Exit status 1 if any differs.

use cetomuhi::{Machine, ANSWER_NUMBERS};
use cetomuhi_bench::generate::{Author, Random};
use cetomuhi_bench::lent::written;
use cetomuhi_bench::plain::{self, Memory, KINDS};
use std::process::ExitCode;

/// The two machines, over memory that begins with the same random content.
struct Load {
    plain: plain::State,
    cells: Vec<u64>,
    tags: Vec<u8>,
    library: Machine,
    random: Random,
    codes: [u64; 23],
    granted: [u64; KINDS + 1],
    commands: u64,
    places: u64,
    differences: u64,
}

fn main() -> ExitCode {
    let words: Vec<String> = std::env::args().skip(1).collect();
    let numbers: Option<Vec<u64>> = words.iter().map(|word| word.parse().ok()).collect();
    let (commands, seed, v, f) = match numbers.as_deref() {
        Some([]) => (10_000_000, 1, 64, 32),
        Some([commands]) => (*commands, 1, 64, 32),
        Some([commands, seed]) => (*commands, *seed, 64, 32),
        Some([commands, seed, v @ 1..=256, f @ 1..=128]) => (*commands, *seed, *v, *f),
        _ => {
            eprintln!("usage: load [COMMANDS [SEED [V F]]]");
            return ExitCode::from(2);
        }
    };
    println!("seed {seed}, V {v}, F {f}");
    let load = run(commands, seed, v as u16, f as u8);
    load.report();
    ExitCode::from(u8::from(load.differences > 0))
}

fn run(commands: u64, seed: u64, v: u16, f: u8) -> Load {
    let mut author = Author::begin(seed, v, f);
    let mut load = Load::start(Random::new(!seed), v, f);
    // No command has five bytes on average, so that there are more parts than 1,000.
    let part = 5 * (commands as usize / 1_000).max(1);
    while load.commands < commands && load.differences == 0 {
        load.make(&author.more(part));
    }
    load
}

impl Load {
    fn start(mut random: Random, v: u16, f: u8) -> Load {
        let plain = plain::State::start(v, f).expect("V and F are in range");
        let lent = plain.pages.lent_cells();
        let cells: Vec<u64> = (0..lent).map(|_| random.number()).collect();
        let tags: Vec<u8> = (0..lent).map(|_| random.number() as u8).collect();
        let state = cetomuhi::State::start(v.into(), f.into()).expect("V and F are in range");
        let library = Machine::of(state, cells.clone(), tags.clone());
        let (codes, granted) = ([0; 23], [0; KINDS + 1]);
        let (commands, places, differences) = (0, 0, 0);
        Load { plain, cells, tags, library, random, codes, granted, commands, places, differences }
    }

    /// Makes the calls of a part on both machines and compares them.
    fn make(&mut self, input: &[u8]) {
        let told = self.by_the_library(input);
        let mut answers = told.chunks_exact(ANSWER_NUMBERS);
        let mut rest = input;
        while let Some((call, used)) = plain::read(rest) {
            let mut memory = Memory { cells: &mut self.cells, tags: &mut self.tags };
            let answer = self.plain.step(&mut memory, call);
            let expected = answer.numbers(used);
            if answers.next() != Some(&expected) {
                println!("command {}: {call:?} differs from {expected:?}", self.commands);
                self.differences += 1;
            }
            self.codes[usize::from(answer.code)] += 1;
            self.granted[usize::from(rest[0])] += u64::from(answer.code == 0);
            self.commands += 1;
            rest = &rest[used..];
        }
        self.differences += answers.len() as u64;
        self.compare();
    }

    /// Four numbers for each command of the input.
    fn by_the_library(&mut self, input: &[u8]) -> Vec<u64> {
        let run = *self.random.pick(&[1, 2, 16, 1_000, 20_000]);
        let mut buffer = vec![0; ANSWER_NUMBERS * run];
        let (mut told, mut at) = (Vec::new(), 0);
        while at < input.len() {
            let before = at;
            let done = if run == 1 {
                let done = self.library.command(input, at);
                let (answer, used) = (done.answer, done.used);
                let numbers =
                    [answer.code().into(), answer.number(), answer.tag().into(), used as u64];
                buffer.copy_from_slice(&numbers);
                at += used;
                1
            } else {
                self.library.commands_into(input, &mut at, &mut buffer)
            };
            told.extend_from_slice(&buffer[..ANSWER_NUMBERS * done]);
            if at == before {
                break;
            }
        }
        told
    }

    fn compare(&mut self) {
        self.places += 1;
        let same = *self.library.state() == written(&self.plain)
            && self.library.cells() == self.cells
            && self.library.tags() == self.tags
            && self.library.is_well_formed();
        if !same {
            println!("after command {}: state, cells or tags differ", self.commands);
            self.differences += 1;
        }
    }

    fn report(&self) {
        println!("answers by code:");
        for (code, count) in self.codes.iter().enumerate() {
            println!("  {code:>2} {count:>10}");
        }
        println!("granted by command:");
        for (command, count) in self.granted.iter().enumerate().skip(1) {
            println!("  {command:02X} {count:>10}");
        }
        println!(
            "commands {}, places compared {}, differences {}",
            self.commands, self.places, self.differences
        );
    }
}
