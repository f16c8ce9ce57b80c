//! Compares the proved libraries with the plain implementation on generated sessions: the lines of
//! each, and what pages cost between its commands.
//!
//! `compare [COUNT [FIRST]]` takes COUNT seeds from FIRST on (1,000 from 0).
//! `compare --show SEED` prints one seed's session in hexadecimal and its lines by the plain one.

use cetomuhi_bench::costs::Costs;
use cetomuhi_bench::plain::{read, session, INPUT_LIMIT};
use cetomuhi_bench::proved::{self, LINES_LIMIT};
use cetomuhi_bench::{generate, tally::Tally};
use std::process::ExitCode;

fn main() -> ExitCode {
    let words: Vec<String> = std::env::args().skip(1).collect();
    let words: Vec<&str> = words.iter().map(String::as_str).collect();
    let number = |word: &str| word.parse::<u64>().ok();
    match words[..] {
        [] => compare(1_000, 0),
        ["--show", seed] if number(seed).is_some() => show(number(seed).unwrap()),
        [count] if number(count).is_some() => compare(number(count).unwrap(), 0),
        [count, first] if number(count).is_some() && number(first).is_some() => {
            compare(number(count).unwrap(), number(first).unwrap())
        }
        _ => {
            eprintln!("usage: compare [COUNT [FIRST]] | compare --show SEED");
            ExitCode::from(2)
        }
    }
}

fn compare(count: u64, first: u64) -> ExitCode {
    let (mut tally, mut costs) = (Tally::default(), Costs::default());
    let mut differences = 0u64;
    let mut buffer = vec![0; LINES_LIMIT + 64];
    for seed in first..first + count {
        let input = generate::session(seed);
        tally.add(&input);
        if proved::LINKED {
            differences += u64::from(differs(seed, &input, &mut buffer));
            costs.add(seed, &input);
        }
    }
    print!("{tally}");
    match proved::LINKED {
        true => println!("{costs}differences {differences}, of costs {}", costs.differences),
        false => println!("nothing compared: built without the feature `proved`"),
    }
    ExitCode::from(u8::from(differences + costs.differences > 0))
}

/// Says where the two disagree, if they do.
fn differs(seed: u64, input: &[u8], buffer: &mut [u8]) -> bool {
    let expected = session(input);
    let faults = [
        fault(&expected, proved::session, input, buffer).map(|fault| ("", fault)),
        fault(&expected, proved::session_checked, input, buffer).map(|fault| ("checked, ", fault)),
    ];
    for (variant, fault) in faults.iter().flatten() {
        println!("seed {seed}: {variant}{fault}");
    }
    faults.iter().any(Option::is_some)
}

type Proved = fn(&[u8], &mut [u8]) -> Option<usize>;

/// What is wrong with the lines in a large buffer, in one that just holds them, or in a shorter one.
fn fault(expected: &[u8], proved: Proved, input: &[u8], buffer: &mut [u8]) -> Option<String> {
    let length = expected.len();
    buffer[..length + 64].fill(KEPT);
    let written = proved(input, buffer).unwrap_or(0);
    if buffer[..written] != *expected {
        return Some(first_difference(&buffer[..written], expected));
    }
    if !is_kept(&buffer[length..length + 64]) {
        return Some("bytes behind the lines are written".into());
    }
    buffer[..length].fill(KEPT);
    if proved(input, &mut buffer[..length]) != Some(length) || buffer[..length] != *expected {
        return Some("a buffer of just the lines' length is not enough".into());
    }
    buffer[..length].fill(KEPT);
    if proved(input, &mut buffer[..length - 1]).is_some() || !is_kept(&buffer[..length]) {
        return Some("a buffer one byte too short is written".into());
    }
    None
}

const KEPT: u8 = 0xA5;

fn is_kept(bytes: &[u8]) -> bool {
    bytes.iter().all(|byte| *byte == KEPT)
}

fn first_difference(found: &[u8], expected: &[u8]) -> String {
    let (found, expected) = (String::from_utf8_lossy(found), String::from_utf8_lossy(expected));
    let same = found.lines().zip(expected.lines()).take_while(|(a, b)| a == b).count();
    let line = |text: &str| text.lines().nth(same).unwrap_or("nothing").to_string();
    format!("line {}: proved {}, plain {}", same + 1, line(&found), line(&expected))
}

fn show(seed: u64) -> ExitCode {
    let mut input = generate::session(seed);
    input.truncate(INPUT_LIMIT);
    let lines = String::from_utf8(session(&input)).expect("lines are ASCII");
    let mut place = 0;
    for line in lines.lines() {
        let length = match place {
            0 => input.len().min(3),
            _ => read(&input[place..]).map_or(input.len() - place, |(_, length)| length),
        };
        let bytes: String =
            input[place..place + length].iter().map(|b| format!("{b:02X}")).collect();
        println!("{bytes:24} # -> {line}");
        place += length;
    }
    ExitCode::SUCCESS
}
