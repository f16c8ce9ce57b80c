//! Stored sessions: those of ../sessions and ../examples, or of the folder that SESSIONS names.

use cetomuhi_bench::hex::{stored_sessions, Stored};
use cetomuhi_bench::plain::{session, session_checked};
use std::path::Path;
use std::{env, fs};

const OWN: [&str; 2] = [
    concat!(env!("CARGO_MANIFEST_DIR"), "/../sessions"),
    concat!(env!("CARGO_MANIFEST_DIR"), "/../examples"),
];

fn sessions() -> Vec<Stored> {
    let named = env::var("SESSIONS").map(|folder| vec![folder]);
    let folders = named.unwrap_or_else(|_| OWN.map(String::from).into());
    let each = |folder: &String| stored_sessions(Path::new(folder)).expect("it can be read");
    folders.iter().flat_map(each).collect()
}

#[test]
fn every_stored_session_prints_its_lines() {
    let sessions = sessions();
    assert!(!sessions.is_empty());
    for stored in sessions {
        assert!(session(&stored.input) == stored.lines, "{} differs", stored.name);
        let mut checked = Vec::new();
        session_checked(&stored.input, &mut checked);
        assert!(checked == stored.lines, "{} differs when checked", stored.name);
    }
}

#[cfg(feature = "proved")]
#[test]
fn the_proved_sessions_print_the_stored_lines() {
    use cetomuhi_bench::proved::{self, LINES_LIMIT};
    let mut out = vec![0; LINES_LIMIT];
    for stored in sessions() {
        for run in [proved::session, proved::session_checked] {
            let written = run(&stored.input, &mut out).expect("the buffer holds all lines");
            assert!(out[..written] == stored.lines, "{} differs", stored.name);
        }
    }
}

/// The arrays that a stored session leaves by the plain rules.
#[cfg(feature = "proved")]
fn left_by_the_plain_rules(input: &[u8]) -> cetomuhi::State {
    use cetomuhi_bench::plain::{Memory, State};
    let v = u16::from_be_bytes([input[0], input[1]]);
    let mut state = State::start(v, input[2]).expect("no stored session has a refused start");
    let lent = state.pages.lent_cells();
    let (mut cells, mut tags) = (vec![0; lent], vec![0; lent]);
    let mut memory = Memory { cells: &mut cells, tags: &mut tags };
    state.commands(&mut memory, input, 3, &mut vec![0; 4 * input.len()]);
    cetomuhi_bench::lent::written(&state)
}

/// The same commands on a machine of the crate, one by one and in one run.
#[cfg(feature = "proved")]
#[test]
fn the_library_answers_as_stored() {
    use cetomuhi::Machine;
    for Stored { name, input, lines } in sessions() {
        let (v, f) = (u64::from(input[0]) << 8 | u64::from(input[1]), input[2].into());
        let mut machine = Machine::start(v, f).expect("no stored session has a refused start");
        let run = machine.commands(&input[3..]);
        let mut single = Machine::start(v, f).expect("as above");
        let (mut at, mut printed) = (3, String::from("0 0 0\n"));
        for done in run.answers {
            assert_eq!(single.command(&input, at), done, "{name}");
            let answer = done.answer;
            let tag = u8::from(answer.tag());
            printed += &format!("{} {} {tag}\n", answer.code(), answer.number());
            at += done.used;
        }
        assert_eq!(printed.as_bytes(), lines, "{name}");
        assert!(single == machine && machine.is_well_formed(), "{name}");
        assert!(*machine.state() == left_by_the_plain_rules(&input), "{name}");
    }
}

/// A comment `# -> 0 16 0  words` holds the line that its command must print.
#[test]
fn the_lines_in_the_comments_are_the_stored_ones() {
    for stored in sessions() {
        let text = fs::read_to_string(&stored.name).unwrap();
        let comments = text.lines().filter_map(|line| line.split_once("# -> "));
        let lines = comments.map(|(_, rest)| rest.splitn(4, ' ').take(3).collect::<Vec<_>>());
        let lines: String = lines.map(|words| words.join(" ") + "\n").collect();
        assert_eq!(lines.as_bytes(), stored.lines, "{}", stored.name);
    }
}
