//! Whole sessions, through the archives that export them.

#![cfg(feature = "session")]

use cetomuhi::session::{session, session_checked, LINES_LIMIT};
use cetomuhi::Machine;

#[test]
fn a_short_start_prints_one_line_if_it_fits() {
    for run in [session, session_checked] {
        let mut out = [7; 8];
        assert_eq!(run(&[], &mut out[..0]), None);
        assert_eq!(run(&[], &mut out[..5]), None);
        assert_eq!(out, [7; 8]);
        assert_eq!(run(&[], &mut out), Some(6));
        assert_eq!(&out, b"1 0 0\n\x07\x07");
    }
}

/// A session's lines are the answers of the same commands in one run.
#[test]
fn a_session_is_a_start_and_a_run() {
    let collects = [7, 0].repeat(300);
    let takes = [1, 0, 0, 0, 7].repeat(2);
    let commands = [&collects[..], &takes, &[0xFF]].concat();
    let run = Machine::start(2, 1).expect("V and F are in range").commands(&commands);
    let mut expected = String::from("0 0 0\n");
    for answer in run.answers.iter().map(|done| done.answer) {
        let line = format!("{} {} {}\n", answer.code(), answer.number(), u8::from(answer.tag()));
        expected.push_str(&line);
    }
    let input = [&[0, 2, 1], &commands[..]].concat();
    for print in [session, session_checked] {
        let mut out = vec![0; LINES_LIMIT];
        let written = print(&input, &mut out).expect("the buffer holds all lines");
        assert_eq!(String::from_utf8_lossy(&out[..written]), expected);
    }
}
