//! The long comparisons with the library, on a few thousand commands, tables and rounds.

#![cfg(feature = "proved")]

use std::process::Command;

fn last_line(program: &str, words: &[&str]) -> String {
    let output = Command::new(program).args(words).output().expect("the program runs");
    let text = String::from_utf8_lossy(&output.stdout).into_owned();
    assert!(output.status.success(), "{text}");
    text.lines().last().unwrap_or_default().into()
}

#[test]
fn a_load_shows_no_difference() {
    let sizes = [["1", "1"], ["2", "1"], ["16", "16"], ["256", "128"]];
    for (seed, [v, f]) in ["2", "3", "4", "5"].into_iter().zip(sizes) {
        let line = last_line(env!("CARGO_BIN_EXE_load"), &["3000", seed, v, f]);
        assert!(line.starts_with("commands 3") && line.ends_with(" differences 0"), "{line}");
    }
}

#[test]
fn maps_show_no_difference() {
    let line = last_line(env!("CARGO_BIN_EXE_compare_maps"), &["1000", "2"]);
    assert_eq!(line, "0 differences");
}

#[test]
fn bad_input_shows_no_difference() {
    let line = last_line(env!("CARGO_BIN_EXE_bad_input"), &["3000", "2"]);
    assert_eq!(line, "differences 0");
}
