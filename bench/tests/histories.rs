//! Request 2026-10: the plain rules' list of short histories is the enumerator's, which the program
//! `histories_list` is held to.

use cetomuhi_bench::plain::short_histories;
use std::path::Path;

#[test]
fn every_short_history_once() {
    let stored = Path::new(env!("CARGO_MANIFEST_DIR")).join("../crates/histories_list/stdout");
    assert_eq!(short_histories(), std::fs::read(stored).unwrap());
}

#[test]
fn each_is_a_line_of_its_own() {
    let text = String::from_utf8(short_histories()).unwrap();
    let mut lines: Vec<&str> = text.lines().collect();
    assert_eq!(lines.len(), 187);
    lines.sort();
    lines.dedup();
    assert_eq!(lines.len(), 187);
}
