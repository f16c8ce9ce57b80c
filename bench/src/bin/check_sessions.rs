//! Compares the stored lines of folders of sessions with those of the plain implementation and,
//! with the feature `proved`, of both proved libraries.

use cetomuhi_bench::hex::{stored_sessions, Stored};
use cetomuhi_bench::plain;
use cetomuhi_bench::proved::{self, LINES_LIMIT};
use std::path::Path;
use std::process::ExitCode;

fn main() -> ExitCode {
    let mut folders: Vec<String> = std::env::args().skip(1).collect();
    if folders.is_empty() {
        folders.push(concat!(env!("CARGO_MANIFEST_DIR"), "/../sessions").into());
    }
    let (mut agreed, mut differed) = (0, 0);
    for folder in folders {
        let sessions = match stored_sessions(Path::new(&folder)) {
            Ok(sessions) => sessions,
            Err(fault) => {
                eprintln!("{folder}: {fault}");
                return ExitCode::from(2);
            }
        };
        let faults: Vec<String> = sessions.iter().filter_map(difference).collect();
        faults.iter().for_each(|fault| println!("{fault}"));
        agreed += sessions.len() - faults.len();
        differed += faults.len();
    }
    println!("{agreed} sessions agree, {differed} differ");
    ExitCode::from(u8::from(differed > 0))
}

/// The session's name and the first line that differs, in words.
fn difference(session: &Stored) -> Option<String> {
    let mut all = vec![plain::session(&session.input)];
    if proved::LINKED {
        all.extend([proved::session, proved::session_checked].map(|run| {
            let mut buffer = vec![0; LINES_LIMIT];
            let written = run(&session.input, &mut buffer).unwrap_or(0);
            buffer.truncate(written);
            buffer
        }));
    }
    let printed = all.into_iter().find(|printed| *printed != session.lines)?;
    let (printed, stored) = (lines(&printed), lines(&session.lines));
    let same = printed.iter().zip(&stored).take_while(|(a, b)| a == b).count();
    let at = |lines: &[String]| lines.get(same).cloned().unwrap_or("nothing".into());
    let (name, printed, stored) = (&session.name, at(&printed), at(&stored));
    Some(format!("{name}: line {}: printed {printed}, stored {stored}", same + 1))
}

fn lines(bytes: &[u8]) -> Vec<String> {
    String::from_utf8_lossy(bytes).lines().map(String::from).collect()
}
