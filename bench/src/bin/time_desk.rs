//! Times whole runs of `desk` and of `plain_desk` on one input of 32,768 bytes, beside an empty
//! process. `time_desk [DESK [RUNS]]`; DESK is `../target/bin/desk` if none is named.

use cetomuhi_bench::plain::INPUT_LIMIT;
use cetomuhi_bench::whole_runs::{self, Job, Pair};
use cetomuhi_bench::{generate, plain};
use std::process::ExitCode;
use std::{fs, io};

fn main() -> ExitCode {
    whole_runs::timing(["desk", "plain_desk"], time)
}

fn time(pair: &Pair) -> io::Result<()> {
    let mut input = generate::productive(3, 64, 32, INPUT_LIMIT);
    input.truncate(INPUT_LIMIT);
    let file = std::env::temp_dir().join(format!("cetomuhi-{}", std::process::id()));
    fs::write(&file, &input)?;
    let job = Job { input: Some(&file), lines: &plain::session(&input) };
    let timed = pair.time(&format!(" on {} bytes", input.len()), &job);
    fs::remove_file(&file)?;
    timed
}
