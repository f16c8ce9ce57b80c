//! Times whole runs of `histories_list` and of `plain_histories`, beside an empty process.
//! `time_histories [HISTORIES_LIST [RUNS]]`; `../target/bin/histories_list` if none is named.

use cetomuhi_bench::plain;
use cetomuhi_bench::whole_runs::{self, Job};
use std::process::ExitCode;

fn main() -> ExitCode {
    whole_runs::timing(["histories_list", "plain_histories"], |pair| {
        pair.time("", &Job { input: None, lines: &plain::short_histories() })
    })
}
