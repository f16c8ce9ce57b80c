//! `histories_list` by the plain implementation: every short history on standard output.

use cetomuhi_bench::plain;
use std::io::{self, Write};

fn main() -> io::Result<()> {
    io::stdout().lock().write_all(&plain::short_histories())
}
