//! `desk` by the plain implementation: a session on standard input, its lines on standard output.

use cetomuhi_bench::plain;
use std::io::{self, Read, Write};

fn main() -> io::Result<()> {
    let mut input = Vec::new();
    let limit = plain::INPUT_LIMIT as u64;
    io::stdin().lock().take(limit).read_to_end(&mut input)?;
    io::stdout().lock().write_all(&plain::session(&input))
}
