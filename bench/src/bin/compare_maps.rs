//! Compares the library's queries of request 2026-07 with the plain ones, which go cell by cell.
//!
//! `compare_maps [TABLES [SEED]]`, 100,000 tables from seed 1 on, twelve queries over each. The code,
//! the numbers and every entry of a list's slice must be the plain ones, and what is not to be written
//! must be kept. Exit status 1 if any differs.

use cetomuhi_bench::generate::{queries, Random};
use cetomuhi_bench::queries::{Queries, PROVED};
use std::process::ExitCode;

fn main() -> ExitCode {
    let words: Vec<String> = std::env::args().skip(1).collect();
    let numbers: Option<Vec<u64>> = words.iter().map(|word| word.parse().ok()).collect();
    let (tables, seed) = match numbers.as_deref() {
        Some([]) => (100_000, 1),
        Some([tables]) => (*tables, 1),
        Some([tables, seed]) => (*tables, *seed),
        _ => {
            eprintln!("usage: compare_maps [TABLES [SEED]]");
            return ExitCode::from(2);
        }
    };
    let mut random = Random::new(seed);
    let (mut tally, mut differences) = (Queries::default(), 0u64);
    for table in 0..tables {
        for query in queries::over_a_table(&mut random) {
            let (expected, causes) = query.expected();
            tally.count(&query, &expected, &causes);
            if let Some(fault) = query.fault(&PROVED, &expected) {
                println!("table {table}: {fault}");
                differences += 1;
            }
        }
    }
    print!("seed {seed}, tables {tables}, {tally}");
    println!("{differences} differences");
    ExitCode::from(u8::from(differences > 0))
}
