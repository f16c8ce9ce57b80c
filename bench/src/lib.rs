//! The rules of document 01 and requests 2026-01, 2026-02, 2026-04, 2026-05, 2026-07, 2026-10 and
//! 2026-11 in plain Rust, written from the documents alone, and what compares and times them against
//! the proved libraries, which the crate `cetomuhi` wraps.

pub mod arrays;
pub mod costs;
pub mod generate;
pub mod hex;
#[cfg(feature = "proved")]
pub mod lent;
#[cfg(feature = "proved")]
pub mod odd;
pub mod operands;
pub mod plain;
pub mod proved;
pub mod queries;
pub mod tally;
pub mod timing;
pub mod whole_runs;
pub mod workloads;
