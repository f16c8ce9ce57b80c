//! The reservation machine of document 01, with requests 2026-01, 2026-02, 2026-04, 2026-05, 2026-07,
//! 2026-10 and 2026-11, as an ordinary Rust program.
//!
//! One `State`, changed in place. Each call first looks for its reasons to be turned down, in the
//! documents' order, and then writes what it changes.

pub mod answer;
pub mod call;
pub mod capability;
pub mod claims;
pub mod cost;
pub mod histories;
#[rustfmt::skip]
pub mod kinds;
pub mod maps;
pub mod pages;
pub mod session;
pub mod state;
pub mod step;
pub mod table;

pub use answer::{Answer, Refusal};
pub use call::{read, Action, Call, KINDS};
pub use cost::Cost;
pub use histories::short_histories;
pub use session::{session, session_checked, session_into, INPUT_LIMIT};
pub use state::{Memory, Slot, State};
