//! The reservation machine of a composition server: a manager and seven houses that trust no one
//! share one address space, and the machine keeps who may use which range of it.
//!
//! This crate is the safe Rust side of the library `libcetomuhi.a`, whose functions are proved to
//! answer for all bytes, numbers and lengths by the rules of document 01, "The reservation machine
//! of the composition server", with requests 2026-01, 2026-02, 2026-04, 2026-05, 2026-07 and
//! 2026-11. A [`Machine`] owns its state and memory; a [`State`] is lent memory at every call. A
//! [`Call`] is of one of the kinds; its [`Answer`] is granted, or one of twenty-two [`Refusal`]s,
//! and then nothing has changed. What a page [costs](Cost) those who claim it is asked of a state,
//! and which reservations [share](State::sharing) cells with a range, lie [within](State::within) it
//! or are [nearest](State::nearest) to a cell.
//!
//! ```
//! use cetomuhi::{Call, Frame, Machine, Refusal, VirtualPage};
//!
//! # fn main() -> Result<(), Refusal> {
//! let mut machine = Machine::start(2, 1)?;
//! machine.call(&Call::Zero { party: 0, frame: Frame(0) }).granted()?;
//! machine.call(&Call::Map { party: 0, page: VirtualPage(0), frame: Frame(0) }).granted()?;
//! machine.call(&Call::Give { party: 0, base: 0, to: 3 }).granted()?;
//!
//! // Party 3 takes the range, which nobody can take again.
//! let take = Call::Take { party: 3, base: 0, reg: 0 };
//! assert_eq!(machine.call(&take).granted()?.number, 32);
//! assert_eq!(machine.call(&take).granted(), Err(Refusal::NotHeld));
//! println!("{take}: {}", machine.call(&take));
//!
//! for reservation in machine.state().reservations() {
//!     println!("{reservation}");
//! }
//! # Ok(())
//! # }
//! ```
//!
//! A server with a queue writes calls as bytes and has them done in one run, in which the state is
//! tested once:
//!
//! ```
//! use cetomuhi::{Call, Frame, Machine};
//!
//! let mut machine = Machine::start(16, 16).expect("V and F are in range");
//! let mut queue = Vec::new();
//! for frame in 0..16 {
//!     Call::Zero { party: 0, frame: Frame(frame) }.append(&mut queue);
//! }
//! let run = machine.commands(&queue);
//! assert_eq!((run.answers.len(), run.at), (16, queue.len()));
//! assert!(run.answers.iter().all(|done| done.answer.code() == 0));
//! ```
//!
//! The archive is looked for in the folder that `CETOMUHI_LIB_DIR` names, or where `tools/made
//! cetomuhi` writes it. What is proved ends at the C boundary; this crate is tested.

#![deny(missing_docs)]
#![deny(unsafe_op_in_unsafe_fn)]

mod answer;
mod boundary;
mod call;
mod cost;
#[rustfmt::skip]
mod kinds;
mod machine;
mod maps;
mod refusal;
#[cfg(feature = "session")]
pub mod session;
mod shown;
mod state;
mod word;

pub use answer::{Answer, Done, Run, ANSWER_NUMBERS};
pub use call::{Call, Frame, VirtualPage, CALL_NUMBERS, LONGEST};
pub use cost::Cost;
pub use machine::{Machine, PAGE_CELLS};
pub use refusal::Refusal;
pub use shown::{Claim, FrameState, Mailbox, PageState, Principal, Register};
pub use shown::{Reservation, ReservationState, Revocation, Taker};
pub use state::State;
pub use word::{Capability, Word};

/// The version of the library that this crate is for.
pub const VERSION: u64 = 5;

/// The exported functions over slices of any lengths, one for one. They are safe; the rest of the
/// crate is more convenient.
pub mod raw {
    pub use crate::boundary::{command, commands, nearest, page_cost, read, sharing, size};
    pub use crate::boundary::{start, version, well_formed, within, write};
    pub use crate::boundary::{Arrays, ArraysMut, Memory};
}
