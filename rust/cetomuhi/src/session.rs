//! Whole sessions: input bytes to printed lines, through `libsession.a` and `libsession_checked.a`.
//!
//! The input is V (two bytes, high byte first), F (one byte), then commands; no byte after the
//! first 32,768 is looked at. A line is `code number tag` in decimal: one for the start, one for
//! each command, none after a refusal 1 to 3. Memory is the session's own and begins as 0.

use crate::boundary;

/// Enough for the lines of every session: 1 + 16,383 of them, none over 26 bytes.
pub const LINES_LIMIT: usize = 26 * 16_384;

/// Puts the lines of a session first in `out` and answers their length. None: they do not fit, and
/// `out` is as it was.
pub fn session(input: &[u8], out: &mut [u8]) -> Option<usize> {
    fitting(boundary::session(input, out))
}

/// The same lines, through the function that tests well-formedness at every command.
pub fn session_checked(input: &[u8], out: &mut [u8]) -> Option<usize> {
    fitting(boundary::session_checked(input, out))
}

/// Every session has a line, so that 0 says that its lines do not fit.
fn fitting(written: usize) -> Option<usize> {
    (written > 0).then_some(written)
}
