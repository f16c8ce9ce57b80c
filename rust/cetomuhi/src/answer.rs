//! What a call answers.

use crate::{Refusal, Word};
use std::fmt;

/// Granted with a number and a tag, or refused. A refused call has changed nothing.
#[derive(Clone, Copy, Debug, PartialEq, Eq)]
#[must_use = "a call may be refused"]
pub enum Answer {
    /// The number and its tag are 0 where the call names none.
    Granted(Word),
    /// Why the call was turned down.
    Refused(Refusal),
}

impl Answer {
    /// 0, or the refusal's number.
    pub fn code(self) -> u8 {
        match self {
            Answer::Granted(_) => 0,
            Answer::Refused(refusal) => refusal.number(),
        }
    }

    /// The number; 0 of a refusal.
    pub fn number(self) -> u64 {
        self.granted().unwrap_or_default().number
    }

    /// The tag; false of a refusal.
    pub fn tag(self) -> bool {
        self.granted().unwrap_or_default().tag
    }

    /// What was granted, or the refusal as an error.
    pub fn granted(self) -> Result<Word, Refusal> {
        match self {
            Answer::Granted(word) => Ok(word),
            Answer::Refused(refusal) => Err(refusal),
        }
    }
}

/// "granted", with the number where there is one; or "refused" and why.
impl fmt::Display for Answer {
    fn fmt(&self, out: &mut fmt::Formatter) -> fmt::Result {
        match self {
            Answer::Granted(Word { number: 0, tag: false }) => write!(out, "granted"),
            Answer::Granted(word) => write!(out, "granted, {word}"),
            Answer::Refused(refusal) => write!(out, "refused, {refusal}"),
        }
    }
}

/// A command's answer, and how many bytes of the input it used: 0 under refusals 1 to 3.
#[derive(Clone, Copy, Debug, PartialEq, Eq)]
#[allow(missing_docs)]
pub struct Done {
    pub answer: Answer,
    pub used: usize,
}

/// How many numbers an answer has in a lent buffer: code, number, tag and bytes used.
pub const ANSWER_NUMBERS: usize = 4;

impl Done {
    /// The answer of four numbers. None: the library writes no such numbers.
    pub fn of(numbers: [u64; ANSWER_NUMBERS]) -> Option<Done> {
        let [code, number, tag, used] = numbers;
        let answer = match (code, tag) {
            (0, 0 | 1) => Answer::Granted(Word { number, tag: tag == 1 }),
            _ => Answer::Refused(Refusal::of(code)?),
        };
        Some(Done { answer, used: usize::try_from(used).ok()? })
    }

    /// The answers of a run in a buffer that was lent to it, one after another.
    ///
    /// # Panics
    /// If the buffer holds numbers that no run writes.
    pub fn each(numbers: &[u64]) -> impl ExactSizeIterator<Item = Done> + '_ {
        numbers.chunks_exact(ANSWER_NUMBERS).map(|four| {
            let four = four.try_into().expect("a chunk is of four");
            Done::of(four).expect("a run writes codes 0 to 22 and tags 0 and 1")
        })
    }
}

/// A run of commands: their answers, and where in the input it stands.
#[derive(Clone, Debug, PartialEq, Eq)]
#[allow(missing_docs)]
pub struct Run {
    pub answers: Vec<Done>,
    pub at: usize,
}

impl Run {
    /// The refusal 1 to 3 that ended the run, if one did.
    pub fn ended_by(&self) -> Option<Refusal> {
        let refusal = self.answers.last()?.answer.granted().err()?;
        refusal.ends_a_run().then_some(refusal)
    }
}
