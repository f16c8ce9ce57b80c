//! The state of a machine, in memory that the caller lends.

use crate::answer::ANSWER_NUMBERS;
use crate::boundary::{self, Arrays, ArraysMut, Memory};
use crate::{Answer, Call, Cost, Done, Refusal, Run};

/// The whole state: ten arrays of numbers, over memory that the caller lends at each call.
///
/// ```
/// use cetomuhi::{Call, Frame, Refusal, State};
///
/// let mut state = State::start(2, 1).expect("V and F are in range");
/// let (mut cells, mut tags) = ([7; 16], [1; 16]);
/// let zero = Call::Zero { party: 0, frame: Frame(0) };
/// assert!(state.call(&mut cells, &mut tags, &zero).granted().is_ok());
/// assert_eq!((cells, tags), ([0; 16], [0; 16]));
///
/// // Lent memory of another length is refused, and nothing is changed.
/// let again = state.call(&mut cells[..15], &mut tags, &zero);
/// assert_eq!(again.granted(), Err(Refusal::LentLength));
/// ```
///
/// The fields lie open, for storing a state and reading it back. No call relies on what they hold:
/// a state that is not well formed gets [`Refusal::IllFormed`] and stays as it is. To look at a
/// state, ask [`reservations`](State::reservations) and its like.
#[derive(Clone, Debug, PartialEq, Eq)]
pub struct State {
    /// V, F, the count of reservations, the sweep place, and base and length of the range that is
    /// being revoked.
    pub numbers: [u16; 6],
    /// Registers: that of party p and number d at 8 p + d.
    pub words: [u64; 64],
    /// The registers' tags, 0 or 1.
    pub marks: [u8; 64],
    /// The mailboxes of parties 0 to 7.
    pub mail: [u64; 8],
    /// The mailboxes' tags, 0 or 1.
    pub flags: [u8; 8],
    /// Reservations: base in bits 0 to 15, length 16 to 31, state 32 to 39, holder 40 to 47, taker
    /// 48 to 55; an unused one is 0.
    pub rows: [u64; 64],
    /// Virtual pages: 0 Unmapped, 1 Freed, n + 2 Mapped to frame n.
    pub pages: [u16; 256],
    /// Frames: 0 Dirty, 1 Free, 2 Mapped.
    pub frames: [u8; 128],
    /// Principals: what is unspent of the limit in bits 0 to 15, parent 16 to 23, holder 24 to 31, and
    /// bit 32; one that is not in being is 0.
    pub principals: [u64; 32],
    /// How often principals claim pages: that of principal p and page n at 256 p + n.
    pub counts: [u16; 8192],
}

/// The all-zero state, which is not well formed: what a refused start leaves.
impl Default for State {
    fn default() -> State {
        State {
            numbers: [0; 6],
            words: [0; 64],
            marks: [0; 64],
            mail: [0; 8],
            flags: [0; 8],
            rows: [0; 64],
            pages: [0; 256],
            frames: [0; 128],
            principals: [0; 32],
            counts: [0; 8192],
        }
    }
}

impl State {
    /// A fresh state with V virtual pages (1 to 256) and F frames (1 to 128).
    ///
    /// # Errors
    /// [`Refusal::IllFormed`] if V or F is out of range.
    pub fn start(v: u64, f: u64) -> Result<State, Refusal> {
        let mut state = State::default();
        state.restart(v, f).map(|()| state)
    }

    /// Makes this a fresh state, whatever it was.
    ///
    /// # Errors
    /// [`Refusal::IllFormed`] if V or F is out of range; the state is then all 0.
    pub fn restart(&mut self, v: u64, f: u64) -> Result<(), Refusal> {
        match boundary::start(v, f, self.lend()) {
            0 => Ok(()),
            _ => Err(Refusal::IllFormed),
        }
    }

    /// Whether the state is well formed, as the documents say. Every call tests it; this is for
    /// audits, and for a state read back from elsewhere.
    pub fn is_well_formed(&self) -> bool {
        boundary::well_formed(self.arrays())
    }

    /// What a page costs those who claim it. A question and no call: it needs no memory, and changes
    /// nothing.
    ///
    /// # Errors
    /// [`Refusal::IllFormed`] if the state is not well formed; [`Refusal::NoSuchPage`] if the page is
    /// V or more.
    pub fn page_cost(&self, page: u64) -> Result<Cost, Refusal> {
        let mut cost = Cost::default();
        match boundary::page_cost(self.arrays(), page, &mut cost.share, &mut cost.remainder) {
            0 => Ok(cost),
            code => Err(Refusal::of(code.into()).expect("the library answers codes 0, 1 and 12")),
        }
    }

    /// One call over lent memory: 16 F cells and as many tag bytes.
    pub fn call(&mut self, cells: &mut [u64], tags: &mut [u8], call: &Call) -> Answer {
        let (bytes, length) = call.padded();
        self.command(cells, tags, &bytes[..length], 0).answer
    }

    /// The command at a place of the input.
    pub fn command(&mut self, cells: &mut [u64], tags: &mut [u8], input: &[u8], at: usize) -> Done {
        let mut numbers = [0; ANSWER_NUMBERS];
        boundary::command(self.lend(), Memory { cells, tags }, input, at, &mut numbers);
        Done::of(numbers).expect("the library answers codes 0 to 22 and tags 0 and 1")
    }

    /// The commands of the input from a place on, up to its end or a refusal 1 to 3. The state is
    /// tested once.
    pub fn commands(&mut self, cells: &mut [u64], tags: &mut [u8], input: &[u8], at: usize) -> Run {
        // No command is shorter than two bytes; a last one may be cut short.
        let most = input.len().saturating_sub(at) / 2 + 1;
        let (mut numbers, mut place) = (vec![0; ANSWER_NUMBERS * most], at);
        let done = self.commands_into(cells, tags, input, &mut place, &mut numbers);
        let answers = Done::each(&numbers[..ANSWER_NUMBERS * done]).collect();
        Run { answers, at: place }
    }

    /// The same into a lent buffer, as far as it has room for four numbers a command, which
    /// [`Done::each`] reads. Answers how many commands were done; `at` is then where the run stands.
    pub fn commands_into(
        &mut self,
        cells: &mut [u64],
        tags: &mut [u8],
        input: &[u8],
        at: &mut usize,
        answers: &mut [u64],
    ) -> usize {
        boundary::commands(self.lend(), Memory { cells, tags }, input, at, answers)
    }

    /// The arrays, for reading.
    pub fn arrays(&self) -> Arrays<'_> {
        Arrays {
            numbers: &self.numbers,
            words: &self.words,
            marks: &self.marks,
            mail: &self.mail,
            flags: &self.flags,
            rows: &self.rows,
            pages: &self.pages,
            frames: &self.frames,
            principals: &self.principals,
            counts: &self.counts,
        }
    }

    /// The arrays, as a call is lent them.
    pub fn lend(&mut self) -> ArraysMut<'_> {
        ArraysMut {
            numbers: &mut self.numbers,
            words: &mut self.words,
            marks: &mut self.marks,
            mail: &mut self.mail,
            flags: &mut self.flags,
            rows: &mut self.rows,
            pages: &mut self.pages,
            frames: &mut self.frames,
            principals: &mut self.principals,
            counts: &mut self.counts,
        }
    }
}
