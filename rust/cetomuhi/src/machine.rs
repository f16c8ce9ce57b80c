//! A machine that owns its state and its memory.

use crate::{Answer, Call, Cost, Done, Refusal, Run, State};

/// How many cells a page and a frame have.
pub const PAGE_CELLS: usize = 16;

/// A state, and the memory that it is lent at every call.
#[derive(Clone, Debug, PartialEq, Eq)]
pub struct Machine {
    state: State,
    cells: Vec<u64>,
    tags: Vec<u8>,
}

impl Machine {
    /// A fresh state with V virtual pages (1 to 256) and F frames (1 to 128), over zeroed memory.
    ///
    /// # Errors
    /// [`Refusal::IllFormed`] if V or F is out of range.
    pub fn start(v: u64, f: u64) -> Result<Machine, Refusal> {
        let state = State::start(v, f)?;
        let lent = PAGE_CELLS * state.frame_count();
        Ok(Machine { state, cells: vec![0; lent], tags: vec![0; lent] })
    }

    /// A machine of a state and memory from elsewhere, well formed or not. What does not fit is
    /// refused at every call.
    pub fn of(state: State, cells: Vec<u64>, tags: Vec<u8>) -> Machine {
        Machine { state, cells, tags }
    }

    /// One call.
    pub fn call(&mut self, call: &Call) -> Answer {
        self.state.call(&mut self.cells, &mut self.tags, call)
    }

    /// The command at a place of the input.
    pub fn command(&mut self, input: &[u8], at: usize) -> Done {
        self.state.command(&mut self.cells, &mut self.tags, input, at)
    }

    /// All commands of the input, up to its end or a refusal 1 to 3. The state is tested once.
    pub fn commands(&mut self, input: &[u8]) -> Run {
        self.state.commands(&mut self.cells, &mut self.tags, input, 0)
    }

    /// The same from a place on into a lent buffer; see [`State::commands_into`].
    pub fn commands_into(&mut self, input: &[u8], at: &mut usize, answers: &mut [u64]) -> usize {
        self.state.commands_into(&mut self.cells, &mut self.tags, input, at, answers)
    }

    /// Whether the state is well formed.
    pub fn is_well_formed(&self) -> bool {
        self.state.is_well_formed()
    }

    /// What a page costs those who claim it.
    ///
    /// # Errors
    /// As with [`State::page_cost`].
    pub fn page_cost(&self, page: u64) -> Result<Cost, Refusal> {
        self.state.page_cost(page)
    }

    /// The bases of the reservations that share a cell with the `cells` cells from `first` on.
    ///
    /// # Errors
    /// As with [`State::sharing`].
    pub fn sharing(&self, first: u64, cells: u64) -> Result<Vec<u16>, Refusal> {
        self.state.sharing(first, cells)
    }

    /// The bases of the reservations with all their cells among the `cells` cells from `first` on.
    ///
    /// # Errors
    /// As with [`State::within`].
    pub fn within(&self, first: u64, cells: u64) -> Result<Vec<u16>, Refusal> {
        self.state.within(first, cells)
    }

    /// The base of the Open reservation of `cells` cells or more that is nearest to `cell`.
    ///
    /// # Errors
    /// As with [`State::nearest`].
    pub fn nearest(&self, cell: u64, cells: u64) -> Result<Option<u16>, Refusal> {
        self.state.nearest(cell, cells)
    }

    /// The state, to be looked at.
    pub fn state(&self) -> &State {
        &self.state
    }

    /// The cells of lent memory: frame f begins at 16 f.
    pub fn cells(&self) -> &[u64] {
        &self.cells
    }

    /// Their tag bytes.
    pub fn tags(&self) -> &[u8] {
        &self.tags
    }

    /// The state, the cells and the tags.
    pub fn into_parts(self) -> (State, Vec<u64>, Vec<u8>) {
        (self.state, self.cells, self.tags)
    }
}
