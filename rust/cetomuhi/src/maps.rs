//! Which reservations lie where: questions about the table of a state. They look at nothing else of
//! it, need no memory and change nothing.

use crate::{boundary, Refusal, State};

/// How many bases a list may have, which is the room that it is lent.
const ROOM: usize = 64;

/// A question whose answer is a list of bases.
type Listing = fn(&[u64], u64, u64, &mut [u16], &mut u64) -> u8;

impl State {
    /// The bases of the reservations that share a cell with the `cells` cells from `first` on, in
    /// rising order.
    ///
    /// ```
    /// use cetomuhi::{Call, Machine, Refusal};
    ///
    /// # fn main() -> Result<(), Refusal> {
    /// // Reservations of 16, 8 and 40 cells.
    /// let mut machine = Machine::start(4, 1)?;
    /// machine.call(&Call::Split { party: 0, base: 0, len: 16 }).granted()?;
    /// machine.call(&Call::Split { party: 0, base: 16, len: 8 }).granted()?;
    ///
    /// assert_eq!(machine.sharing(10, 10)?, [0, 16]);
    /// assert_eq!(machine.sharing(10, 54)?, [0, 16, 24]);
    /// assert_eq!(machine.sharing(10, 55), Err(Refusal::WrongRange));
    /// # Ok(())
    /// # }
    /// ```
    ///
    /// # Errors
    /// [`Refusal::WrongRange`] if `cells` is 0 or the range ends past the last reservation; or if the
    /// state is not well formed and its reservations do not tile up to 4,096 cells from cell 0 on.
    pub fn sharing(&self, first: u64, cells: u64) -> Result<Vec<u16>, Refusal> {
        self.listed(boundary::sharing, first, cells)
    }

    /// The bases of the reservations with all their cells among the `cells` cells from `first` on, in
    /// rising order. There is none where the range lies inside of one.
    ///
    /// ```
    /// use cetomuhi::{Call, Machine, Refusal};
    ///
    /// # fn main() -> Result<(), Refusal> {
    /// // Reservations of 16, 8 and 40 cells.
    /// let mut machine = Machine::start(4, 1)?;
    /// machine.call(&Call::Split { party: 0, base: 0, len: 16 }).granted()?;
    /// machine.call(&Call::Split { party: 0, base: 16, len: 8 }).granted()?;
    ///
    /// assert_eq!(machine.within(10, 20)?, [16]);
    /// assert_eq!(machine.within(10, 54)?, [16, 24]);
    /// assert!(machine.within(30, 4)?.is_empty());
    /// # Ok(())
    /// # }
    /// ```
    ///
    /// # Errors
    /// As with [`State::sharing`].
    pub fn within(&self, first: u64, cells: u64) -> Result<Vec<u16>, Refusal> {
        self.listed(boundary::within, first, cells)
    }

    /// The base of the Open reservation of `cells` cells or more that is nearest to `cell`, which may
    /// lie anywhere. The distance is to its closest cell, 0 inside; of two equally near it is the
    /// lower. None: no Open one has that many cells.
    ///
    /// ```
    /// use cetomuhi::{Call, Machine, Refusal};
    ///
    /// # fn main() -> Result<(), Refusal> {
    /// // Reservations of 16, 8 and 40 cells; the second is Taken.
    /// let mut machine = Machine::start(4, 1)?;
    /// machine.call(&Call::Split { party: 0, base: 0, len: 16 }).granted()?;
    /// machine.call(&Call::Split { party: 0, base: 16, len: 8 }).granted()?;
    /// machine.call(&Call::Take { party: 0, base: 16, reg: 0 }).granted()?;
    ///
    /// assert_eq!(machine.nearest(17, 1)?, Some(0));
    /// assert_eq!(machine.nearest(17, 20)?, Some(24));
    /// assert_eq!(machine.nearest(17, 41)?, None);
    /// assert_eq!(machine.nearest(17, 0), Err(Refusal::WrongRange));
    /// # Ok(())
    /// # }
    /// ```
    ///
    /// # Errors
    /// [`Refusal::WrongRange`] if `cells` is 0, or for the state as with [`State::sharing`].
    pub fn nearest(&self, cell: u64, cells: u64) -> Result<Option<u16>, Refusal> {
        let (mut found, mut base) = (0, 0);
        answered(boundary::nearest(self.table(), cell, cells, &mut found, &mut base))?;
        let base = u16::try_from(base).expect("a base has 16 bits");
        Ok((found == 1).then_some(base))
    }

    fn listed(&self, ask: Listing, first: u64, cells: u64) -> Result<Vec<u16>, Refusal> {
        let (mut bases, mut count) = ([0; ROOM], 0);
        answered(ask(self.table(), first, cells, &mut bases, &mut count))?;
        Ok(bases.into_iter().take(count as usize).collect())
    }

    /// The rows in use, as many as the state counts; none if it counts more than it has, which the
    /// library refuses.
    fn table(&self) -> &[u64] {
        self.rows.get(..self.numbers[2].into()).unwrap_or_default()
    }
}

fn answered(code: u8) -> Result<(), Refusal> {
    match code {
        0 => Ok(()),
        code => Err(Refusal::of(code.into()).expect("the library answers codes 0 and 25")),
    }
}
