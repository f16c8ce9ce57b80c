//! Request 2026-11: what a page costs those who claim it.

use super::answer::Refusal;
use super::pages::CELLS_A_PAGE;
use super::state::State;

/// Code 0, what each pays, and what is left over; or a refusal's code, 0 and 0.
#[derive(Clone, Copy, Debug, Default, PartialEq, Eq)]
pub struct Cost {
    pub code: u8,
    pub share: u64,
    pub remainder: u64,
}

impl Cost {
    /// The cells are dealt out in rounds, one to each, as long as there are enough for a round. With
    /// nobody to deal to there is no round.
    fn of(claimants: usize) -> Cost {
        let (mut share, mut left) = (0, CELLS_A_PAGE);
        while claimants > 0 && left >= claimants {
            share += 1;
            left -= claimants;
        }
        Cost { code: 0, share, remainder: left as u64 }
    }
}

impl From<Refusal> for Cost {
    fn from(refusal: Refusal) -> Cost {
        Cost { code: refusal as u8, ..Cost::default() }
    }
}

impl State {
    /// The cost of any number's page, on any state.
    pub fn page_cost(&self, page: u64) -> Cost {
        if !self.is_well_formed() {
            return Refusal::IllFormed.into();
        }
        match usize::try_from(page) {
            Ok(page) if page < self.pages.pages().len() => Cost::of(self.claims.claimants(page)),
            _ => Refusal::NoSuchPage.into(),
        }
    }
}
