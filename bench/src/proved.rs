//! Whole sessions by the two proved libraries, and a machine and queries of the embeddable one, if the
//! feature `proved` links them.

/// Whether the libraries are linked.
pub const LINKED: bool = cfg!(feature = "proved");

#[cfg(feature = "proved")]
pub use cetomuhi::raw::{nearest, sharing, within};
#[cfg(feature = "proved")]
pub use cetomuhi::session::{session, session_checked, LINES_LIMIT};
#[cfg(feature = "proved")]
pub use linked::Machine;

#[cfg(not(feature = "proved"))]
pub use unlinked::{list as sharing, list as within, nearest};
#[cfg(not(feature = "proved"))]
pub use unlinked::{session, session as session_checked, Machine, LINES_LIMIT};

#[cfg(feature = "proved")]
mod linked {
    use crate::plain::Cost;

    /// A machine that makes commands and is asked for costs.
    pub struct Machine(cetomuhi::Machine);

    impl Machine {
        pub fn start(v: u16, f: u8) -> Machine {
            Machine(cetomuhi::Machine::start(v.into(), f.into()).expect("V and F are in range"))
        }

        pub fn make(&mut self, commands: &[u8]) {
            self.0.commands(commands);
        }

        pub fn is_well_formed(&self) -> bool {
            self.0.is_well_formed()
        }

        pub fn page_cost(&self, page: u64) -> Cost {
            match self.0.page_cost(page) {
                Ok(cost) => Cost { code: 0, share: cost.share, remainder: cost.remainder },
                Err(refusal) => Cost { code: refusal.number(), ..Cost::default() },
            }
        }
    }
}

#[cfg(not(feature = "proved"))]
mod unlinked {
    use crate::plain::Cost;

    /// Enough for the lines of every session.
    pub const LINES_LIMIT: usize = 26 * 16_384;

    pub fn session(_: &[u8], _: &mut [u8]) -> Option<usize> {
        panic!("built without the feature `proved`")
    }

    pub fn list(_: &[u64], _: u64, _: u64, _: &mut [u16], _: &mut u64) -> u8 {
        panic!("built without the feature `proved`")
    }

    pub fn nearest(_: &[u64], _: u64, _: u64, _: &mut u64, _: &mut u64) -> u8 {
        panic!("built without the feature `proved`")
    }

    /// Stands beside a plain machine and does nothing.
    pub struct Machine;

    impl Machine {
        pub fn start(_: u16, _: u8) -> Machine {
            Machine
        }

        pub fn make(&mut self, _: &[u8]) {}

        pub fn is_well_formed(&self) -> bool {
            panic!("built without the feature `proved`")
        }

        pub fn page_cost(&self, _: u64) -> Cost {
            panic!("built without the feature `proved`")
        }
    }
}
