//! Sessions from a seed: long and short, whole and damaged, most of their calls granted.

mod any_call;
mod claims;
mod granted;
mod memory;
pub mod queries;
mod random;
mod revocation;
mod tables;

use crate::plain::{Call, Memory, State, INPUT_LIMIT};
use granted::Mood;
pub use random::Random;

/// A session of any sort.
pub fn session(seed: u64) -> Vec<u8> {
    let mut random = Random::new(seed);
    match random.below(20) {
        0 => few_bytes(&mut random),
        1 => refused_start(&mut random),
        2 => random_bytes(&mut random),
        3..=5 => damaged(&mut random),
        6 => whole(&mut random, INPUT_LIMIT + 64),
        _ => {
            let bytes = 60 + random.below(2_400);
            whole(&mut random, bytes)
        }
    }
}

/// An undamaged session of the given size, of `bytes` bytes or at most 600 more.
pub fn productive(seed: u64, v: u16, f: u8, bytes: usize) -> Vec<u8> {
    Author::new(Random::new(seed), v, f).write(bytes)
}

fn whole(random: &mut Random, bytes: usize) -> Vec<u8> {
    let v = *random.pick(&[1, 2, 2, 3, 4, 5, 8, 16, 31, 64, 128, 255, 256]);
    let f = *random.pick(&[1, 1, 2, 3, 4, 6, 8, 16, 31, 64, 127, 128]);
    Author::new(random.fork(), v, f).write(bytes)
}

fn few_bytes(random: &mut Random) -> Vec<u8> {
    let mut bytes = vec![0, 1 + random.below(8) as u8, 1 + random.below(8) as u8];
    bytes.extend((0..12).map(|_| random.below(23) as u8));
    bytes.truncate(random.below(12));
    bytes
}

fn refused_start(random: &mut Random) -> Vec<u8> {
    let mut bytes = whole(random, 60);
    let (v, f) = *random.pick(&[(0u16, 1), (257, 1), (1, 0), (1, 129), (0xFFFF, 255), (512, 0)]);
    bytes[..2].copy_from_slice(&v.to_be_bytes());
    bytes[2] = f;
    bytes
}

fn random_bytes(random: &mut Random) -> Vec<u8> {
    let size = 3 + random.below(80);
    let mut bytes = whole(random, size);
    let count = random.below(60);
    bytes.extend((0..count).map(|_| random.below(256) as u8));
    bytes
}

/// A session with a few bytes changed, left out or put in, or cut short.
fn damaged(random: &mut Random) -> Vec<u8> {
    let size = 60 + random.below(1_500);
    let mut bytes = whole(random, size);
    for _ in 0..1 + random.below(4) {
        let place = 3 + random.below(bytes.len() - 3);
        let byte = random.below(256) as u8;
        match random.below(6) {
            0 => bytes.insert(place, byte),
            1 => drop(bytes.remove(place)),
            2 => bytes.truncate(place),
            3 => bytes[place] ^= 1 << random.below(8),
            4 => bytes[place] = random.below(9) as u8,
            _ => bytes[place] = byte,
        }
        if bytes.len() <= 3 {
            break;
        }
    }
    bytes
}

/// Writes calls and keeps the state that they lead to.
pub struct Author {
    random: Random,
    state: State,
    cells: Vec<u64>,
    tags: Vec<u8>,
    /// The parties that act, 0 to one below this.
    parties: usize,
    mood: Mood,
    written: Vec<u8>,
}

impl Author {
    /// Calls without an end on one state, which has had its start.
    pub fn begin(seed: u64, v: u16, f: u8) -> Author {
        let mut author = Author::new(Random::new(seed), v, f);
        author.written.clear();
        author
    }

    /// The next calls, of `bytes` bytes or at most 600 more.
    pub fn more(&mut self, bytes: usize) -> Vec<u8> {
        self.write_calls(bytes);
        std::mem::take(&mut self.written)
    }

    fn new(mut random: Random, v: u16, f: u8) -> Author {
        let state = State::start(v, f).expect("the generator's sizes are in range");
        let lent = state.pages.lent_cells();
        let parties = *random.pick(&[2, 3, 4, 8]);
        let written = [&v.to_be_bytes()[..], &[f]].concat();
        let (cells, tags) = (vec![0; lent], vec![0; lent]);
        let mood = if random.one_in(10) { Mood::Founding } else { Mood::Settling };
        Author { random, state, cells, tags, parties, mood, written }
    }

    fn write(mut self, bytes: usize) -> Vec<u8> {
        self.write_calls(bytes);
        self.written
    }

    fn write_calls(&mut self, bytes: usize) {
        while self.written.len() < bytes {
            if self.random.one_in(40) {
                self.mood = Mood::any(&mut self.random);
            }
            if self.random.one_in(25) {
                self.begin_revocation();
            }
            let call = match self.random.one_in(8) {
                true => self.call_to_be_refused(),
                false => self.call_to_be_granted(),
            };
            self.make(call);
        }
    }

    fn make(&mut self, call: Call) {
        call.write(&mut self.written);
        let mut memory = Memory { cells: &mut self.cells, tags: &mut self.tags };
        self.state.step(&mut memory, call);
    }

    /// The code that a call would get now. No refusal depends on what memory holds.
    fn code_of(&self, call: Call) -> u8 {
        let lent = self.state.pages.lent_cells();
        let (mut cells, mut tags) = (vec![0; lent], vec![0; lent]);
        let mut memory = Memory { cells: &mut cells, tags: &mut tags };
        self.state.clone().step(&mut memory, call).code
    }

    fn party(&mut self) -> u8 {
        self.random.below(self.parties) as u8
    }
}

#[cfg(test)]
mod tests {
    use super::*;
    use crate::tally::Tally;

    #[test]
    fn sessions_show_every_code_and_most_calls_are_granted() {
        let mut tally = Tally::default();
        (0..400).for_each(|seed| tally.add(&session(seed)));
        for (code, count) in tally.codes.iter().enumerate() {
            // A session lends memory of its own, so refusal 2 cannot come.
            assert_eq!(*count == 0, code == 2, "code {code}: {count}");
        }
        assert!(tally.granted[1..].iter().all(|count| *count > 100));
        assert!(tally.codes[0] * 10 > tally.commands * 7);
        assert!(tally.stored_behind > 100 && tally.stored_ahead > 100 && tally.swept > 100);
        assert!(tally.loaded > 100 && tally.loaded_unpermitted > 100 && tally.loaded_dying > 100);
        assert!(tally.joined_alike > 100 && tally.joined_unlike > 100 && tally.revoked_open > 100);
        assert!(tally.full_tables > 0 && tally.full_mailboxes > 0);
        // All cases but one: no session is long enough for a count of 65,535.
        assert!(
            tally.claims.len() == 26 && tally.claims.values().all(|count| *count > 20),
            "{tally}"
        );
        assert_eq!(tally.deepest, 31);
    }

    #[test]
    fn a_seed_gives_one_session() {
        assert!((0..40).all(|seed| session(seed) == session(seed)));
    }

    #[test]
    fn states_stay_well_formed() {
        for seed in 0..200 {
            let input = session(seed);
            let mut checked = Vec::new();
            crate::plain::session_checked(&input, &mut checked);
            assert_eq!(checked, crate::plain::session(&input), "seed {seed}");
        }
    }
}
