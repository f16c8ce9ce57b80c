//! States, lengths and bytes of all sorts, most of them wrong in one place.

use crate::generate::{Author, Random};
use crate::lent::{written, Lent};
use crate::operands;
use crate::plain::claims::PRINCIPALS;
use crate::plain::table::{NOBODY, ROWS, SEVERAL};
use crate::plain::{read, Action, Call, Memory, State, KINDS};

/// Well-formed states of several sizes with their memory, from generated calls.
pub fn sound_states(random: &mut Random, count: usize) -> Vec<Lent> {
    (0..count).map(|_| sound_state(random)).collect()
}

fn sound_state(random: &mut Random) -> Lent {
    let v = *random.pick(&[1, 2, 3, 5, 16, 64, 256]);
    let f = *random.pick(&[1, 1, 2, 3, 4, 16, 128]);
    let mut state = State::start(v, f).expect("V and F are in range");
    let lent = state.pages.lent_cells();
    let mut cells: Vec<u64> = (0..lent).map(|_| random.number()).collect();
    let mut tags: Vec<u8> = (0..lent).map(|_| random.number() as u8).collect();
    let bytes = random.below(1_500);
    let input = Author::begin(random.number(), v, f).more(bytes);
    let mut rest = &input[..];
    while let Some((call, used)) = read(rest) {
        state.step(&mut Memory { cells: &mut cells, tags: &mut tags }, call);
        rest = &rest[used..];
    }
    let mut memory = Memory { cells: &mut cells, tags: &mut tags };
    if random.one_in(4) {
        found(random, &mut state, &mut memory);
        share(random, &mut state, &mut memory);
    }
    Lent::of(&written(&state), &cells, &tags)
}

/// Creates principals with all numbers that are left, each below the one before.
fn found(random: &mut Random, state: &mut State, memory: &mut Memory) {
    let mut numbers: Vec<u8> = (0..PRINCIPALS as u8).collect();
    (1..PRINCIPALS).for_each(|place| numbers.swap(place, 1 + random.below(place)));
    let mut parent = 0;
    for child in numbers {
        let Some(payer) = state.claims.principal(parent) else { break };
        let (holder, limit) = (random.below(8) as u8, payer.unspent - payer.unspent.min(3));
        let create = Action::Create { parent, child, limit, holder };
        let answer = state.step(memory, Call { party: payer.holder, action: create });
        parent = if answer.code == 0 { child } else { parent };
    }
}

/// Has any number of principals, up to all, claim one page as far as they may, some of them twice.
fn share(random: &mut Random, state: &mut State, memory: &mut Memory) {
    let page = random.below(state.pages.pages().len()) as u8;
    let in_being: Vec<_> = state.claims.principals().collect();
    for (principal, entry) in in_being.iter().take(random.below(PRINCIPALS + 1)) {
        let (party, principal) = (entry.holder, *principal);
        for _ in 0..1 + random.below(2) {
            state.step(memory, Call { party, action: Action::Claim { principal, page } });
        }
    }
}

/// A sound one, one with a few entries changed, one with an array of another length, one with other
/// takers or claims, or noise.
pub fn state(random: &mut Random, sound: &[Lent]) -> Lent {
    let mut lent = random.pick(sound).clone();
    match random.below(10) {
        0 => noise(random, &mut lent),
        1 | 2 => (0..1 + random.below(3)).for_each(|_| change(random, &mut lent)),
        3 => resize(random, &mut lent),
        4 => retake(random, &mut lent),
        5 => reclaim(random, &mut lent),
        _ => {}
    }
    lent
}

fn noise(random: &mut Random, lent: &mut Lent) {
    for which in 0..12 {
        let length = random.below(70);
        set_length(which, length, lent);
    }
    (0..200).for_each(|_| change(random, lent));
}

fn resize(random: &mut Random, lent: &mut Lent) {
    let which = random.below(12);
    let length = lengths(lent)[which];
    let other = *random.pick(&[0, 1, length.saturating_sub(1), length + 1, 2 * length, 300]);
    set_length(which, other, lent);
}

fn lengths(lent: &Lent) -> [usize; 12] {
    [
        lent.numbers.len(),
        lent.words.len(),
        lent.marks.len(),
        lent.mail.len(),
        lent.flags.len(),
        lent.rows.len(),
        lent.pages.len(),
        lent.frames.len(),
        lent.principals.len(),
        lent.counts.len(),
        lent.cells.len(),
        lent.tags.len(),
    ]
}

fn set_length(which: usize, length: usize, lent: &mut Lent) {
    match which {
        0 => cut(&mut lent.numbers, length),
        1 => cut(&mut lent.words, length),
        2 => cut(&mut lent.marks, length),
        3 => cut(&mut lent.mail, length),
        4 => cut(&mut lent.flags, length),
        5 => cut(&mut lent.rows, length),
        6 => cut(&mut lent.pages, length),
        7 => cut(&mut lent.frames, length),
        8 => cut(&mut lent.principals, length),
        9 => cut(&mut lent.counts, length),
        10 => cut(&mut lent.cells, length),
        _ => cut(&mut lent.tags, length),
    }
}

fn cut<T: Copy + Default>(array: &mut Box<[T]>, length: usize) {
    let mut entries = array.to_vec();
    entries.resize(length, T::default());
    *array = entries.into();
}

/// Gives a sound state's Taken and Revoking rows any takers that they may have, which no history
/// need have given them; often one row, used or not, a taker that it may not have.
fn retake(random: &mut Random, lent: &mut Lent) {
    let is_open = |row: u64| row >> 32 & 255 == 0;
    for row in lent.rows.iter_mut().filter(|row| !is_open(**row)) {
        *row = with_taker(*row, random.below(1 + usize::from(SEVERAL)) as u8);
    }
    if random.one_in(2) {
        let used = usize::from(lent.numbers[2]);
        let row = &mut lent.rows[random.below((used + 1).min(ROWS))];
        *row = other_taker(random, *row);
    }
}

/// The row with a taker about the ends of those that fit.
fn other_taker(random: &mut Random, row: u64) -> u64 {
    with_taker(row, *random.pick(&[0, 1, 7, SEVERAL, NOBODY, 10, 255]))
}

fn with_taker(row: u64, taker: u8) -> u64 {
    row & !(255 << 48) | u64::from(taker) << 48
}

/// Gives a sound state's claims other counts, up to the largest, which a long history could have
/// made; often one principal another number, and often the parent then what makes up for it.
fn reclaim(random: &mut Random, lent: &mut Lent) {
    for count in lent.counts.iter_mut().filter(|count| **count > 0) {
        let any = random.number() as u16;
        *count = *random.pick(&[1, 2, u16::MAX - 1, u16::MAX, any.max(1)]);
    }
    if random.one_in(2) {
        let at = random.below(PRINCIPALS);
        let before = lent.principals[at];
        lent.principals[at] = other_principal(random, before);
        let paid = (lent.principals[at] & 0xFFFF).wrapping_sub(before & 0xFFFF);
        lent.principals[0] = lent.principals[0].wrapping_sub(paid);
    }
    if random.one_in(3) {
        let at = random.below(lent.counts.len());
        lent.counts[at] = random.below(3) as u16;
    }
}

/// A principal in being or not, with another parent, holder or part unspent, or another bit.
fn other_principal(random: &mut Random, entry: u64) -> u64 {
    let below = |random: &mut Random, limit, place| (random.below(limit) as u64) << place;
    match random.below(6) {
        0 => entry & !(255 << 16) | below(random, 34, 16),
        1 => entry & !(255 << 24) | below(random, 10, 24),
        2 => entry & !0xFFFF | below(random, 20, 0),
        3 => entry ^ 1 << 32,
        4 => 0,
        _ => entry ^ 1 << random.below(64),
    }
}

/// One entry of one array becomes another number, small or any.
fn change(random: &mut Random, lent: &mut Lent) {
    let which = random.below(12);
    let length = lengths(lent)[which];
    if length == 0 {
        return;
    }
    // The first entries are in use.
    let most = if random.one_in(2) { length.min(4) } else { length };
    let at = random.below(most);
    let number = match random.below(4) {
        0 => random.number(),
        1 => u64::MAX,
        _ => random.below(260) as u64,
    };
    match which {
        0 => lent.numbers[at] = number as u16,
        1 => lent.words[at] = number,
        2 => lent.marks[at] = number as u8,
        3 => lent.mail[at] = number,
        4 => lent.flags[at] = number as u8,
        5 => lent.rows[at] = other_row(random, lent.rows[at]),
        6 => lent.pages[at] = number as u16,
        7 => lent.frames[at] = number as u8,
        8 => lent.principals[at] = other_principal(random, lent.principals[at]),
        9 => lent.counts[at] = number as u16,
        10 => lent.cells[at] = number,
        _ => lent.tags[at] = number as u8,
    }
}

/// A row with another taker, holder, state, length or base, or another bit.
fn other_row(random: &mut Random, row: u64) -> u64 {
    let below = |random: &mut Random, limit, place| (random.below(limit) as u64) << place;
    match random.below(6) {
        0 => other_taker(random, row),
        1 => row & !(255 << 40) | below(random, 10, 40),
        2 => row & !(255 << 32) | below(random, 4, 32),
        3 => row & !(0xFFFF << 16) | below(random, 40, 16),
        4 => row & !0xFFFF | below(random, 40, 0),
        _ => row ^ 1 << random.below(64),
    }
}

/// A few commands, most of whose operands the state may grant, or some forty bytes of any sort.
pub fn bytes(random: &mut Random, lent: &Lent) -> Box<[u8]> {
    if random.one_in(3) {
        let below = *random.pick(&[4, KINDS + 1, 64, 256]);
        let count = random.below(40);
        return (0..count).map(|_| random.below(below) as u8).collect();
    }
    let count = random.below(8);
    let commands = (0..count).flat_map(|_| likely_command(random, lent));
    let mut bytes: Vec<u8> = commands.collect();
    if random.one_in(8) {
        bytes.truncate(random.below(bytes.len() + 1));
    }
    bytes.into()
}

/// A command by the holder of a reservation on it, or by any party on small numbers.
fn likely_command(random: &mut Random, lent: &Lent) -> Vec<u8> {
    let rows = 1 + random.below(lent.numbers.get(2).map_or(1, |count| 1 + *count as usize));
    let row = lent.rows.get(random.below(rows)).copied().unwrap_or(0);
    let command = 1 + random.below(KINDS) as u64;
    let mut numbers = [command, 0, 0, 0, 0, 0, 0];
    match command {
        0x12.. => return claiming_command(random, lent, command),
        0x01..=0x05 | 0x11 => {
            numbers[1] = row >> 40 & 255;
            numbers[2] = row & 0xFFFF;
            let has_third = matches!(command, 1 | 2 | 4 | 0x11);
            numbers[3] = if has_third { random.below(8) as u64 } else { 0 };
            numbers[4] = if command == 0x11 { random.below(256) as u64 } else { 0 };
        }
        0x06..=0x0A => {
            let most = usize::from(lent.numbers.first().copied().unwrap_or(8)).min(255) + 1;
            numbers[2] = if command == 7 { 0 } else { random.below(most) as u64 };
            numbers[3] = if command == 8 { random.below(4) as u64 } else { 0 };
        }
        _ => {
            numbers[1] = random.below(4) as u64;
            let count = [3, 3, 5, 2, 2, 1][command as usize - 0x0B];
            numbers[2..2 + count].fill_with(|| random.below(8) as u64);
        }
    }
    operands::bytes(&numbers).unwrap_or_default()
}

/// A command on a principal, mostly by its holder or its parent's, on a page that it may claim.
fn claiming_command(random: &mut Random, lent: &Lent, command: u64) -> Vec<u8> {
    let entry = |number: u64| lent.principals.get(number as usize).copied().unwrap_or(0);
    let holder = |number| entry(number) >> 24 & 255;
    let in_being = (0..32).filter(|number| entry(*number) >> 32 == 1);
    let principal = match random.one_in(8) {
        true => random.below(34) as u64,
        false => random.pick_any(in_being).unwrap_or(0),
    };
    let has_say = if command == 0x15 { entry(principal) >> 16 & 255 } else { principal };
    let party = if random.one_in(6) { random.below(9) as u64 } else { holder(has_say) };
    let counts = lent.counts.chunks(256).nth(principal as usize).unwrap_or(&[]);
    let counted = (0..).zip(counts).filter(|(_, count)| **count > 0).map(|(page, _)| page);
    let page = match random.one_in(3) {
        true => random.below(6) as u64,
        false => random.pick_any(counted).unwrap_or(0),
    };
    let unspent = (entry(principal) & 0xFFFF) as usize;
    let some = random.below(unspent + 1);
    let limit = *random.pick(&[0, some, unspent, unspent + 1]) as u64;
    let child = random.below(33) as u64;
    let numbers = match command {
        0x12 => [command, party, principal, child, limit, random.below(9) as u64, 0],
        0x15 => [command, party, principal, 0, 0, 0, 0],
        _ => [command, party, principal, page, 0, 0, 0],
    };
    operands::bytes(&numbers).unwrap_or_default()
}

/// An input's beginning, a place in it, its end, or one beyond.
pub fn place(random: &mut Random, length: usize) -> usize {
    match random.below(16) {
        0 => length,
        1 => length + 1 + random.below(3),
        2 => random.number() as usize,
        3 => usize::MAX - random.below(16),
        4 | 5 => random.below(length + 1),
        _ => 0,
    }
}

/// A page that is claimed, any page, the last one, V, or a number beyond, which may end in the bits
/// of a page.
pub fn page(random: &mut Random, lent: &Lent) -> u64 {
    let v = lent.numbers.first().map_or(4, |v| u64::from(*v));
    let any = random.below(1 + v as usize) as u64;
    let claimed = (0..).zip(&lent.counts).filter(|(_, count)| **count > 0);
    match random.below(8) {
        0 => v,
        1 => v.wrapping_sub(1),
        2 => any + *random.pick(&[256, 1 << 16, 1 << 32, u64::MAX - 65_535]),
        3 => random.number(),
        4 | 5 => any,
        _ => random.pick_any(claimed).map_or(any, |(place, _): (u64, _)| place % 256),
    }
}

/// Seven numbers, or some other count of them; mostly a call.
pub fn call_numbers(random: &mut Random) -> Box<[u64]> {
    let count = if random.one_in(8) { random.below(12) } else { 7 };
    let limit = *random.pick(&[8, 256, 300, 65_540]);
    let operands = random.below(7);
    let number = |place| match place {
        0 => random.below(23) as u64,
        _ if random.one_in(40) => random.number(),
        _ if place <= operands => random.below(limit) as u64,
        _ => 0,
    };
    (0..count).map(number).collect()
}

#[cfg(test)]
mod tests {
    use super::*;
    use crate::plain::claims::Claims;
    use crate::plain::table::{Reservation, Standing};

    /// The states that are well formed, and how many `mend` makes so.
    fn sorted(random: &mut Random, mend: fn(&mut State)) -> (Vec<State>, usize) {
        let sound = sound_states(random, 100);
        let (mut formed, mut mended) = (Vec::new(), 0);
        for _ in 0..6_000 {
            let Some(mut state) = state(random, &sound).plain() else { continue };
            if state.is_well_formed() {
                formed.push(state);
            } else {
                mend(&mut state);
                mended += usize::from(state.is_well_formed());
            }
        }
        (formed, mended)
    }

    #[test]
    fn odd_states_have_takers_of_all_sorts() {
        let (formed, ill_taken) = sorted(&mut Random::new(5), |state| {
            for index in 0..state.table.rows().len() {
                let row = state.table.row(index);
                row.taker = if row.standing == Standing::Open { NOBODY } else { 0 };
            }
        });
        assert!(formed.len() > 2_000 && ill_taken > 100, "{} {ill_taken}", formed.len());
        let rows = || formed.iter().flat_map(|state| state.table.rows().iter().copied());
        for standing in [Standing::Taken, Standing::Revoking] {
            for taker in 0..=SEVERAL {
                let is_such = |row: Reservation| (row.standing, row.taker) == (standing, taker);
                assert!(rows().any(is_such), "{standing:?}, taker {taker}");
            }
        }
    }

    #[test]
    fn odd_states_have_claims_of_all_sorts() {
        let mend: fn(&mut State) = |state| state.claims = Claims::fresh();
        let (formed, ill_claimed) = sorted(&mut Random::new(6), mend);
        assert!(formed.len() > 2_000 && ill_claimed > 200, "{} {ill_claimed}", formed.len());
        let counted = |state: &State, most| {
            let counts = |number| state.claims.counts(number).iter();
            (0..32).any(|number| counts(number).any(|count| *count == most))
        };
        for most in [1, 2, u16::MAX - 1, u16::MAX] {
            assert!(formed.iter().filter(|state| counted(state, most)).count() > 20, "{most}");
        }
        let all_in_being = |state: &&State| state.claims.principals().count() == PRINCIPALS;
        assert!(formed.iter().filter(all_in_being).count() > 100);
        let most_claimants = |state: &State| {
            let pages = 0..state.pages.pages().len();
            pages.map(|page| state.claims.claimants(page)).max().unwrap_or(0)
        };
        assert!(formed.iter().filter(|state| most_claimants(state) > 16).count() > 100);
    }
}
