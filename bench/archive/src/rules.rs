//! What each function answers, over slices of every length and content.

use cetomuhi_bench::arrays::{Arrays, ArraysMut, LENGTHS};
use cetomuhi_bench::operands;
use cetomuhi_bench::plain::{Cost, Memory, Refusal, State};

/// Of the boundary that the header describes.
pub const VERSION: u64 = 5;
const ANSWER_NUMBERS: usize = 4;
const CALL_NUMBERS: usize = 7;

const ILL_FORMED: u8 = Refusal::IllFormed as u8;
const ILL_FORMED_TOLD: [u64; ANSWER_NUMBERS] = [ILL_FORMED as u64, 0, 0, 0];

pub fn start(v: u64, f: u64, mut arrays: ArraysMut) -> u8 {
    if !arrays.read().is_sized() {
        return ILL_FORMED;
    }
    let fresh = match (u16::try_from(v), u8::try_from(f)) {
        (Ok(v), Ok(f)) => State::start(v, f),
        _ => Err(Refusal::IllFormed),
    };
    match fresh {
        Ok(state) => {
            arrays.write(&state);
            0
        }
        Err(refusal) => {
            arrays.clear();
            refusal as u8
        }
    }
}

pub fn well_formed(arrays: Arrays) -> bool {
    arrays.plain().is_some_and(|state| state.is_well_formed())
}

pub fn page_cost(arrays: Arrays, page: u64) -> Cost {
    match arrays.plain() {
        Some(state) => state.page_cost(page),
        None => Refusal::IllFormed.into(),
    }
}

pub fn command(
    mut arrays: ArraysMut,
    mut memory: Memory,
    input: &[u8],
    at: usize,
    answers: &mut [u64],
) -> usize {
    let Some(told) = answers.first_chunk_mut::<ANSWER_NUMBERS>() else { return 0 };
    *told = ILL_FORMED_TOLD;
    if let Some(mut state) = arrays.read().plain() {
        let (answer, used) = state.command(&mut memory, input, at);
        *told = answer.numbers(used);
        write_back(&mut arrays, &state, *told);
    }
    1
}

/// How many commands are answered, and the place behind the last.
pub fn commands(
    mut arrays: ArraysMut,
    mut memory: Memory,
    input: &[u8],
    at: usize,
    answers: &mut [u64],
) -> (usize, usize) {
    let is_idle = at >= input.len();
    let Some(mut state) = arrays.read().plain() else {
        return match answers.first_chunk_mut() {
            Some(told) if !is_idle => {
                *told = ILL_FORMED_TOLD;
                (1, at)
            }
            _ => (0, at),
        };
    };
    let done = state.commands(&mut memory, input, at, answers);
    if let Some(told) = answers.first_chunk().filter(|_| !is_idle) {
        write_back(&mut arrays, &state, *told);
    }
    done
}

/// An ill-formed state may have bytes that no plain state has, so that its arrays are not written.
fn write_back(arrays: &mut ArraysMut, state: &State, told: [u64; ANSWER_NUMBERS]) {
    if told != ILL_FORMED_TOLD {
        arrays.write(state);
    }
}

pub fn write(numbers: &[u64], out: &mut [u8]) -> usize {
    let Some(bytes) = operands::bytes(numbers) else { return 0 };
    let Some(first) = out.get_mut(..bytes.len()) else { return 0 };
    first.copy_from_slice(&bytes);
    bytes.len()
}

pub fn read(input: &[u8], at: usize, numbers: &mut [u64]) -> usize {
    let Ok(numbers) = <&mut [u64; CALL_NUMBERS]>::try_from(numbers) else { return 0 };
    match input.get(at..).and_then(operands::numbers) {
        Some((read, length)) => {
            *numbers = read;
            length
        }
        None => 0,
    }
}

pub fn size(which: u64) -> usize {
    let others = [ANSWER_NUMBERS, CALL_NUMBERS];
    let place = usize::try_from(which).ok();
    place.and_then(|place| LENGTHS.iter().chain(&others).nth(place).copied()).unwrap_or(0)
}
