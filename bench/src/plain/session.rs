//! A whole session: input bytes to printed lines.

use super::answer::{Answer, Refusal};
use super::call::read;
use super::state::{Memory, State};

/// A session looks at no byte beyond these.
pub const INPUT_LIMIT: usize = 32_768;

/// The lines of a session.
pub fn session(input: &[u8]) -> Vec<u8> {
    let mut lines = Vec::new();
    session_into(input, &mut lines);
    lines
}

/// Appends the lines of a session. The state is known to be well formed, so no call tests it.
pub fn session_into(input: &[u8], lines: &mut Vec<u8>) {
    run(input, lines, |state, memory, input, place| match read(&input[place..]) {
        Some((call, used)) => (state.step(memory, call), used),
        None => (Refusal::NoCommand.into(), 0),
    });
}

/// Appends the same lines, with well-formedness and lent lengths tested at every call.
pub fn session_checked(input: &[u8], lines: &mut Vec<u8>) {
    run(input, lines, State::command);
}

fn run(
    input: &[u8],
    lines: &mut Vec<u8>,
    command: impl Fn(&mut State, &mut Memory, &[u8], usize) -> (Answer, usize),
) {
    let input = &input[..input.len().min(INPUT_LIMIT)];
    let started = started(input);
    let answer = started.as_ref().map_or_else(|refusal| (*refusal).into(), |_| Answer::default());
    write_line(answer, lines);
    let Ok(mut state) = started else { return };
    let lent = state.pages.lent_cells();
    let (mut cells, mut tags) = (vec![0; lent], vec![0; lent]);
    let mut memory = Memory { cells: &mut cells, tags: &mut tags };
    let mut place = 3;
    while place < input.len() {
        let (answer, used) = command(&mut state, &mut memory, input, place);
        write_line(answer, lines);
        if used == 0 {
            return;
        }
        place += used;
    }
}

fn started(input: &[u8]) -> Result<State, Refusal> {
    match *input {
        [v1, v0, f, ..] => State::start(u16::from_be_bytes([v1, v0]), f),
        _ => Err(Refusal::IllFormed),
    }
}

/// Appends `code number tag` in decimal and a newline.
pub fn write_line(answer: Answer, lines: &mut Vec<u8>) {
    let tag = b'0' + u8::from(answer.tag);
    if answer.code < 10 && answer.number < 10 {
        let number = b'0' + answer.number as u8;
        lines.extend_from_slice(&[b'0' + answer.code, b' ', number, b' ', tag, b'\n']);
        return;
    }
    write_decimal(answer.code.into(), lines);
    lines.push(b' ');
    write_decimal(answer.number, lines);
    lines.extend_from_slice(&[b' ', tag, b'\n']);
}

fn write_decimal(mut number: u64, lines: &mut Vec<u8>) {
    let mut digits = [0; 20];
    let mut first = digits.len();
    while number >= 100 {
        first -= 2;
        digits[first..first + 2].copy_from_slice(&PAIRS[(number % 100) as usize]);
        number /= 100;
    }
    let pair = PAIRS[number as usize];
    first -= 2;
    digits[first..first + 2].copy_from_slice(&pair);
    first += usize::from(number < 10);
    lines.extend_from_slice(&digits[first..]);
}

/// The two digits of each number below 100.
const PAIRS: [[u8; 2]; 100] = {
    let mut pairs = [[0; 2]; 100];
    let mut number = 0;
    while number < 100 {
        pairs[number] = [b'0' + (number / 10) as u8, b'0' + (number % 10) as u8];
        number += 1;
    }
    pairs
};

#[cfg(test)]
mod tests {
    use super::*;

    #[test]
    fn numbers_are_written_in_decimal() {
        let powers = (0..20).map(|digits| 10u64.pow(digits));
        for number in powers.flat_map(|power| [power - 1, power, power + 1]) {
            let mut line = Vec::new();
            write_line(Answer { code: 19, number, tag: true }, &mut line);
            assert_eq!(String::from_utf8(line).unwrap(), format!("19 {number} 1\n"));
        }
        let mut line = Vec::new();
        write_line(Answer { code: 0, number: u64::MAX, tag: false }, &mut line);
        assert_eq!(line, b"0 18446744073709551615 0\n");
    }
}
