//! Calls and bytes: each undoes the other.

mod widths;

use cetomuhi::{raw, Call, Refusal, CALL_NUMBERS, LONGEST};
use std::collections::HashSet;
use widths::WIDTHS;

/// Calls of every kind: bytes 0, bytes 255, and bytes that all differ.
fn inputs() -> Vec<(Vec<u8>, usize)> {
    let mut inputs = Vec::new();
    for (command, widths) in (1..).zip(WIDTHS) {
        let length = 1 + widths.iter().sum::<usize>();
        for operand in [|_| 0, |_| 255, |place: u8| 17 * place + 3] {
            let operands = (1..LONGEST as u8).map(operand);
            inputs.push(([command].into_iter().chain(operands).collect(), length));
        }
    }
    inputs
}

#[test]
fn what_is_read_is_written_as_it_was() {
    for (input, length) in inputs() {
        let (call, used) = Call::read(&input, 0).expect("a whole command");
        assert_eq!((call.bytes(), used), (input[..length].to_vec(), length), "{call}");
        assert_eq!(Call::read(&input[..length], 0), Ok((call, length)));
        assert_eq!(Call::read(&input[..length - 1], 0), Err(Refusal::NoCommand));
        assert_eq!(Call::of(call.numbers()), Some(call));
    }
}

#[test]
fn a_command_is_read_from_its_place() {
    let (mut queue, mut places) = (vec![0xFF], Vec::new());
    let calls = inputs().into_iter().map(|(input, _)| Call::read(&input, 0).expect("whole").0);
    let calls: Vec<Call> = calls.collect();
    for call in &calls {
        places.push(queue.len());
        call.append(&mut queue);
    }
    for (call, at) in calls.iter().zip(places) {
        assert_eq!(Call::read(&queue, at).expect("whole").0, *call);
    }
    for at in [0, queue.len(), queue.len() + 1, usize::MAX] {
        assert_eq!(Call::read(&queue, at), Err(Refusal::NoCommand), "place {at}");
    }
}

#[test]
fn a_buffer_keeps_what_the_call_leaves() {
    for (input, length) in inputs() {
        let (call, _) = Call::read(&input, 0).expect("a whole command");
        let mut out = [0xA5; LONGEST + 3];
        assert_eq!(call.write(&mut out), Ok(length));
        assert!(out[..length] == input[..length] && out[length..].iter().all(|byte| *byte == 0xA5));
        let mut short = vec![0xA5; length - 1];
        assert_eq!(call.write(&mut short), Err(Refusal::NoCommand));
        assert!(short.iter().all(|byte| *byte == 0xA5));
    }
}

#[test]
fn numbers_that_are_no_call_are_not_written() {
    let mut out = [0xA5; LONGEST];
    let mut is_refused = |numbers: &[u64]| {
        assert_eq!(raw::write(numbers, &mut out), 0, "{numbers:?}");
        assert_eq!(out, [0xA5; LONGEST]);
    };
    let collect = [7, 0, 0, 0, 0, 0, 0];
    is_refused(&collect[..6]);
    is_refused(&[7, 0, 0, 0, 0, 0, 0, 0]);
    is_refused(&[]);
    let past = WIDTHS.len() as u64 + 1;
    for (place, number) in [(0, 0), (0, past), (0, 263), (1, 256), (2, 1), (6, 1), (1, u64::MAX)] {
        let mut numbers = collect;
        numbers[place] = number;
        is_refused(&numbers);
        assert_eq!(Call::of(numbers), None);
    }
    is_refused(&[1, 0, 65_536, 0, 0, 0, 0]);
    is_refused(&[13, 1, 1, 1, 1, 256, 1]);
    is_refused(&[17, 1, 1, 1, 256, 0, 0]);
    is_refused(&[17, 1, 1, 1, 1, 1, 0]);
    is_refused(&[18, 1, 1, 1, 65_536, 1, 0]);
    is_refused(&[18, 1, 1, 1, 1, 1, 1]);
    is_refused(&[19, 1, 1, 256, 0, 0, 0]);
    is_refused(&[21, 1, 1, 1, 0, 0, 0]);
}

#[test]
fn reading_into_another_count_of_numbers_writes_nothing() {
    for room in [0, CALL_NUMBERS - 1, CALL_NUMBERS + 1] {
        let mut numbers = vec![9; room];
        assert_eq!(raw::read(&[7, 0], 0, &mut numbers), 0);
        assert!(numbers.iter().all(|number| *number == 9));
    }
    let mut numbers = [9; CALL_NUMBERS];
    assert_eq!(raw::read(&[7], 0, &mut numbers), 0);
    assert_eq!(numbers, [9; CALL_NUMBERS]);
}

#[test]
fn calls_in_words_differ() {
    let calls = inputs().into_iter().map(|(input, _)| Call::read(&input, 0).expect("whole").0);
    let words: HashSet<String> = calls.map(|call| call.to_string()).collect();
    assert_eq!(words.len(), inputs().len());
    let words = Call::read(&[0x0D, 1, 2, 0, 3, 0, 4, 5, 6], 0).expect("whole").0.to_string();
    assert_eq!(
        words,
        "party 1 narrows register 2 to 4 cells from offset 3 on, permissions 5, into register 6"
    );
    let words = Call::read(&[0x11, 3, 0, 0, 0, 15], 0).expect("whole").0.to_string();
    assert_eq!(words, "party 3 takes the reservation at cell 0 into register 0 with mask 15");
    let words = Call::read(&[0x12, 1, 2, 3, 4, 5, 6], 0).expect("whole").0.to_string();
    assert_eq!(words, "party 1 creates principal 3 below principal 2 with limit 1029 for party 6");
}
