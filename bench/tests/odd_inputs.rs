//! Inputs that no session has: too short, too long, random bytes. The proved libraries against the
//! plain implementation.

#![cfg(feature = "proved")]

use cetomuhi_bench::generate::Random;
use cetomuhi_bench::plain;
use cetomuhi_bench::proved::{session, session_checked, LINES_LIMIT};

fn agree(input: &[u8]) {
    let expected = plain::session(input);
    for run in [session, session_checked] {
        let mut lines = vec![0; LINES_LIMIT];
        let written = run(input, &mut lines).expect("the buffer holds all lines");
        assert_eq!(lines[..written], expected, "{} bytes", input.len());
    }
}

#[test]
fn starts_of_every_length() {
    for length in 0..=4 {
        for byte in 0..=255 {
            agree(&[0, byte, byte, byte][..length]);
            agree(&[byte, 1, 1, 0x07][..length]);
        }
    }
}

#[test]
fn lengths_about_the_limit() {
    let numbers = [14, 0, 1, 0, 0, 0, 0, 0, 0, 0, 255].repeat(4_000);
    let collects = [7, 0].repeat(20_000);
    for calls in [numbers, collects] {
        let input = [&[0, 16, 16][..], &calls].concat();
        for length in [32_766, 32_767, 32_768, 32_769, 40_000] {
            agree(&input[..length]);
        }
    }
}

#[test]
fn random_bytes() {
    let mut random = Random::new(11);
    for _ in 0..2_000 {
        let mut input = vec![0, random.below(256) as u8, random.below(140) as u8];
        let small = *random.pick(&[23, 23, 23, 256]);
        let length = random.below(300);
        input.extend((0..length).map(|_| random.below(small) as u8));
        agree(&input);
    }
}
