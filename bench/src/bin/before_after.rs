//! Prints, in one run on the same inputs, how fast each kind of call was with an earlier commit's
//! session library and is now, beside the plain machine.

use cetomuhi_bench::plain;
use cetomuhi_bench::proved::{session, LINES_LIMIT};
use cetomuhi_bench::tally::Tally;
use cetomuhi_bench::timing::fastest;
use cetomuhi_bench::workloads::kinds;
use std::hint::black_box;
use std::time::Duration;

extern "C" {
    fn before_session(input: *const u8, input_len: usize, out: *mut u8, out_len: usize) -> usize;
}

fn main() {
    println!("Nanoseconds a call, one or a few kinds over and over, V 16 and F 16:\n");
    println!("| | plain | before | now | before / now |");
    println!("|---|---:|---:|---:|---:|");
    for (name, input) in kinds() {
        let [plain, before, now] = time(&input);
        match is_known(&input) {
            true => {
                println!("| {name} | {plain:.2} | {before:.2} | {now:.2} | {:.2} |", before / now)
            }
            false => println!("| {name} | {plain:.2} | – | {now:.2} | – |"),
        }
    }
}

/// Whether the earlier library has all commands of a session, whose calls are all granted: one that
/// it does not have ends the session under refusal 3.
fn is_known(input: &[u8]) -> bool {
    let mut lines = vec![0; LINES_LIMIT];
    let printed = before(input, &mut lines);
    !lines[..printed].ends_with(b"\n3 0 0\n")
}

/// Nanoseconds a call of the three, which take turns and must print the same; of the earlier one only
/// if it has the commands.
fn time(input: &[u8]) -> [f64; 3] {
    let mut tally = Tally::default();
    tally.add(input);
    let (mut lines, mut earlier, mut later) =
        (Vec::new(), vec![0; LINES_LIMIT], vec![0; LINES_LIMIT]);
    plain::session_into(input, &mut lines);
    let printed = [before(input, &mut earlier), session(input, &mut later).unwrap_or(0)];
    let same = [&earlier, &later].map(|buffer| buffer[..lines.len()] == lines);
    assert!(printed[1] == lines.len() && same[1], "the two print different lines: run compare");
    let earlier_agrees = printed[0] == lines.len() && same[0];
    assert!(earlier_agrees || !is_known(input), "the earlier one prints other lines");
    let mut run_plain = || {
        lines.clear();
        plain::session_into(black_box(input), &mut lines);
        black_box(&lines);
    };
    let mut run_before = || {
        black_box(before(black_box(input), &mut earlier));
    };
    let mut run_now = || {
        black_box(session(black_box(input), &mut later));
    };
    let runs: &mut [&mut dyn FnMut()] = &mut [&mut run_plain, &mut run_before, &mut run_now];
    let best = fastest(runs, Duration::from_millis(600));
    [0, 1, 2].map(|which| best[which] * 1e9 / tally.commands as f64)
}

/// The lines of a session by the earlier library, put first in `out`, and their length.
fn before(input: &[u8], out: &mut [u8]) -> usize {
    // SAFETY: both pointers are those of live slices with their lengths, which do not overlap.
    unsafe { before_session(input.as_ptr(), input.len(), out.as_mut_ptr(), out.len()) }
}
