//! The fastest of many runs, and the processor's time stamp counter.

use std::time::{Duration, Instant};

/// For each of the runs its fastest time in seconds. They take turns, so that what else the machine
/// does falls on all of them alike.
pub fn fastest(runs: &mut [&mut dyn FnMut()], budget: Duration) -> Vec<f64> {
    let mut best = vec![f64::INFINITY; runs.len()];
    let begin = Instant::now();
    let mut rounds = 0;
    while rounds < 3 || begin.elapsed() < budget {
        for (run, best) in runs.iter_mut().zip(&mut best) {
            let start = Instant::now();
            run();
            *best = best.min(start.elapsed().as_secs_f64());
        }
        rounds += 1;
    }
    best
}

/// Ticks of the time stamp counter in a second, where there is one.
#[cfg(target_arch = "x86_64")]
pub fn ticks_a_second() -> Option<f64> {
    let ticks = || unsafe { core::arch::x86_64::_rdtsc() };
    let (start, first) = (Instant::now(), ticks());
    while start.elapsed() < Duration::from_millis(50) {
        std::hint::spin_loop();
    }
    let (seconds, passed) = (start.elapsed().as_secs_f64(), ticks().checked_sub(first)?);
    (passed > 0).then_some(passed as f64 / seconds)
}

#[cfg(not(target_arch = "x86_64"))]
pub fn ticks_a_second() -> Option<f64> {
    None
}
