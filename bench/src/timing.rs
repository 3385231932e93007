//! Times of calls.

use std::time::{Duration, Instant};

/// The rounds that the program's first argument asks for, at least one.
pub fn rounds_asked(otherwise: usize) -> usize {
    std::env::args().nth(1).and_then(|word| word.parse().ok()).unwrap_or(otherwise).max(1)
}

/// Microseconds of one call, over as many calls as fill a millisecond.
fn burst(mut call: impl FnMut()) -> f64 {
    let start = Instant::now();
    let mut calls = 0;
    while start.elapsed() < Duration::from_millis(1) {
        call();
        calls += 1;
    }
    start.elapsed().as_secs_f64() * 1e6 / calls as f64
}

/// The best of each program over the rounds. The programs take turns, so that a change of the machine's clock affects
/// all of them.
pub fn measure<const N: usize>(rounds: usize, calls: [&dyn Fn(); N]) -> [f64; N] {
    measure_each(rounds, &calls).try_into().expect("a time for each program")
}

/// The same of any number of programs.
pub fn measure_each(rounds: usize, calls: &[impl Fn()]) -> Vec<f64> {
    let mut best = vec![f64::MAX; calls.len()];
    for _ in 0..rounds {
        for (time, call) in best.iter_mut().zip(calls) {
            *time = time.min(burst(call));
        }
    }
    best
}
