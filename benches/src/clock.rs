//! Timing: the best of several rounds, because what disturbs a round only makes it longer.

use std::time::{Duration, Instant};

/// Nanoseconds that one pass takes.
pub fn nanoseconds(mut pass: impl FnMut()) -> f64 {
    let mut best = f64::MAX;
    for _ in 0..5 {
        let start = Instant::now();
        let mut passes = 0;
        while start.elapsed() < Duration::from_millis(20) {
            pass();
            passes += 1;
        }
        best = best.min(start.elapsed().as_nanos() as f64 / f64::from(passes));
    }
    best
}
