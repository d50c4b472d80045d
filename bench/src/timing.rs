//! Times in nanoseconds, and the goals for their ratios.
use std::time::Instant;

/// Of a proved call or copy to the plain Rust one.
pub const TO_RUST: f64 = 0.95;
/// The same of the check of an image.
pub const IMAGE_TO_RUST: f64 = 1.05;
/// Of a copy to the checks that its calls must make.
pub const TO_CHECKS: f64 = 1.3;
/// The same of a copy by bursts of 64 steps.
pub const BURSTS_TO_CHECKS: f64 = 1.5;

/// A ratio, starred if it is above its goal.
pub fn shown(ratio: f64, goal: f64) -> String {
    format!("{ratio:.2}{}", if ratio > goal { "*" } else { " " })
}

/// The time of one of so many runs.
pub fn each(times: usize, mut f: impl FnMut()) -> f64 {
    let start = Instant::now();
    for _ in 0..times {
        f();
    }
    start.elapsed().as_nanos() as f64 / times as f64
}

/// What one f takes, with the reading of the clock.
pub fn once(f: impl FnOnce()) -> f64 {
    let start = Instant::now();
    f();
    start.elapsed().as_nanos() as f64
}

/// What reading the clock adds to `once`.
pub fn clock() -> f64 {
    (0..1000).map(|_| (0..20).map(|_| once(|| ())).sum::<f64>() / 20.0).fold(f64::MAX, f64::min)
}
