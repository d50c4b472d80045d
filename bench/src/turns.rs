//! The dealer of a charging case: the proved call beside plain Rust on all masks, and the time of a turn.
use crate::timing::{each, shown, TO_RUST};
use bench::proved::Proved;
use bench::side::{Answer, Plain, Side};
use std::hint::black_box;

/// What a turn answers, and its counts, which hold something else before.
fn turn<S: Side>(running: u16, steps: usize, last: usize) -> (Answer, [u8; 16]) {
    let mut counts = [170; 16];
    (S::deal(running, steps, last, &mut counts), counts)
}

/// Turns with so many steps after each bay in turn.
fn time<S: Side>(running: u16, steps: usize) -> f64 {
    let mut last = 0;
    let mut counts = [0; 16];
    each(2000, || {
        black_box(S::deal(black_box(running), black_box(steps), last, &mut counts)).ok();
        last = (last + 1) % 16;
        black_box(&counts);
    })
}

/// The table of turns; the largest ratio to Rust.
pub fn run() -> f64 {
    for running in 0..=u16::MAX {
        let n = running as usize;
        for (steps, last) in [(1 + n % 64, n % 16), (n % 66, n % 17), (64, n / 16 % 16), (1, n / 256 % 16)] {
            assert_eq!(turn::<Proved>(running, steps, last), turn::<Plain>(running, steps, last), "{running:016b} {steps} {last}");
        }
    }
    let mut worst = 0.0f64;
    println!("\n{:<34} {:>11} {:>11} {:>8}", "turn of a charging case", "proved ns", "Rust ns", "ratio");
    for (name, running, steps) in [("16 bays, 1 step", u16::MAX, 1), ("16 bays, 64 steps", u16::MAX, 64), ("3 bays, 1 step", 0x4208, 1), ("3 bays, 64 steps", 0x4208, 64)] {
        let (mut p, mut q) = (f64::MAX, f64::MAX);
        for _ in 0..400 {
            p = p.min(time::<Proved>(running, steps));
            q = q.min(time::<Plain>(running, steps));
        }
        println!("{name:<34} {p:>11.1} {q:>11.1} {:>8}", shown(p / q, TO_RUST));
        worst = worst.max(p / q);
    }
    worst
}
