//! The proved library beside plain Rust that does the same work with the same checks: answers and bytes are compared, and the ratio of the times printed.
mod altered;
mod calls;
mod checks;
mod copies;
mod keep;
mod laps;
mod lists;
mod random;
mod scenes;
mod stores;
mod timing;
mod turns;

use timing::{BURSTS_TO_CHECKS, IMAGE_TO_RUST, TO_CHECKS, TO_RUST};

fn main() {
    let checks = checks::run();
    lists::run();
    altered::run();
    let calls = calls::run();
    let copies = copies::run();
    let turns = turns::run();
    let laps = laps::run();
    let keep = keep::run();
    println!("\nlargest ratio to Rust: check {:.2}, call {calls:.2}, turn {turns:.2}, laps {laps:.2}, keep {keep:.2}, copy {:.2} (goal: at most {TO_RUST}), check of an image {:.2} (goal: at most {IMAGE_TO_RUST})", checks.store, copies.plain, checks.image);
    println!("copy to its checks {:.2} (goal: at most {TO_CHECKS}), by bursts of 64 {:.2} (goal: at most {BURSTS_TO_CHECKS}); * is above its goal", copies.checks, copies.burst_checks);
}
