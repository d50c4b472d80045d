//! Whole copies, start to finish, by single steps and by bursts, of an empty, a typical and a full store and one of long files:
//! proved and plain, beside the checks that their calls must make, a copy of the store's bytes and the zeroing of the image.
use crate::scenes;
use crate::timing::{each, shown, BURSTS_TO_CHECKS, TO_CHECKS, TO_RUST};
use bench::proved::Proved;
use bench::side::{Answer, Buffers, Plain, Side};
use std::hint::black_box;

/// How a copy is gone on with.
#[derive(Clone, Copy, PartialEq)]
enum By {
    Steps,
    Bursts(usize),
}

/// The ways that are timed; a burst of one step stands beside a step.
const WAYS: [(By, &str); 3] = [(By::Steps, "steps"), (By::Bursts(64), "64s"), (By::Bursts(1), "1s")];

impl By {
    fn go_on<S: Side>(self, w: &mut Buffers) -> Answer {
        match self {
            By::Steps => S::step(w),
            By::Bursts(count) => S::burst(w, count),
        }
    }

    /// The goal for the ratio to the checks; bursts of one step have none.
    fn to_checks(self) -> f64 {
        match self {
            By::Steps => TO_CHECKS,
            By::Bursts(64) => BURSTS_TO_CHECKS,
            By::Bursts(_) => f64::MAX,
        }
    }
}

/// A start, and further calls until the image is complete; every answer is kept.
fn copy<S: Side>(by: By, w: &mut Buffers, answers: &mut Vec<Answer>) {
    answers.clear();
    answers.push(S::start(w));
    while w.image[8] == 0 && answers.last().is_some_and(|a| a.is_ok()) {
        answers.push(by.go_on::<S>(w));
    }
}

/// What a copy answers and leaves.
struct Copied {
    by: By,
    answers: Vec<Answer>,
    w: Buffers,
}

/// The same call by call on both sides, with answers, states and buffers compared after each.
fn compare(by: By, start: &Buffers, name: &str) -> Copied {
    let (mut a, mut b) = (start.clone(), start.clone());
    let mut answers = vec![];
    let mut next = (Proved::start(&mut a), Plain::start(&mut b));
    loop {
        answers.push(next.0);
        let calls = answers.len();
        assert!(next.0 == next.1 && next.0.is_ok(), "{name}, call {calls}: {next:?}");
        assert_eq!(Proved::state(&a), Plain::state(&b), "{name}: state after call {calls}");
        assert!(a == b, "{name}: bytes after call {calls}");
        if a.image[8] == 1 {
            break;
        }
        next = (by.go_on::<Proved>(&mut a), by.go_on::<Plain>(&mut b));
    }
    assert!(Proved::check(&a.image, true) && Plain::check(&a.image, true), "{name}: the finished image");
    Copied { by, answers, w: a }
}

struct Least {
    proved: f64,
    plain: f64,
    checks: f64,
    bytes: f64,
    zeros: f64,
}

/// One side's copy, which must be the expected one; its time.
fn timed<S: Side>(w: &mut Buffers, answers: &mut Vec<Answer>, expected: &Copied) -> f64 {
    let time = each(1, || copy::<S>(expected.by, black_box(w), answers));
    assert!(*answers == expected.answers && *w == expected.w, "a {} copy differs", S::NAME);
    time
}

/// The least times of so many rounds, in which all take turns; both sides work on the same buffers.
fn time(expected: &Copied, rounds: usize) -> Least {
    let calls = expected.answers.len();
    let mut w = expected.w.clone();
    let mut answers = Vec::with_capacity(calls);
    let (mut other, mut image) = (w.store.clone(), w.image.clone());
    let mut t = Least { proved: f64::MAX, plain: f64::MAX, checks: f64::MAX, bytes: f64::MAX, zeros: f64::MAX };
    for _ in 0..rounds {
        for _ in 0..2 {
            t.proved = t.proved.min(timed::<Proved>(&mut w, &mut answers, expected));
            t.plain = t.plain.min(timed::<Plain>(&mut w, &mut answers, expected));
        }
        let check = || {
            black_box(Proved::check(black_box(&w.store), false));
        };
        t.checks = t.checks.min(each(calls, check) * calls as f64);
        t.bytes = t.bytes.min(each(20, || black_box(&mut other).copy_from_slice(black_box(&w.store))));
        t.zeros = t.zeros.min(each(20, || black_box(&mut image).fill(0)));
    }
    t
}

/// The largest ratio to Rust, and to the checks by single steps and by bursts of 64.
#[derive(Default)]
pub struct Worst {
    pub plain: f64,
    pub checks: f64,
    pub burst_checks: f64,
}

impl Worst {
    fn note(&mut self, by: By, to_plain: f64, to_checks: f64) {
        self.plain = self.plain.max(to_plain);
        match by {
            By::Steps => self.checks = self.checks.max(to_checks),
            By::Bursts(64) => self.burst_checks = self.burst_checks.max(to_checks),
            By::Bursts(_) => {}
        }
    }
}

/// The table of copies.
pub fn run() -> Worst {
    println!(
        "\n{:<14} {:>6} {:>6} {:>11} {:>11} {:>8} {:>11} {:>10} {:>9} {:>10} {:>9} {:>12}",
        "copy of", "by", "calls", "proved ns", "Rust ns", "ratio", "checks ns", "to checks", "of steps", "memcpy ns", "to memcpy", "zero image"
    );
    let mut worst = Worst::default();
    let cases = [("an empty", scenes::empty(), 1000), ("a typical", scenes::typical(), 200), ("a full store", scenes::full(), 40), ("long files", scenes::long(), 40)];
    for (name, start, rounds) in &cases {
        // the time by single steps, which come first
        let mut by_steps = 0.0;
        for (by, way) in WAYS {
            let expected = compare(by, start, name);
            let rounds = if by == By::Bursts(64) { 5 * rounds } else { *rounds };
            let (calls, t) = (expected.answers.len(), time(&expected, rounds));
            let (to_plain, to_checks) = (t.proved / t.plain, t.proved / t.checks);
            if by == By::Steps {
                by_steps = t.proved;
            }
            let of_steps = format!("1/{:.1}", by_steps / t.proved);
            println!(
                "{:<14} {:>6} {:>6} {:>11.0} {:>11.0} {:>8} {:>11.0} {:>10} {:>9} {:>10.0} {:>9.1} {:>12.0}",
                name, way, calls, t.proved, t.plain, shown(to_plain, TO_RUST), t.checks, shown(to_checks, by.to_checks()), of_steps, t.bytes, t.proved / t.bytes, t.zeros
            );
            worst.note(by, to_plain, to_checks);
        }
    }
    worst
}
