//! Laps against the mat, proved and plain: the ratio of their times, and both report alike on random
//! lists.
use crate::random::Random;
use crate::timing::{each, shown, TO_RUST};
use bench::{plain, proved};
use bench::plain::Answer;
use std::hint::black_box;

/// What a call answers, and the four lists that it leaves.
type Report = (Answer, [Vec<u32>; 4]);
type MatchLaps = fn(&[u32], &[u32], &mut [u32], &mut [u32], &mut [u32], &mut [u32]) -> Answer;

fn report(call: MatchLaps, watch: &[u32], mat: &[u32], room: usize) -> Report {
    let mut lists = [0; 4].map(|_| vec![7; room]);
    let [a, b, c, d] = &mut lists;
    let answer = call(watch, mat, a, b, c, d);
    (answer, lists)
}

fn times(count: usize, widest: usize, r: &mut Random) -> Vec<u32> {
    let mut at = r.next(100) as u32;
    (0..count)
        .map(|_| {
            at += r.next(widest) as u32 + (r.next(400) > 0) as u32;
            at
        })
        .collect()
}

/// Mostly short, some around the most that is taken.
fn count(r: &mut Random) -> usize {
    if r.next(1000) == 0 { 500 + r.next(25) } else { r.next(40) }
}

/// Both sides on lists that mostly rise; some too long, some with too little room.
fn compare(r: &mut Random) {
    let (mut paired, mut refused) = (0, 0);
    for _ in 0..200_000 {
        let widest = [10, 60, 200][r.next(3)];
        let (watch, mat) = (times(count(r), widest, r), times(count(r), widest, r));
        let room = if r.next(10) == 0 { r.next(40) } else { watch.len().max(mat.len()) };
        let (a, b) = (report(proved::match_laps, &watch, &mat, room), report(plain::match_laps, &watch, &mat, room));
        assert_eq!(a, b, "{watch:?} {mat:?}");
        match a.0 {
            Ok(p) => paired += p,
            Err(_) => refused += 1,
        }
    }
    println!("200000 pairs of lists of laps: both report alike, {paired} pairs, {refused} refused");
}

/// The table, then random lists; the largest ratio to Rust.
pub fn run() -> f64 {
    let even = |first: u32, step: u32| -> Vec<u32> { (0..512).map(|i| first + step * i).collect() };
    let mut r = Random(0x2545f4914f6cdd1d);
    let cases = [
        ("512 and 512, all pair", even(0, 60), even(20, 60)),
        ("512 and 512, none pairs", even(0, 200), even(100, 200)),
        ("512 and 512, at random", times(512, 120, &mut Random(88172645463325252)), times(512, 120, &mut Random(1181783497276652981))),
        ("512 before 512", even(0, 1), even(1000, 1)),
    ];
    let mut worst = 0.0f64;
    println!("\n{:<34} {:>5} {:>11} {:>11} {:>8}", "laps against the mat", "pairs", "proved ns", "Rust ns", "ratio");
    for (name, watch, mat) in &cases {
        let (a, b) = (report(proved::match_laps, watch, mat, 512), report(plain::match_laps, watch, mat, 512));
        assert_eq!(a, b, "{name}");
        let mut lists = [[0; 512]; 4];
        let mut time = |call: MatchLaps| {
            let [pw, pm, aw, am] = &mut lists;
            each(20, || {
                black_box(call(black_box(watch), black_box(mat), pw, pm, aw, am)).unwrap_or(0);
            })
        };
        let (mut p, mut q) = (f64::MAX, f64::MAX);
        for _ in 0..500 {
            p = p.min(time(proved::match_laps));
            q = q.min(time(plain::match_laps));
        }
        println!("{:<34} {:>5} {:>11.0} {:>11.0} {:>8}", name, a.0.unwrap(), p, q, shown(p / q, TO_RUST));
        worst = worst.max(p / q);
    }
    compare(&mut r);
    worst
}
