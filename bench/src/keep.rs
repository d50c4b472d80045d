//! Which copies to keep, proved and plain: the ratio of their times, and both answer alike on random
//! lists.
use crate::random::Random;
use crate::timing::{each, shown, TO_RUST};
use bench::{plain, proved};
use bench::plain::Answer;
use std::hint::black_box;

type Keep = fn(&[u32], &[u32], u32, &mut [u8]) -> Answer;

/// What a call answers, and the list that it leaves.
fn kept(call: Keep, copies: &[u32], terms: &[u32], asked: u32, room: usize) -> (Answer, Vec<u8>) {
    let mut out = vec![7; room];
    let answer = call(copies, terms, asked, &mut out);
    (answer, out)
}

fn date(year: usize, month: usize, day: usize) -> u32 {
    (year * 10000 + month * 100 + day) as u32
}

/// Twelve terms, one in each month of a year.
fn terms(year: usize) -> Vec<u32> {
    (1..=12).flat_map(|month| [date(year, month, 1), date(year, month, 28)]).collect()
}

/// So many copies, a few weeks to a few years back; most of them dates.
fn copies(count: usize, year: usize, r: &mut Random) -> Vec<u32> {
    let back = 1 + r.next(3);
    (0..count).map(|_| date(year - r.next(back), 1 + r.next(12), 1 + r.next(28) + (r.next(2000) == 0) as usize * 4)).collect()
}

/// Both sides on lists that mostly are allowed.
fn compare(r: &mut Random) {
    let (mut all, mut refused) = (0, 0);
    for _ in 0..100_000 {
        let year = 2003 + r.next(46);
        let count = if r.next(500) == 0 { 250 + r.next(10) } else { r.next(30) };
        let list = copies(count, year, r);
        let mut school = terms(year - r.next(2));
        school.truncate(2 * r.next(13) + (r.next(40) == 0) as usize);
        if r.next(40) == 0 {
            school.extend([date(2049, 12, 30), date(2049, 12, 31)]);
        }
        if r.next(20) == 0 && !school.is_empty() {
            let at = r.next(school.len());
            school[at] += r.next(4) as u32;
        }
        let asked = if r.next(4) == 0 { date(year, 1 + r.next(12), 1 + r.next(31)) } else { date(year, 12, 31) };
        let room = if r.next(50) == 0 { r.next(30) } else { count };
        let (a, b) = (kept(proved::keep, &list, &school, asked, room), kept(plain::keep, &list, &school, asked, room));
        assert_eq!(a, b, "{list:?} {school:?} {asked}");
        match a.0 {
            Ok(n) => all += n,
            Err(_) => refused += 1,
        }
    }
    println!("100000 lists of copies: both answer alike, {all} kept, {refused} refused");
}

/// The table, then random lists; the largest ratio to Rust.
pub fn run() -> f64 {
    let mut r = Random(0x2545f4914f6cdd1d);
    let at_random = |year| copies(256, year, &mut Random(88172645463325252 + year as u64)).into_iter().map(|d| if d % 100 > 28 { d - 4 } else { d }).collect::<Vec<u32>>();
    let cases = [
        ("256 copies, 12 terms, 2003", at_random(2003), terms(2003), date(2003, 12, 31)),
        ("256 copies, 12 terms, 2049", at_random(2049), terms(2049), date(2049, 12, 31)),
        ("256 of one day, 12 terms, 2025", vec![date(2025, 6, 1); 256], terms(2025), date(2025, 12, 31)),
    ];
    let mut worst = 0.0f64;
    println!("\n{:<34} {:>5} {:>11} {:>11} {:>8}", "which copies to keep", "kept", "proved ns", "Rust ns", "ratio");
    for (name, list, school, asked) in &cases {
        let (a, b) = (kept(proved::keep, list, school, *asked, 256), kept(plain::keep, list, school, *asked, 256));
        assert_eq!(a, b, "{name}");
        let mut out = [0; 256];
        let mut time = |call: Keep| {
            each(5, || {
                black_box(call(black_box(list), black_box(school), *asked, &mut out)).unwrap_or(0);
            })
        };
        let (mut p, mut q) = (f64::MAX, f64::MAX);
        for _ in 0..100 {
            p = p.min(time(proved::keep));
            q = q.min(time(plain::keep));
        }
        println!("{:<34} {:>5} {:>11.0} {:>11.0} {:>8}", name, a.0.unwrap(), p, q, shown(p / q, TO_RUST));
        worst = worst.max(p / q);
    }
    compare(&mut r);
    worst
}
