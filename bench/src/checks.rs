//! The proved check beside a plain Rust check of the same conditions: the ratio of their times, and both answer alike on damaged stores.
use crate::random::Random;
use crate::stores::{chain, cycle, empty, full, long, Build};
use crate::timing::{each, shown, IMAGE_TO_RUST, TO_RUST};
use bench::plain::check as plain;
use bench::proved::Proved;
use bench::side::Side;
use std::hint::black_box;

fn proved(s: &[u8], image: bool) -> bool {
    Proved::check(s, image)
}

/// Both checks answer alike on a sound store with one to three bytes written over (some with what stood there), most of them outside of the blocks; at times cut short, or told the other form.
fn compare(s: &[u8], image: bool, times: usize, r: &mut Random) -> (usize, usize) {
    let n = u16::from_le_bytes([s[0], s[1]]) as usize;
    let (mut t, mut yes) = (s.to_vec(), 0);
    for _ in 0..times {
        let k = 1 + r.next(3);
        let mut old = vec![];
        for _ in 0..k {
            let o = if r.next(3) == 0 { r.next(t.len()) } else { r.next(16 + 32 * n) };
            old.push((o, t[o]));
            t[o] = match r.next(3) {
                0 => t[o].wrapping_add(1),
                1 => r.next(256) as u8,
                _ => t[r.next(s.len())],
            };
        }
        let cut = if r.next(50) == 0 { r.next(t.len() + 1) } else { t.len() };
        let form = if r.next(20) == 0 { !image } else { image };
        let (a, b) = (proved(&t[..cut], form), plain(&t[..cut], form));
        assert_eq!(a, b, "the two checks differ after damage at {:?}, length {cut}", old);
        yes += a as usize;
        for (o, x) in old.into_iter().rev() {
            t[o] = x;
        }
    }
    (times, yes)
}

/// The largest ratios to Rust.
#[derive(Default)]
pub struct Worst {
    pub store: f64,
    pub image: f64,
}

impl Worst {
    fn note(&mut self, image: bool, ratio: f64) {
        let of = if image { &mut self.image } else { &mut self.store };
        *of = of.max(ratio);
    }
}

/// The table of checks, then the buffers written over.
pub fn run() -> Worst {
    let mut cut = full(1024);
    cut[16 + 8 * 255 + 2] ^= 1;
    let mut late = full(4096);
    let end = late.len() - 1;
    late[end] ^= 1;
    let cases: Vec<(&str, Vec<u8>, bool, bool)> = vec![
        ("empty store", empty(), false, true),
        ("smallest store", Build::new(1, 1).done(), false, true),
        ("full store", full(1024), false, true),
        ("chain of 255 directories", chain(false), false, true),
        ("the same, numbered upward", chain(true), false, true),
        ("image of 4,096 blocks", full(4096), true, true),
        ("store of long files", long(), false, true),
        ("full store, a link count wrong", cut, false, false),
        ("two directories in a circle", cycle(), false, false),
        ("image, its last byte not zero", late, true, false),
    ];
    let mut worst = Worst::default();
    println!("{:<34} {:>5} {:>11} {:>11} {:>8} {:>11} {:>7}", "case", "sound", "proved ns", "Rust ns", "ratio", "sum ns", "to sum");
    for (name, s, image, sound) in &cases {
        let (a, b) = (proved(s, *image), plain(s, *image));
        assert_eq!((a, b), (*sound, *sound), "{name}");
        let (mut p, mut q, mut z) = (f64::MAX, f64::MAX, f64::MAX);
        for _ in 0..200 {
            p = p.min(each(20, || {
                black_box(proved(black_box(s), *image));
            }));
            q = q.min(each(20, || {
                black_box(plain(black_box(s), *image));
            }));
            z = z.min(each(20, || {
                black_box(black_box(s).iter().map(|&x| x as u64).sum::<u64>());
            }));
        }
        let goal = if *image { IMAGE_TO_RUST } else { TO_RUST };
        println!("{:<34} {:>5} {:>11.0} {:>11.0} {:>8} {:>11.0} {:>7.2}", name, a, p, q, shown(p / q, goal), z, p / z);
        worst.note(*image, p / q);
    }
    let mut r = Random(0x9e3779b97f4a7c15);
    let (mut tried, mut yes) = (0, 0);
    for (_, s, image, _) in cases.iter().filter(|c| c.3) {
        let (t, y) = compare(s, *image, 40_000, &mut r);
        tried += t;
        yes += y;
    }
    println!("{tried} buffers written over: both checks answer alike, {yes} of them sound");
    worst
}
