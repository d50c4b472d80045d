//! Bursts on images and desks that no copy wrote: a running copy with numbers written over, where a step may undo what an earlier one found. Both sides do what single steps do.
use crate::random::Random;
use bench::proved::Proved;
use bench::side::{Answer, Buffers, Plain, Side};

const COPIES: usize = 4_000;
const BURSTS: usize = 10;

/// A few directories and files of all sizes, and a copy of them that has had some steps.
fn copying(r: &mut Random) -> Buffers {
    let (n, b, image) = (2 + r.next(7), 20 + r.next(100), 1 + r.next(200));
    let mut w = Buffers { store: vec![0; 16 + 32 * n + 64 * b], image: vec![0; 16 + 32 * n + 64 * image], desk: vec![0; 16 + 9 * n] };
    Plain::lay_out_store(&mut w.store, n, b).unwrap();
    Plain::lay_out_desk(&mut w.desk, n).unwrap();
    for k in 0..3 * n {
        let (directory, name) = (1 + r.next(n), [b'a' + k as u8]);
        if r.next(3) == 0 {
            Plain::create_directory(&mut w, directory, &name).ok();
        } else if let Ok(i) = Plain::create_file(&mut w, directory, &name) {
            let length = [r.next(200), r.next(900), r.next(2753)][r.next(3)];
            Plain::write(&mut w, i, 0, &vec![1; length]).ok();
        }
    }
    Plain::start(&mut w).unwrap();
    for _ in 0..r.next(60) {
        Plain::step(&mut w).ok();
    }
    w
}

/// Numbers of two bytes among the image's attributes, addresses and blocks and in the desk, mostly ones that may stand there.
fn alter(w: &mut Buffers, r: &mut Random) {
    let (n, blocks) = (w.desk[0] as usize, u16::from_le_bytes([w.image[2], w.image[3]]) as usize);
    let addresses = 16 + 8 * n;
    for _ in 0..1 + r.next(6) {
        let (image, o, value) = match r.next(8) {
            0 => (true, 16 + 8 * r.next(n), r.next(3)),
            1 => (true, 16 + 8 * r.next(n) + 4, [700, 900, 2752][r.next(3)]),
            2 => (true, addresses + 24 * r.next(n) + 22, r.next(blocks + 1)),
            3 | 4 => (true, addresses + 2 * r.next(12 * n), r.next(blocks + 1)),
            5 => (true, addresses + 24 * n + 16 * r.next(4 * blocks), r.next(n + 2)),
            6 => (false, [6, 8][r.next(2)], r.next(n + 1)),
            _ => (false, 12, 46 * n - r.next(70).min(46 * n)),
        };
        let buffer = if image { &mut w.image } else { &mut w.desk };
        buffer[o..o + 2].copy_from_slice(&(value as u16).to_le_bytes());
    }
    let o = 16 + r.next(n);
    w.desk[o] ^= (r.next(3) == 0) as u8;
}

/// What a burst should do.
fn singly<S: Side>(w: &mut Buffers, count: usize) -> Answer {
    for done in 0..count {
        match S::step(w) {
            Err(no) if done == 0 => return Err(no),
            Err(_) => return Ok(done),
            Ok(_) if w.image[8] == 1 => return Ok(done + 1),
            Ok(_) => {}
        }
    }
    Ok(count)
}

pub fn run() {
    let mut r = Random(0x853c49e6748fea9b);
    let [mut whole, mut finished, mut unfit, mut full, mut refused] = [0; 5];
    for _ in 0..COPIES {
        let copy = copying(&mut r);
        for _ in 0..BURSTS {
            let mut w = copy.clone();
            alter(&mut w, &mut r);
            let (count, before) = (1 + r.next(64), w.clone());
            let (mut v, mut u) = (w.clone(), w.clone());
            let answers = [Proved::burst(&mut w, count), Plain::burst(&mut v, count), singly::<Proved>(&mut u, count)];
            assert!(answers == [answers[0]; 3] && w == v && w == u, "a burst of {count} on {:?} {:?}: {answers:?}", before.image, before.desk);
            match (answers[0], w.desk[4]) {
                (Err(_), _) => refused += 1,
                (Ok(done), _) if done == count => whole += 1,
                (_, 1) => unfit += 1,
                (_, 2) => finished += 1,
                _ => full += 1,
            }
        }
    }
    println!("{} bursts on altered copies are single steps; {whole} whole, ended by the finish {finished}, by 3 {unfit}, by 16 {full}; refused {refused}", COPIES * BURSTS);
}
