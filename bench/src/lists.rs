//! Lists of calls at random, on small stores and at times with a byte written over: both sides answer alike and leave the same bytes.
use crate::random::Random;
use bench::proved::Proved;
use bench::side::{Buffers, Plain, Side};

const LISTS: usize = 2_000;
const CALLS: usize = 150;
/// The kinds of calls that are renames, and behind them the lap recorder's.
const RENAME: usize = 12;
const RENAME_NEW: usize = 15;
const NAMES: [&[u8]; 10] = [b"a", b"b", b"c", b"laps", b"run-00012-lap", b"exactly-14-byt", b"longer-than-14b", b"", b"..", b"a/b"];

fn any_name(r: &mut Random) -> &'static [u8] {
    let among = if r.next(12) == 0 { NAMES.len() } else { 6 };
    NAMES[r.next(among)]
}

/// A call that both sides are to make, with all that it names.
#[derive(Debug)]
struct Call {
    kind: usize,
    numbers: [usize; 3],
    names: [&'static [u8]; 2],
    bytes: Vec<u8>,
}

impl Call {
    /// Inode numbers up to one past n, the root more often; offsets and lengths up to and past a file's largest; mostly legal names.
    fn any(r: &mut Random, n: usize) -> Call {
        let length = [r.next(5), r.next(70), r.next(780), r.next(2760)][r.next(4)];
        Call {
            kind: r.next(24),
            numbers: [[1, r.next(n + 2)][r.next(2)], [0, r.next(65), r.next(780), r.next(2760), usize::MAX][r.next(5)], [1, r.next(n + 2), r.next(n + 2)][r.next(3)]],
            names: [any_name(r), any_name(r)],
            bytes: (0..length).map(|k| (k + 1) as u8).collect(),
        }
    }

    /// The refusal or 0, all numbers of the answer, and a read's out-buffer.
    fn make<S: Side>(&self, w: &mut Buffers) -> (u8, [usize; 3], Vec<u8>) {
        let ([x, y, z], [name, other]) = (self.numbers, self.names);
        let mut out = vec![0xaa; if self.kind == 1 { self.bytes.len() } else { 0 }];
        let answer = match self.kind {
            0 => S::look_up(&w.store, x, name),
            1 => S::read(&w.store, x, y, &mut out),
            2 | 3 => S::create_file(w, x, name),
            4 | 5 => S::create_directory(w, x, name),
            6 | 7 => S::write(w, x, y, &self.bytes),
            8 => S::shorten(w, x, y),
            9 => S::link(w, x, name, z),
            10 | 11 => S::unlink(w, x, name),
            RENAME..RENAME_NEW => S::rename(w, x, name, z, other),
            RENAME_NEW => S::rename_new(w, x, name, z, other),
            16 => S::start(w),
            17 => return S::state(w).map_or_else(|no| (no, [0; 3], out), |(a, b, c)| (0, [a as usize, b as usize, c as usize], vec![])),
            18 => S::burst(w, z),
            19 => S::burst(w, [0, 1, 2, 63, 64, 65, usize::MAX][y % 7]),
            _ => S::step(w),
        };
        (answer.err().unwrap_or(0), [answer.unwrap_or(0), 0, 0], out)
    }

    /// A rename of either kind, half of the time, is one of an entry onto another.
    fn aimed(mut self, r: &mut Random, store: &[u8], n: usize) -> Call {
        if (RENAME..=RENAME_NEW).contains(&self.kind) && r.next(2) == 0 {
            let all = entries(store, n);
            for k in 0..all.len().min(2) {
                (self.numbers[2 * k], self.names[k]) = all[r.next(all.len())];
            }
        }
        self
    }

    /// A rename that is to replace: its two names stand for two inodes.
    fn replaces(&self, store: &[u8]) -> bool {
        let inode = |k: usize| Plain::look_up(store, self.numbers[2 * k], self.names[k]).ok();
        (RENAME..RENAME_NEW).contains(&self.kind) && inode(0).zip(inode(1)).is_some_and(|(mover, holder)| mover != holder)
    }
}

/// The entries of a store, as directory and name; none if it is not sound.
fn entries(store: &[u8], n: usize) -> Vec<(usize, &'static [u8])> {
    let all = (1..=n).flat_map(|d| NAMES.iter().map(move |&name| (d, name)));
    all.filter(|&(d, name)| Plain::look_up(store, d, name).is_ok()).collect()
}

/// Buffers of a few inodes and blocks, laid out by one side.
fn fresh<S: Side>(n: usize, b: usize, image: usize) -> Buffers {
    let mut w = Buffers { store: vec![0; 16 + 32 * n + 64 * b], image: vec![7; 16 + 32 * n + 64 * image], desk: vec![7; 16 + 9 * n] };
    S::lay_out_store(&mut w.store, n, b).unwrap();
    S::lay_out_desk(&mut w.desk, n).unwrap();
    w
}

/// One byte of one buffer is another, for one call.
fn damage(w: &mut Buffers, r: &mut Random) -> (usize, usize, u8) {
    let which = r.next(3);
    let buffer = [&mut w.store, &mut w.image, &mut w.desk][which].as_mut_slice();
    let first = if r.next(2) == 0 { 40 } else { buffer.len() };
    let o = r.next(first.min(buffer.len()));
    let old = buffer[o];
    buffer[o] = r.next(4) as u8;
    (which, o, old)
}

fn mend(w: &mut Buffers, (which, o, old): (usize, usize, u8)) {
    [&mut w.store, &mut w.image, &mut w.desk][which][o] = old;
}

/// How often each refusal came, at 0 how many calls were accepted, and how many of them replaced an entry.
#[derive(Default)]
struct Tally {
    refused: [usize; 19],
    replaced: usize,
}

fn list(r: &mut Random, tally: &mut Tally) {
    // few blocks, or room for some long files
    let (n, b, image) = (1 + r.next(7), [1 + r.next(12), 20 + r.next(100)][r.next(2)], [1 + r.next(20), 20 + r.next(150)][r.next(2)]);
    let (mut w, mut v) = (fresh::<Proved>(n, b, image), fresh::<Plain>(n, b, image));
    for _ in 0..CALLS {
        let call = Call::any(r, n).aimed(r, &w.store, n);
        let hurt = (r.next(30) == 0).then(|| damage(&mut w, r));
        v.clone_from(&w);
        let replaces = call.replaces(&v.store);
        let (x, y) = (call.make::<Proved>(&mut w), call.make::<Plain>(&mut v));
        assert!(x == y && w == v, "{call:?} on {n} inodes, {b} and {image} blocks, damaged {hurt:?}: {x:?} proved, {y:?} plain");
        tally.refused[x.0 as usize] += 1;
        tally.replaced += (replaces && x.0 == 0) as usize;
        if let Some(old) = hurt {
            mend(&mut w, old);
        }
    }
}

pub fn run() {
    let mut r = Random(0x2545f4914f6cdd1d);
    let mut tally = Tally::default();
    for _ in 0..LISTS {
        list(&mut r, &mut tally);
    }
    let Tally { refused, replaced } = tally;
    println!("\n{} calls at random: both sides answer and write alike; {} accepted, {replaced} of them renames that replace; by refusal 1 to 18: {:?}", LISTS * CALLS, refused[0], &refused[1..]);
}
