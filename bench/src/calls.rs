//! The file calls, proved and plain, each timed alone on a typical and on a full store, while no copy runs and while one does.
use crate::scenes::{self, Scene};
use crate::timing::{clock, once, shown, TO_RUST};
use bench::proved::Proved;
use bench::side::{Answer, Buffers, Plain, Side};
use std::hint::black_box;

/// The table is gone through so often, with so many rounds for each cycle, and so many times the cycle in a round.
const PASSES: usize = 6;
const ROUNDS: usize = 60;
const CYCLES: usize = 10;

enum Call<'a> {
    LookUp(usize, &'a [u8]),
    Read(usize, usize),
    Create(usize, &'a [u8]),
    Write(usize, usize, &'a [u8]),
    Shorten(usize, usize),
    Link(usize, &'a [u8], usize),
    Unlink(usize, &'a [u8]),
    Rename(usize, &'a [u8], usize, &'a [u8]),
    RenameNew(usize, &'a [u8], usize, &'a [u8]),
}

fn make<S: Side>(call: &Call, w: &mut Buffers, out: &mut [u8]) -> Answer {
    match *call {
        Call::LookUp(d, name) => S::look_up(&w.store, d, name),
        Call::Read(i, length) => S::read(&w.store, i, 0, &mut out[..length]),
        Call::Create(d, name) => S::create_file(w, d, name),
        Call::Write(i, offset, bytes) => S::write(w, i, offset, bytes),
        Call::Shorten(i, length) => S::shorten(w, i, length),
        Call::Link(d, name, i) => S::link(w, d, name, i),
        Call::Unlink(d, name) => S::unlink(w, d, name),
        Call::Rename(d, name, e, other) => S::rename(w, d, name, e, other),
        Call::RenameNew(d, name, e, other) => S::rename_new(w, d, name, e, other),
    }
}

/// Calls that together leave the store as it was, up to the bytes of free blocks; the last may be followed by writing back the buffers. One without a label only prepares or undoes, and has no row.
struct Cycle<'a> {
    calls: Vec<(&'static str, Call<'a>)>,
    restore: bool,
}

fn cycle<'a>(calls: Vec<(&'static str, Call<'a>)>) -> Cycle<'a> {
    Cycle { calls, restore: false }
}

/// The calls on the store alone.
fn reading(s: &Scene) -> Vec<Cycle<'_>> {
    vec![
        cycle(vec![("look up", Call::LookUp(s.directory, &s.entry))]),
        cycle(vec![("read 768", Call::Read(s.long, 768))]),
    ]
}

/// The calls that write, each undone by the one after it.
fn writing<'a>(s: &'a Scene, bytes: &'a [u8]) -> Vec<Cycle<'a>> {
    let (d, e, name, free) = (s.directory, s.other, &s.entry[..], &s.free_name[..]);
    vec![
        cycle(vec![("create (undone: unlink)", Call::Create(d, free)), ("unlink (of the created)", Call::Unlink(d, free))]),
        cycle(vec![("write 64 (undone: shorten)", Call::Write(s.fresh, 0, &bytes[..64])), ("shorten 64 to 0", Call::Shorten(s.fresh, 0))]),
        cycle(vec![("write 768 (undone: shorten)", Call::Write(s.fresh, 0, &bytes[..768])), ("shorten 768 to 0", Call::Shorten(s.fresh, 0))]),
        cycle(vec![("write 64 over (same bytes)", Call::Write(s.long, 0, &bytes[..64]))]),
        cycle(vec![("write 768 over (same bytes)", Call::Write(s.long, 0, &bytes[..768]))]),
        cycle(vec![("link (undone: unlink)", Call::Link(d, free, s.long)), ("unlink (of the link)", Call::Unlink(d, free))]),
        cycle(vec![("rename (undone: back)", Call::Rename(d, name, d, free)), ("rename back", Call::Rename(d, free, d, name))]),
        cycle(vec![("move (undone: back)", Call::Rename(d, name, e, free)), ("move back", Call::Rename(e, free, d, name))]),
        cycle(vec![("recorder's rename (undone: back)", Call::RenameNew(d, name, d, free)), ("", Call::RenameNew(d, free, d, name))]),
        replacing(s, "rename onto a run of 768", d, bytes),
        replacing(s, "move onto a run of 768", e, bytes),
    ]
}

/// The entry takes the name of a run of 768 bytes in directory e, whose only name it is, and gets its own again.
fn replacing<'a>(s: &'a Scene, label: &'static str, e: usize, bytes: &'a [u8]) -> Cycle<'a> {
    let (d, name, free) = (s.directory, &s.entry[..], &s.free_name[..]);
    let prepare = [("", Call::Create(e, free)), ("", Call::Write(s.next, 0, &bytes[..768]))];
    cycle(prepare.into_iter().chain([(label, Call::Rename(d, name, e, free)), ("", Call::Rename(e, free, d, name))]).collect())
}

/// A file of 768 bytes takes a block more and its address block, and gives both back.
fn crossing<'a>(s: &'a Scene, bytes: &'a [u8]) -> Cycle<'a> {
    cycle(vec![("write 768 to 832 (undone: shorten)", Call::Write(s.long, 768, &bytes[..64])), ("shorten 832 to 768", Call::Shorten(s.long, 768))])
}

/// Reads and writes of the longest file, where the scene has one.
fn longest<'a>(s: &'a Scene, bytes: &'a [u8]) -> Vec<Cycle<'a>> {
    let Some(longest) = s.longest else { return vec![] };
    vec![
        cycle(vec![("read 2,752", Call::Read(longest, 2752))]),
        cycle(vec![("write 2,752 (undone: shorten)", Call::Write(s.fresh, 0, bytes)), ("shorten 2,752 to 0", Call::Shorten(s.fresh, 0))]),
        cycle(vec![("write 2,752 over (same bytes)", Call::Write(longest, 0, bytes))]),
    ]
}

/// A create for which the root, whose slots are used, takes a block; directories never shrink, so the buffers are written back.
fn growing(s: &Scene) -> Cycle<'_> {
    Cycle { calls: vec![("create + block (written back)", Call::Create(1, &s.free_name))], restore: true }
}

/// The buffers of a run, with a read's.
#[derive(Clone, PartialEq)]
struct Lent {
    w: Buffers,
    out: [u8; 2752],
}

impl Lent {
    fn of(s: &Scene) -> Lent {
        Lent { w: s.buffers.clone(), out: [0; 2752] }
    }

    fn restore(&mut self, c: &Cycle, s: &Scene) {
        if c.restore {
            self.w.clone_from(&s.buffers);
        }
    }
}

/// Once through the cycle on each side, with answers and buffers compared after every call; what it leaves.
fn compare(c: &Cycle, s: &Scene) -> Lent {
    let (mut a, mut b) = (Lent::of(s), Lent::of(s));
    for (label, call) in &c.calls {
        let (x, y) = (make::<Proved>(call, &mut a.w, &mut a.out), make::<Plain>(call, &mut b.w, &mut b.out));
        assert!(x == y && x.is_ok(), "{label}, {} store: {x:?} proved, {y:?} plain", s.name);
        assert!(a == b, "{label}, {} store: the two sides leave different bytes", s.name);
    }
    a.restore(c, s);
    a
}

/// One side's round: the time of each call, whose answers must not be refusals.
fn round<S: Side>(c: &Cycle, s: &Scene, lent: &mut Lent, least: &mut [f64]) {
    let mut sums = vec![0.0; least.len()];
    for _ in 0..CYCLES {
        for ((_, call), sum) in c.calls.iter().zip(&mut sums) {
            let (w, out) = (black_box(&mut lent.w), &mut lent.out);
            let mut answer = Ok(0);
            *sum += once(|| answer = black_box(make::<S>(black_box(call), w, out)));
            assert!(answer.is_ok());
        }
        lent.restore(c, s);
    }
    for (least, sum) in least.iter_mut().zip(sums) {
        *least = least.min(sum / CYCLES as f64);
    }
}

/// A cycle on a scene, what it leaves, and the least time of each of its calls on either side.
struct Job<'a> {
    cycle: Cycle<'a>,
    scene: &'a Scene,
    lent: Lent,
    expected: Lent,
    proved: Vec<f64>,
    plain: Vec<f64>,
}

impl<'a> Job<'a> {
    fn new(cycle: Cycle<'a>, scene: &'a Scene) -> Job<'a> {
        let expected = compare(&cycle, scene);
        let least = vec![f64::MAX; cycle.calls.len()];
        Job { cycle, scene, lent: expected.clone(), expected, proved: least.clone(), plain: least }
    }

    /// Both sides work on the same buffers in turn, so that these lie alike for both.
    fn rounds(&mut self) {
        for _ in 0..ROUNDS {
            round::<Proved>(&self.cycle, self.scene, &mut self.lent, &mut self.proved);
            self.assert_right(Proved::NAME);
            round::<Plain>(&self.cycle, self.scene, &mut self.lent, &mut self.plain);
            self.assert_right(Plain::NAME);
        }
    }

    fn assert_right(&self, side: &str) {
        let label = self.cycle.calls.iter().find(|(label, _)| !label.is_empty()).map_or("", |(label, _)| label);
        assert!(self.lent == self.expected, "{label}, {} store: bytes after the {side} calls", self.scene.name);
    }

    /// Prints a row for each call that has a label; the largest ratio.
    fn print(&self, clock: f64) -> f64 {
        let mut worst = 0.0f64;
        let rows = self.cycle.calls.iter().zip(self.proved.iter().zip(&self.plain));
        for ((label, _), (p, q)) in rows.filter(|((label, _), _)| !label.is_empty()) {
            let (p, q) = (p - clock, q - clock);
            println!("{:<34} {:>17} {:>11.0} {:>11.0} {:>8}", label, self.scene.name, p, q, shown(p / q, TO_RUST));
            worst = worst.max(p / q);
        }
        worst
    }
}

/// The scene while a copy runs: started, and the root copied.
fn running(mut s: Scene, name: &'static str) -> Scene {
    Plain::start(&mut s.buffers).unwrap();
    while s.buffers.desk[16] == 0 {
        Plain::step(&mut s.buffers).unwrap();
    }
    Scene { name, ..s }
}

/// The table of calls; the largest ratio.
pub fn run() -> f64 {
    let bytes: [u8; 2752] = std::array::from_fn(|k| k as u8 | 1);
    let idle = [scenes::typical_scene(), scenes::full_scene()];
    let copying = [running(scenes::typical_scene(), "typical, copying"), running(scenes::full_scene(), "full, copying")];
    let long = [scenes::long_scene(), running(scenes::long_scene(), "long, copying")];
    let mut jobs = vec![];
    for s in &idle {
        jobs.extend(reading(s).into_iter().chain(writing(s, &bytes)).map(|c| Job::new(c, s)));
    }
    jobs.push(Job::new(growing(&idle[0]), &idle[0]));
    for s in &copying {
        jobs.extend(writing(s, &bytes).into_iter().map(|c| Job::new(c, s)));
    }
    for s in idle.iter().chain(&copying).chain(&long) {
        jobs.extend(longest(s, &bytes).into_iter().chain([crossing(s, &bytes)]).map(|c| Job::new(c, s)));
    }
    let clock = clock();
    for _ in 0..PASSES {
        jobs.iter_mut().for_each(Job::rounds);
    }
    println!("\n{:<34} {:>17} {:>11} {:>11} {:>8}", "call", "store", "proved ns", "Rust ns", "ratio");
    jobs.iter().map(|job| job.print(clock)).fold(0.0, f64::max)
}
