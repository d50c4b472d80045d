//! Replays lists of calls, given as files, and compares every answer and the checksums of the three buffers with what stands on the line: `vectors plain FILE..` or `vectors proved FILE..`.
use bench::proved::Proved;
use bench::side::{Answer, Buffers, Plain, Side};
use std::fmt::Write;

/// The 64-bit FNV-1a checksum.
fn checksum(bytes: &[u8]) -> u64 {
    bytes.iter().fold(0xcbf29ce484222325, |h, &x| (h ^ x as u64).wrapping_mul(0x100000001b3))
}

/// Bytes in hex, `-` for none.
fn from_hex(s: &str) -> Vec<u8> {
    let digits = s.trim_start_matches('-').as_bytes();
    digits.chunks(2).map(|c| u8::from_str_radix(std::str::from_utf8(c).unwrap(), 16).unwrap()).collect()
}

fn to_hex(bytes: &[u8]) -> String {
    if bytes.is_empty() {
        return "-".to_string();
    }
    bytes.iter().fold(String::new(), |mut s, x| {
        write!(s, "{x:02x}").unwrap();
        s
    })
}

fn told(answer: Answer) -> String {
    answer.map_or_else(|no| format!("no {no}"), |v| format!("ok {v}"))
}

fn fresh<S: Side>(w: &mut Buffers, n: usize, b: usize, image: usize) -> String {
    let zeros = |length: usize| vec![0u8; length];
    *w = Buffers { store: zeros(16 + 32 * n + 64 * b), image: zeros(16 + 32 * n + 64 * image), desk: zeros(16 + 9 * n) };
    let number = |a: Answer| a.err().unwrap_or(0);
    let (a, d) = (S::lay_out_store(&mut w.store, n, b), S::lay_out_desk(&mut w.desk, n));
    format!("ok {} {}", number(a), number(d))
}

fn poke(w: &mut Buffers, which: &str, offset: usize, byte: usize) -> String {
    let buffer = match which {
        "store" => &mut w.store,
        "image" => &mut w.image,
        _ => &mut w.desk,
    };
    match buffer.get_mut(offset) {
        Some(x) => {
            *x = byte as u8;
            "ok".to_string()
        }
        None => "err".to_string(),
    }
}

fn read<S: Side>(w: &Buffers, inode: usize, offset: usize, length: usize) -> String {
    let mut out = vec![0xaa; length];
    match S::read(&w.store, inode, offset, &mut out) {
        Ok(count) => format!("ok {count} {}", to_hex(&out)),
        Err(no) => {
            assert!(out.iter().all(|&x| x == 0xaa), "a refused read wrote its out-buffer");
            format!("no {no}")
        }
    }
}

/// What a command answers.
fn run<S: Side>(w: &mut Buffers, command: &str) -> String {
    let f: Vec<&str> = command.split(' ').collect();
    let num = |k: usize| f[k].parse::<usize>().unwrap_or(usize::MAX);
    let hex = |k: usize| from_hex(f[k]);
    match f[0] {
        "new" => fresh::<S>(w, num(1), num(2), num(3)),
        "poke" => poke(w, f[1], num(2), num(3)),
        "lay" if f[1] == "store" => told(S::lay_out_store(&mut w.store, num(2), num(3))),
        "lay" => told(S::lay_out_desk(&mut w.desk, num(2))),
        "chk" => {
            let image = f[1] == "image";
            let yes = S::check(if image { &w.image } else { &w.store }, image);
            if yes { "yes".to_string() } else { "no".to_string() }
        }
        "lk" => told(S::look_up(&w.store, num(1), &hex(2))),
        "mk" if f[3] == "f" => told(S::create_file(w, num(1), &hex(2))),
        "mk" => told(S::create_directory(w, num(1), &hex(2))),
        "rd" => read::<S>(w, num(1), num(2), num(3)),
        "wr" => told(S::write(w, num(1), num(2), &hex(3))),
        "sh" => told(S::shorten(w, num(1), num(2))),
        "ln" => told(S::link(w, num(1), &hex(2), num(3))),
        "rm" => told(S::unlink(w, num(1), &hex(2))),
        "mv" => told(S::rename(w, num(1), &hex(2), num(3), &hex(4))),
        "mvo" => told(S::rename_new(w, num(1), &hex(2), num(3), &hex(4))),
        "go" => told(S::start(w)),
        "st" => told(S::step(w)),
        "bu" => told(S::burst(w, num(1))),
        "ask" => S::state(w).map_or_else(|no| format!("no {no}"), |(s, l, k)| format!("ok {s} {l} {k}")),
        _ => "err".to_string(),
    }
}

/// Lines that agree, and lines that do not.
fn replay<S: Side>(path: &str) -> (usize, usize) {
    let text = std::fs::read_to_string(path).unwrap_or_else(|e| panic!("{path}: {e}"));
    let (mut w, mut right, mut wrong) = (Buffers::default(), 0, 0);
    for (k, line) in text.lines().enumerate() {
        let (command, expected) = line.split_once(" => ").unwrap_or((line, ""));
        let answer = run::<S>(&mut w, command);
        let got = format!("{answer} | {:016x} {:016x} {:016x}", checksum(&w.store), checksum(&w.image), checksum(&w.desk));
        if got == expected {
            right += 1;
        } else {
            wrong += 1;
            println!("{path}:{}: {line}\n  {} answers {got}", k + 1, S::NAME);
        }
    }
    (right, wrong)
}

fn all<S: Side>(paths: &[String]) {
    let (mut right, mut wrong) = (0, 0);
    for path in paths {
        let (r, w) = replay::<S>(path);
        right += r;
        wrong += w;
    }
    println!("{}: {right} lines of {} files agree, {wrong} differ", S::NAME, paths.len());
    std::process::exit((wrong > 0 || right == 0) as i32);
}

fn main() {
    let args: Vec<String> = std::env::args().skip(1).collect();
    match args.first().map(String::as_str) {
        Some("plain") => all::<Plain>(&args[1..]),
        Some("proved") => all::<Proved>(&args[1..]),
        _ => panic!("vectors plain FILE.. or vectors proved FILE.."),
    }
}
