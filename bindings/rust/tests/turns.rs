//! The dealer beside a walk round the circle step by step, and over turns of which each is told the bay that the one before
//! answered.
use honecerise::*;

/// Bit b says that bay b runs.
fn flags(mask: u16) -> [bool; BAYS] {
    std::array::from_fn(|bay| mask >> bay & 1 == 1)
}

/// "starting after that bay it deals one step to each running bay in a circle until the number is used"
fn walk(running: [bool; BAYS], steps: usize, last: usize) -> Turn {
    let mut turn = Turn { counts: [0; BAYS], last };
    let mut left = steps;
    while left > 0 && running.contains(&true) {
        turn.last = (turn.last + 1) % BAYS;
        if running[turn.last] {
            turn.counts[turn.last] += 1;
            left -= 1;
        }
    }
    turn
}

#[test]
fn every_mask() {
    for mask in 0..=u16::MAX {
        let (running, n) = (flags(mask), usize::from(mask));
        for (steps, last) in [(1 + n % 64, n / 64 % 16), (1 + n / 16 % 64, n % 16), (1, n % 16), (64, n / 16 % 16)] {
            assert_eq!(deal(running, steps, last), Ok(walk(running, steps, last)), "{mask:016b} {steps} {last}");
        }
    }
}

#[test]
fn every_number_of_steps_after_every_bay() {
    for mask in [0, 1, 0x8000, 0x8001, 0x4208, 0x00ff, 0xfffe, 0xffff] {
        for (steps, last) in (1..=64).flat_map(|steps| (0..16).map(move |last| (steps, last))) {
            assert_eq!(deal(flags(mask), steps, last), Ok(walk(flags(mask), steps, last)), "{mask:016b} {steps} {last}");
        }
    }
}

#[test]
fn refused() {
    for mask in [0, 1, 0xffff] {
        for (steps, last) in
            [(0, 0), (65, 0), (1, 16), (0, 16), (usize::MAX, 3), (1, usize::MAX), (257, 1), (1, 272), (1 << 32, 1)]
        {
            assert_eq!(deal(flags(mask), steps, last), Err(Refusal::BadTurn), "{steps} {last}");
        }
    }
}

/// The bay after the last starts each time, and the one before it ends: with one step a turn the bay told at first comes last.
#[test]
fn sixteen_turns_are_needed() {
    let (bay, mut last) = (5, 5);
    for turn in 1..=16 {
        let mut running = [false; BAYS];
        (running[bay], running[(last + 1) % BAYS]) = (true, true);
        let dealt = deal(running, 1, last).unwrap();
        assert_eq!(dealt.counts[bay], u8::from(turn == 16));
        last = dealt.last;
    }
}

#[test]
fn sixteen_turns_are_enough() {
    let mut seed = 0x2545_f491_4f6c_dd1d_u64;
    let mut next = move || {
        seed ^= seed << 13;
        seed ^= seed >> 7;
        seed ^= seed << 17;
        seed
    };
    for bay in 0..BAYS {
        let (mut last, mut waited) = (bay, 0);
        for _ in 0..20_000 {
            let mut running = flags(next() as u16);
            running[bay] = true;
            let steps = if next() % 4 == 0 { 1 + (next() % 64) as usize } else { 1 };
            let dealt = deal(running, steps, last).unwrap();
            let given: Vec<u8> = (0..BAYS).filter(|&b| running[b]).map(|b| dealt.counts[b]).collect();
            assert_eq!(dealt.counts.iter().map(|&c| usize::from(c)).sum::<usize>(), steps);
            assert!(given.iter().max().unwrap() - given.iter().min().unwrap() <= 1);
            waited = if dealt.counts[bay] > 0 { 0 } else { waited + 1 };
            assert!(waited < 16);
            last = dealt.last;
        }
    }
}
