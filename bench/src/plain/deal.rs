//! The dealer of a charging case.
use super::refusal::BAD_TURN;
use super::Answer;

const BAYS: usize = 16;
const MOST_TURN: usize = 64;

/// Steps go round the circle from after the bay last served, one to each running bay: whole rounds at once, then the rest.
pub fn deal(running: u16, steps: usize, last: usize, counts: &mut [u8; BAYS]) -> Answer {
    *counts = [0; BAYS];
    if !(1..=MOST_TURN).contains(&steps) || last >= BAYS {
        return Err(BAD_TURN);
    }
    let n = running.count_ones() as usize;
    if n == 0 {
        return Ok(last);
    }
    let (part, rest, ending) = (steps / n, steps % n, (steps - 1) % n);
    let (mut place, mut end) = (0, last);
    for d in 1..=BAYS {
        let bay = (last + d) % BAYS;
        if running >> bay & 1 == 1 {
            counts[bay] = (part + (place < rest) as usize) as u8;
            if place == ending {
                end = bay;
            }
            place += 1;
        }
    }
    Ok(end)
}
