//! The dealer of a charging case.
use crate::{BAYS, Refusal, ffi};

/// What a turn of a charging case comes to.
#[derive(Clone, Copy, Debug, PartialEq, Eq, Hash)]
pub struct Turn {
    /// The steps that each bay gets, bay 0 first.
    pub counts: [u8; BAYS],
    /// The bay last served, which the next turn is told.
    pub last: usize,
}

/// Deals the steps of a turn among the bays that run: starting after the bay last served, one step to each in a circle until
/// the number is used.
///
/// The counts add up to the steps; if no bay runs they are 0, and the bay told is answered. Two running bays differ by at most
/// one step in a turn. A bay that runs in each of sixteen turns gets a step in one of them, whichever others start or end, if
/// each turn is told the bay that the turn before answered: so feed [`Turn::last`] to the next turn whatever the bursts did.
/// A bay whose copy is finished or stopped is to be told as not running, or it goes on getting its share.
///
/// Refuses with `BadTurn`.
///
/// ```
/// use honecerise::{BAYS, Refusal, deal};
/// let mut running = [false; BAYS];
/// (running[0], running[15]) = (true, true);
/// let turn = deal(running, 3, 15)?;
/// assert_eq!((turn.counts[0], turn.counts[15], turn.last), (2, 1, 0));
/// assert_eq!(deal(running, 65, 15), Err(Refusal::BadTurn));
/// # Ok::<(), Refusal>(())
/// ```
pub fn deal(running: [bool; BAYS], steps: usize, last: usize) -> Result<Turn, Refusal> {
    let mask = (0..BAYS).filter(|&bay| running[bay]).fold(0, |mask, bay| mask | 1 << bay);
    let mut counts = [0; BAYS];
    let last = ffi::deal(mask, steps, last, &mut counts)?;
    Ok(Turn { counts, last })
}
