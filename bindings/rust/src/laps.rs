//! Lap times of a watch against those of the track's timing mat.
use crate::{Refusal, ffi};

/// Pairs the crossings that a watch and the mat both recorded, and answers how many pairs there are.
///
/// Times are hundredths of a second; both lists rise strictly and have at most
/// [`MAX_TIMES`](crate::MAX_TIMES). A watch time and a mat time may be paired if they are at most
/// [`MOST_APART`](crate::MOST_APART) apart; each is used once, and pairs keep their order. The number
/// of pairs p is the largest that any such pairing has.
///
/// The pairs are the first p of `paired_watch` and of `paired_mat`; the unmatched times are the first
/// `watch.len() - p` of `alone_watch` and the first `mat.len() - p` of `alone_mat`, each in rising
/// order. What lies behind them stays.
///
/// Unmatched: no time of the other list is near, or those near stand in earlier pairs (by the walk;
/// this is not proved). It does not say who is wrong: a mat time may be a missed lap, another runner,
/// or a second foot just after the first.
///
/// Refused with [`BadTimes`](Refusal::BadTimes), looked at first; then with
/// [`BadBuffer`](Refusal::BadBuffer) if one of the four is shorter than the list that its times come
/// from. A refused call writes nothing.
///
/// A watch whose clock is off by more than [`MOST_APART`](crate::MOST_APART) as a rule pairs little.
/// Try shifts, and match once more with the one that has the most pairs: the middle difference of
/// these says by how much more the clock is off.
///
/// ```
/// use honecerise::match_laps;
///
/// let (watch, mat) = ([7230, 14455, 21702], [7160, 7168, 14385, 21630]);
/// let (mut pw, mut pm, mut aw, mut am) = ([0; 3], [0; 4], [0; 3], [0; 4]);
/// let mut pairs = |shift: u32| {
///     let shifted = watch.map(|t| t - shift);
///     match_laps(&shifted, &mat, &mut pw, &mut pm, &mut aw, &mut am).unwrap()
/// };
/// // the watch is 0.7 seconds late: nothing pairs as it stands
/// assert_eq!(pairs(0), 0);
/// let best = (0..=100).step_by(10).max_by_key(|&s| (pairs(s), 100 - s)).unwrap();
/// assert_eq!(pairs(best), 3);
/// let mut more = [0, 1, 2].map(|k| pw[k] - pm[k]);
/// more.sort();
/// assert_eq!(best + more[1], 70);
/// // what is left of the mat times is a second foot
/// assert_eq!(am[..1], [7168]);
/// ```
pub fn match_laps(
    watch: &[u32],
    mat: &[u32],
    paired_watch: &mut [u32],
    paired_mat: &mut [u32],
    alone_watch: &mut [u32],
    alone_mat: &mut [u32],
) -> Result<usize, Refusal> {
    ffi::match_laps(watch, mat, paired_watch, paired_mat, alone_watch, alone_mat)
}
