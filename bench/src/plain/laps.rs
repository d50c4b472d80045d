//! Laps against the mat.
use super::refusal::{BAD_BUFFER, BAD_TIMES};
use super::Answer;

const MOST_TIMES: usize = 512;
const MOST_APART: u32 = 50;

fn allowed(times: &[u32]) -> bool {
    times.len() <= MOST_TIMES && times.windows(2).all(|t| t[0] < t[1])
}

fn room(times: &[u32], pairs: &[u32], alone: &[u32]) -> bool {
    times.len() <= pairs.len() && times.len() <= alone.len()
}

pub fn match_laps(
    watch: &[u32], mat: &[u32],
    paired_watch: &mut [u32], paired_mat: &mut [u32], alone_watch: &mut [u32], alone_mat: &mut [u32],
) -> Answer {
    if !allowed(watch) || !allowed(mat) {
        return Err(BAD_TIMES);
    }
    if !room(watch, paired_watch, alone_watch) || !room(mat, paired_mat, alone_mat) {
        return Err(BAD_BUFFER);
    }
    let (mut i, mut j, mut p) = (0, 0, 0);
    while i < watch.len() && j < mat.len() {
        let (w, m) = (watch[i], mat[j]);
        if w.abs_diff(m) <= MOST_APART {
            paired_watch[p] = w;
            paired_mat[p] = m;
            (i, j, p) = (i + 1, j + 1, p + 1);
        } else if w < m {
            alone_watch[i - p] = w;
            i += 1;
        } else {
            alone_mat[j - p] = m;
            j += 1;
        }
    }
    alone_watch[i - p..watch.len() - p].copy_from_slice(&watch[i..]);
    alone_mat[j - p..mat.len() - p].copy_from_slice(&mat[j..]);
    Ok(p)
}
