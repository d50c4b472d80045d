//! Which copies to keep.
use super::refusal::{AFTER_ASKED, BAD_BUFFER, BAD_TERMS, NO_DATE};
use super::Answer;

const MOST_COPIES: usize = 256;
const MOST_TERM_DAYS: usize = 24;
const YOUNG_DAYS: usize = 13;
const TERM_DAYS: usize = 56;
const DAY_WORDS: usize = 286;

const fn month_length(year: usize, month: usize) -> usize {
    match month {
        2 if year % 4 == 0 && (year % 100 != 0 || year % 400 == 0) => 29,
        2 => 28,
        4 | 6 | 9 | 11 => 30,
        _ => 31,
    }
}

/// The first day of each month from January 2000 on.
const MONTH_STARTS: [u16; 600] = {
    let mut starts = [0; 600];
    let mut k = 1;
    while k < 600 {
        starts[k] = starts[k - 1] + month_length(2000 + (k - 1) / 12, (k - 1) % 12 + 1) as u16;
        k += 1;
    }
    starts
};

fn reckon(date: u32) -> Option<u16> {
    let n = date as usize;
    let (year, month, day) = (n / 10000, n / 100 % 100, n % 100);
    if !(2000..=2049).contains(&year) || !(1..=12).contains(&month) || !(1..=month_length(year, month)).contains(&day) {
        return None;
    }
    Some(MONTH_STARTS[(year - 2000) * 12 + month - 1] + (day - 1) as u16)
}

fn read_days(dates: &[u32], days: &mut [u16]) -> Option<()> {
    for (day, &date) in days.iter_mut().zip(dates) {
        *day = reckon(date)?;
    }
    Some(())
}

fn in_order(terms: &[u16]) -> bool {
    let mut free = 0;
    for term in terms.chunks_exact(2) {
        if term[0] < free || term[1] < term[0] {
            return false;
        }
        free = term[1] + 1;
    }
    true
}

fn noted(map: &[u64; DAY_WORDS], day: usize) -> bool {
    map[day / 64] >> (day % 64) & 1 == 1
}

fn term_keeps(map: &[u64; DAY_WORDS], term: &[u16], latest: u16, today: usize, day: usize) -> bool {
    let (first, last) = (term[0] as usize, term[1] as usize);
    if day < first || last < day {
        return false;
    }
    let sunday = (day + 5) / 7 * 7 + 1;
    latest as usize <= day || today <= last + TERM_DAYS && !(day + 1..=sunday.min(last)).any(|d| noted(map, d))
}

pub fn keep(copies: &[u32], terms: &[u32], asked: u32, out: &mut [u8]) -> Answer {
    let (n, m) = (copies.len(), terms.len());
    if n > MOST_COPIES || m > MOST_TERM_DAYS || m % 2 != 0 || n > out.len() {
        return Err(BAD_BUFFER);
    }
    let (mut days, mut ends) = ([0; MOST_COPIES], [0; MOST_TERM_DAYS]);
    read_days(copies, &mut days).ok_or(NO_DATE)?;
    read_days(terms, &mut ends).ok_or(NO_DATE)?;
    let today = reckon(asked).ok_or(NO_DATE)? as usize;
    let (days, terms) = (&days[..n], &ends[..m]);
    if !in_order(terms) {
        return Err(BAD_TERMS);
    }
    if days.iter().any(|&d| today < d as usize) {
        return Err(AFTER_ASKED);
    }
    let mut map = [0u64; DAY_WORDS];
    for (flag, &day) in out[..n].iter_mut().zip(days).rev() {
        let day = day as usize;
        *flag = !noted(&map, day) as u8;
        map[day / 64] |= 1 << (day % 64);
    }
    let mut latest = [0; MOST_TERM_DAYS / 2];
    for (l, term) in latest.iter_mut().zip(terms.chunks_exact(2)) {
        *l = days.iter().copied().filter(|&d| d <= term[1]).max().unwrap_or(0);
    }
    let mut kept = 0;
    for (flag, &day) in out.iter_mut().zip(days) {
        let day = day as usize;
        let keeps = *flag == 1
            && (today <= day + YOUNG_DAYS
                || terms.chunks_exact(2).zip(&latest).any(|(term, &l)| term_keeps(&map, term, l, today, day)));
        *flag = keeps as u8;
        kept += keeps as usize;
    }
    Ok(kept)
}
