//! Laps against the mat: the number of pairs is the largest, found by dynamic programming; every time is
//! reported in one place; refusals write nothing.
use honecerise::*;

const FILLER: u32 = 0xaaaa_aaaa;

/// The four lists that a report goes to.
#[derive(Clone, PartialEq, Debug)]
struct Lists {
    paired_watch: Vec<u32>,
    paired_mat: Vec<u32>,
    alone_watch: Vec<u32>,
    alone_mat: Vec<u32>,
}

impl Lists {
    fn new(watch: usize, mat: usize) -> Self {
        let filled = |count| vec![FILLER; count];
        Lists { paired_watch: filled(watch), paired_mat: filled(mat), alone_watch: filled(watch), alone_mat: filled(mat) }
    }

    fn match_laps(&mut self, watch: &[u32], mat: &[u32]) -> Result<usize, Refusal> {
        let Lists { paired_watch, paired_mat, alone_watch, alone_mat } = self;
        match_laps(watch, mat, paired_watch, paired_mat, alone_watch, alone_mat)
    }
}

/// The largest number of pairs, whatever the pairing: of the first i and j times, by those of fewer.
fn largest(watch: &[u32], mat: &[u32]) -> usize {
    let mut before = vec![0; mat.len() + 1];
    for &w in watch {
        let mut row = vec![0; mat.len() + 1];
        for (j, &m) in mat.iter().enumerate() {
            let both = if w.abs_diff(m) <= MOST_APART { before[j] + 1 } else { 0 };
            row[j + 1] = both.max(before[j + 1]).max(row[j]);
        }
        before = row;
    }
    before[mat.len()]
}

fn rises(times: &[u32]) -> bool {
    times.windows(2).all(|t| t[0] < t[1])
}

/// The two parts together are the list.
fn parts(list: &[u32], a: &[u32], b: &[u32]) -> bool {
    let mut all = [a, b].concat();
    all.sort_unstable();
    rises(a) && rises(b) && all == list
}

fn holds(watch: &[u32], mat: &[u32]) -> usize {
    let mut lists = Lists::new(watch.len() + 3, mat.len() + 3);
    let p = lists.match_laps(watch, mat).unwrap();
    let (w, m) = (watch.len() - p, mat.len() - p);
    assert_eq!(p, largest(watch, mat), "{watch:?} {mat:?}");
    assert!(parts(watch, &lists.paired_watch[..p], &lists.alone_watch[..w]));
    assert!(parts(mat, &lists.paired_mat[..p], &lists.alone_mat[..m]));
    assert!(lists.paired_watch.iter().zip(&lists.paired_mat).take(p).all(|(a, b)| a.abs_diff(*b) <= MOST_APART));
    let rests = [&lists.paired_watch[p..], &lists.paired_mat[p..], &lists.alone_watch[w..], &lists.alone_mat[m..]];
    assert!(rests.iter().all(|rest| rest.iter().all(|&x| x == FILLER)));
    p
}

/// Numbers at random, the same in every run.
struct Random(u64);

impl Random {
    fn next(&mut self, below: u64) -> u64 {
        self.0 ^= self.0 << 13;
        self.0 ^= self.0 >> 7;
        self.0 ^= self.0 << 17;
        self.0 % below
    }

    /// A rising list of so many times at most, a step of the widest at most apart.
    fn times(&mut self, most: u64, widest: u64) -> Vec<u32> {
        let mut at = self.next(200);
        let mut times = vec![];
        for _ in 0..self.next(most + 1) {
            times.push(at as u32);
            at += 1 + self.next(widest);
        }
        times
    }
}

#[test]
fn the_largest_number_of_pairs() {
    let mut random = Random(0x9e37_79b9_7f4a_7c15);
    let mut pairs = 0;
    for round in 0..30_000 {
        let widest = [5, 40, 60, 120, 300][round % 5];
        let (watch, mat) = (random.times(40, widest), random.times(40, widest));
        pairs += holds(&watch, &mat);
    }
    assert!(pairs > 100_000, "{pairs}");
    for _ in 0..50 {
        let (watch, mat) = (random.times(512, 90), random.times(512, 90));
        holds(&watch, &mat);
    }
}

#[test]
fn near_and_far() {
    assert_eq!((holds(&[100], &[150]), holds(&[100], &[151])), (1, 0));
    assert_eq!((holds(&[150], &[100]), holds(&[151], &[100])), (1, 0));
    assert_eq!(holds(&[0, u32::MAX - 60], &[u32::MAX - 10, u32::MAX]), 1);
    assert_eq!(holds(&[0], &[u32::MAX]), 0);
    assert_eq!(holds(&[0, 40], &[45, 90]), 2);
    assert_eq!((holds(&[], &[]), holds(&[7], &[]), holds(&[], &[7])), (0, 0, 0));
    let long: Vec<u32> = (0..512).map(|i| 60 * i).collect();
    assert_eq!(holds(&long, &long), 512);
}

#[test]
fn refusals_write_nothing() {
    let long: Vec<u32> = (0..513).collect();
    let short = Lists::new(0, 0);
    for (watch, mat) in [(&long[..], &[][..]), (&[], &long), (&[5, 5], &[]), (&[], &[6, 5]), (&[1, 2], &[3, 3])] {
        let mut lists = Lists::new(513, 513);
        assert_eq!(lists.match_laps(watch, mat), Err(Refusal::BadTimes));
        assert_eq!(lists, Lists::new(513, 513));
        assert_eq!(short.clone().match_laps(watch, mat), Err(Refusal::BadTimes));
    }
    for at in 0..4 {
        let mut lists = Lists::new(2, 3);
        let Lists { paired_watch, paired_mat, alone_watch, alone_mat } = &mut lists;
        [paired_watch, paired_mat, alone_watch, alone_mat][at].pop();
        let before = lists.clone();
        assert_eq!(lists.match_laps(&[1, 2], &[100, 200, 300]), Err(Refusal::BadBuffer));
        assert_eq!(lists, before);
    }
}
