//! The desk: its header by value, its copied bytes and its mark words.
use super::view::{get16, put16, Shape, MOST_BLOCKS, MOST_IMAGE_BLOCKS, MOST_INODES};

pub const IDLE: u8 = 0;
pub const RUNNING: u8 = 1;
pub const FINISHED: u8 = 2;
pub const STOPPED: u8 = 3;

#[derive(Clone, Copy)]
pub struct Desk {
    pub n: usize,
    pub blocks: usize,
    pub state: u8,
    pub locked: usize,
    pub copied: usize,
    pub steps: u32,
}

/// A desk for n inodes may be this long.
pub fn allowed(n: usize, length: usize) -> bool {
    (1..=MOST_INODES).contains(&n) && length == 16 + 9 * n
}

/// By its own count of inodes.
pub fn framed(d: &[u8]) -> bool {
    d.len() >= 16 && allowed(get16(d, 0), d.len())
}

impl Desk {
    pub fn read(d: &[u8]) -> Desk {
        Desk {
            n: get16(d, 0),
            blocks: get16(d, 2),
            state: d[4],
            locked: get16(d, 6),
            copied: get16(d, 8),
            steps: u32::from_le_bytes([d[12], d[13], d[14], d[15]]),
        }
    }

    pub fn put(self, d: &mut [u8]) {
        put16(d, 0, self.n);
        put16(d, 2, self.blocks);
        d[4] = self.state;
        put16(d, 6, self.locked);
        put16(d, 8, self.copied);
        d[12..16].copy_from_slice(&self.steps.to_le_bytes());
    }

    /// The counts of the copy's image.
    pub fn image(self) -> Shape {
        Shape { n: self.n, b: self.blocks }
    }

    pub fn running(self) -> bool {
        self.state == RUNNING
    }

    /// A framed desk is laid out as it must be.
    pub fn fits(self, d: &[u8]) -> bool {
        let blocks = if self.state == IDLE { self.blocks == 0 } else { (1..=MOST_IMAGE_BLOCKS).contains(&self.blocks) };
        self.state <= STOPPED
            && blocks
            && d[5] == 0
            && get16(d, 10) == 0
            && self.counts_fit()
            && d[16..16 + self.n].iter().fold(0, |all, &x| all | x) <= 1
    }

    /// A running copy has had at most so many steps.
    pub fn most_steps(self) -> u32 {
        ((MOST_BLOCKS + 2) * self.n) as u32
    }

    fn counts_fit(self) -> bool {
        if self.running() {
            return self.locked <= self.n && self.copied <= MOST_BLOCKS && self.steps <= self.most_steps();
        }
        self.locked == 0 && self.copied == 0 && self.steps <= self.most_steps() + 1
    }
}

/// Inode i, which may be no inode, is copied.
pub fn is_copied(d: &[u8], n: usize, i: usize) -> bool {
    (1..=n).contains(&i) && d[15 + i] == 1
}

fn mark_at(n: usize, i: usize) -> usize {
    16 + n + 8 * (i - 1)
}

pub fn marks(d: &[u8], n: usize, i: usize) -> u64 {
    let o = mark_at(n, i);
    u64::from_le_bytes(d[o..o + 8].try_into().unwrap())
}

fn put_marks(d: &mut [u8], n: usize, i: usize, w: u64) {
    let o = mark_at(n, i);
    d[o..o + 8].copy_from_slice(&w.to_le_bytes());
}

pub fn set_mark(d: &mut [u8], n: usize, i: usize, slot: usize) {
    put_marks(d, n, i, marks(d, n, i) | 1 << slot);
}

pub fn clear_mark(d: &mut [u8], n: usize, i: usize, slot: usize) {
    put_marks(d, n, i, marks(d, n, i) & !(1 << slot));
}
