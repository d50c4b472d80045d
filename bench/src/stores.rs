//! Sound stores, and one that is not, built byte by byte.

/// A store under construction: entries and blocks are handed out in order.
pub struct Build {
    s: Vec<u8>,
    n: usize,
    b: usize,
    next_inode: usize,
    next_block: usize,
}

impl Build {
    pub fn new(n: usize, b: usize) -> Build {
        let mut s = vec![0u8; 16 + 32 * n + 64 * b];
        s[0..2].copy_from_slice(&(n as u16).to_le_bytes());
        s[2..4].copy_from_slice(&(b as u16).to_le_bytes());
        s[8] = 1;
        s[10] = 1;
        s[16] = 2;
        Build { s, n, b, next_inode: 2, next_block: 1 }
    }
    fn put16(&mut self, o: usize, v: usize) {
        self.s[o..o + 2].copy_from_slice(&(v as u16).to_le_bytes());
    }
    fn get16(&self, o: usize) -> usize {
        u16::from_le_bytes([self.s[o], self.s[o + 1]]) as usize
    }
    fn size(&self, i: usize) -> usize {
        self.get16(16 + 8 * (i - 1) + 4)
    }
    /// Where the address of the k-th block of inode i stands: the twelfth names the block that has those behind it.
    fn kth(&self, i: usize, k: usize) -> usize {
        let record = 16 + 8 * self.n + 24 * (i - 1);
        if k < 12 { record + 2 * k } else { self.block(self.get16(record + 22)) + 2 * (k - 12) }
    }
    fn block(&self, c: usize) -> usize {
        16 + 32 * self.n + 64 * (c - 1)
    }
    /// More blocks, up to 768 bytes or in one go from none.
    fn grow(&mut self, i: usize, size: usize) {
        for k in blocks(self.size(i))..blocks(size) {
            let (at, c) = (self.kth(i, k), self.next_block);
            self.next_block += 1;
            self.put16(at, c);
        }
        self.put16(16 + 8 * (i - 1) + 4, size);
    }
    /// Bytes in all blocks of file i, which are full; every third file then ends mid-block.
    fn fill(&mut self, i: usize) {
        let size = self.size(i);
        for p in 0..size / 64 {
            let c = self.get16(self.kth(i, p + (size > 768 && p > 10) as usize));
            let o = self.block(c);
            let end = if i % 3 == 0 && p + 1 == size / 64 { 40 } else { 64 };
            self.s[o..o + end].fill(c as u8 | 1);
        }
        if i % 3 == 0 && size > 0 {
            self.put16(16 + 8 * (i - 1) + 4, size - 24);
        }
    }
    /// A new inode in directory d, under a name made of its number.
    fn add(&mut self, d: usize, kind: u8, slot: usize) -> usize {
        let i = self.next_inode;
        self.next_inode += 1;
        if slot % 4 == 0 {
            let z = self.size(d) + 64;
            self.grow(d, z);
        }
        let o = self.block(self.get16(self.kth(d, slot / 4))) + 16 * (slot % 4);
        self.put16(o, i);
        let name = format!("run-{:05}-lap", i);
        self.s[o + 2..o + 2 + name.len()].copy_from_slice(name.as_bytes());
        let a = 16 + 8 * (i - 1);
        self.s[a] = kind;
        self.put16(a + 2, 1);
        if kind == 2 {
            self.put16(a + 6, d);
        }
        i
    }
    pub fn done(mut self) -> Vec<u8> {
        let (i, c) = (self.n + 1 - self.next_inode, self.b + 1 - self.next_block);
        self.put16(4, i);
        self.put16(6, c);
        self.s
    }
}

/// The blocks that a size uses, an address block included.
fn blocks(size: usize) -> usize {
    size.div_ceil(64) + (size > 768) as usize
}

pub fn empty() -> Vec<u8> {
    Build::new(256, 1024).done()
}

/// 256 inodes, five full directories and one more, and files that take blocks until none is left (of 4,096 some stay free). Every third file ends mid-block.
pub fn full(b: usize) -> Vec<u8> {
    let mut w = Build::new(256, b);
    let mut dirs = vec![1];
    let mut files = vec![];
    let mut slot = 0;
    let mut at = 0;
    while w.next_inode <= 256 {
        if slot == 48 {
            at += 1;
            slot = 0;
        }
        let d = dirs[at];
        if dirs.len() < 6 && slot < 6 && at == 0 {
            let i = w.add(d, 2, slot);
            dirs.push(i);
        } else {
            let i = w.add(d, 1, slot);
            files.push(i);
        }
        slot += 1;
    }
    for i in files {
        while w.next_block <= w.b && w.size(i) < 768 {
            let z = w.size(i) + 64;
            w.grow(i, z);
        }
    }
    for i in 2..=256 {
        if w.s[16 + 8 * (i - 1)] == 1 {
            w.fill(i);
        }
    }
    w.done()
}

/// 256 inodes and 1,024 blocks, of which 23 files of 2,752 bytes in two directories leave five. Every third file ends mid-block.
pub fn long() -> Vec<u8> {
    let mut w = Build::new(256, 1024);
    let directories = [w.add(1, 2, 0), w.add(1, 2, 1)];
    for k in 0..23 {
        let i = w.add(directories[k % 2], 1, k / 2);
        w.grow(i, 2752);
        w.fill(i);
    }
    w.done()
}

/// 255 directories, each in the one before it; `down`: the deepest has the lowest number, so the first climb is the whole way.
pub fn chain(down: bool) -> Vec<u8> {
    let mut w = Build::new(256, 1024);
    let mut d = 1;
    for k in 0..255 {
        w.next_inode = if down { 256 - k } else { 2 + k };
        d = w.add(d, 2, 0);
    }
    w.next_inode = 257;
    w.done()
}

/// Two directories that hold each other, apart from the root: all is right but the way up.
pub fn cycle() -> Vec<u8> {
    let mut w = Build::new(256, 1024);
    w.next_inode = 3;
    w.add(2, 2, 0);
    w.next_inode = 2;
    w.add(3, 2, 0);
    w.s[16 + 8] = 2;
    w.s[16 + 16] = 2;
    w.next_inode = 4;
    w.done()
}
