//! A store or an image: where its parts stand, and the same as slices of inodes and blocks.

pub const FREE: u8 = 0;
pub const FILE: u8 = 1;
pub const DIRECTORY: u8 = 2;
pub const BLOCK: usize = 64;
/// The most bytes of a directory, and of a file without an address block.
pub const MOST_DIRECT_BYTES: usize = 768;
pub const MOST_BYTES: usize = 2752;
/// The addresses of an inode, and the place of a long file's address block among its blocks.
pub const DIRECT: usize = 12;
pub const ADDRESS_PLACE: usize = DIRECT - 1;
/// The most blocks of an inode: twelve and the 32 that an address block names.
pub const MOST_BLOCKS: usize = DIRECT + BLOCK / 2;
pub const MOST_INODES: usize = 256;
pub const MOST_STORE_BLOCKS: usize = 1024;
pub const MOST_IMAGE_BLOCKS: usize = 4096;

/// A byte for each block, set where an address names it; place 0 stands for no block.
pub type Map = [bool; MOST_IMAGE_BLOCKS + 1];

pub fn get16(s: &[u8], o: usize) -> usize {
    u16::from_le_bytes([s[o], s[o + 1]]) as usize
}

pub fn put16(s: &mut [u8], o: usize, v: usize) {
    s[o..o + 2].copy_from_slice(&(v as u16).to_le_bytes());
}

/// The count of inodes and of blocks.
#[derive(Clone, Copy, PartialEq)]
pub struct Shape {
    pub n: usize,
    pub b: usize,
}

impl Shape {
    pub fn allowed(n: usize, b: usize, limit: usize, length: usize) -> Option<Shape> {
        let right = (1..=MOST_INODES).contains(&n) && (1..=limit).contains(&b) && length == 16 + 32 * n + 64 * b;
        right.then_some(Shape { n, b })
    }

    /// By the header's own counts.
    pub fn framed(s: &[u8], limit: usize) -> Option<Shape> {
        if s.len() < 16 {
            return None;
        }
        Shape::allowed(get16(s, 0), get16(s, 2), limit, s.len())
    }

    pub fn attributes(self, i: usize) -> usize {
        16 + 8 * (i - 1)
    }

    pub fn addresses(self, i: usize) -> usize {
        16 + 8 * self.n + 24 * (i - 1)
    }

    pub fn block(self, c: usize) -> usize {
        16 + 32 * self.n + BLOCK * (c - 1)
    }

    /// Where the address of the k-th block of inode i stands, in the order of taking and copying: behind the twelve, in the address block.
    pub fn kth(self, s: &[u8], i: usize, k: usize) -> usize {
        if k < DIRECT {
            return self.addresses(i) + 2 * k;
        }
        self.block(get16(s, self.addresses(i) + 2 * ADDRESS_PLACE)) + 2 * (k - DIRECT)
    }
}

/// The addresses of a file's blocks of bytes: the first in its record, the rest of a long file's in its address block.
#[derive(Clone, Copy)]
pub struct Places {
    record: usize,
    further: Option<usize>,
}

impl Places {
    pub fn of(s: &[u8], shape: Shape, i: usize, file: Inode) -> Places {
        Places { record: shape.addresses(i), further: file.is_long().then(|| shape.kth(s, i, DIRECT)) }
    }

    /// Where the address of the p-th block of bytes stands.
    pub fn at(self, p: usize) -> usize {
        match self.further {
            Some(further) if p >= ADDRESS_PLACE => further + 2 * (p - ADDRESS_PLACE),
            _ => self.record + 2 * p,
        }
    }
}

/// An inode's attributes.
#[derive(Clone, Copy)]
pub struct Inode {
    pub kind: u8,
    pub links: u16,
    pub size: u16,
    pub parent: u16,
}

impl Inode {
    pub fn of(a: [u8; 8]) -> Inode {
        let w = u64::from_le_bytes(a);
        Inode { kind: w as u8, links: (w >> 16) as u16, size: (w >> 32) as u16, parent: (w >> 48) as u16 }
    }

    pub fn bytes(self) -> [u8; 8] {
        (self.kind as u64 | (self.links as u64) << 16 | (self.size as u64) << 32 | (self.parent as u64) << 48).to_le_bytes()
    }

    pub fn size(self) -> usize {
        self.size as usize
    }

    /// Blocks of the inode, an address block included.
    pub fn blocks(self) -> usize {
        self.size().div_ceil(BLOCK) + (self.size() > MOST_DIRECT_BYTES) as usize
    }

    /// A file with an address block.
    pub fn is_long(self) -> bool {
        self.size() > MOST_DIRECT_BYTES && self.kind == FILE
    }

    pub fn put(self, s: &mut [u8], shape: Shape, i: usize) {
        let o = shape.attributes(i);
        s[o..o + 8].copy_from_slice(&self.bytes());
    }
}

/// The parts of a framed store or image. An inode has an address block by its own kind and size, the locked one of a running copy by the store's.
#[derive(Clone, Copy)]
pub struct View<'a> {
    locked: usize,
    locked_long: bool,
    pub attributes: &'a [[u8; 8]],
    pub addresses: &'a [[u8; 24]],
    pub blocks: &'a [[u8; 64]],
}

impl<'a> View<'a> {
    pub fn of(s: &'a [u8], shape: Shape) -> View<'a> {
        let (attributes, rest) = s[16..].split_at(8 * shape.n);
        let (addresses, blocks) = rest.split_at(24 * shape.n);
        View { locked: 0, locked_long: false, attributes: attributes.as_chunks().0, addresses: addresses.as_chunks().0, blocks: blocks.as_chunks().0 }
    }

    /// Of the image of a running copy; `long`: the locked inode, if there is one, is a long file of the store.
    pub fn of_copy(image: &'a [u8], shape: Shape, locked: usize, long: bool) -> View<'a> {
        View { locked, locked_long: long, ..View::of(image, shape) }
    }

    pub fn inode(&self, i: usize) -> Inode {
        Inode::of(self.attributes[i - 1])
    }

    /// Inode i, if that is a number of one of this kind.
    pub fn of_kind(&self, i: usize, kind: u8) -> Option<Inode> {
        let a = self.attributes.get(i.wrapping_sub(1))?;
        (a[0] == kind).then(|| Inode::of(*a))
    }

    /// The twelve addresses of inode i.
    pub fn addresses_of(&self, i: usize) -> &'a [[u8; 2]] {
        self.addresses[i - 1].as_chunks().0
    }

    /// The first k blocks of inode i.
    pub fn blocks_of(&self, i: usize, k: usize) -> impl Iterator<Item = &'a [u8; 64]> + 'a {
        let blocks = self.blocks;
        self.addresses_of(i)[..k].iter().map(move |&a| &blocks[u16::from_le_bytes(a) as usize - 1])
    }

    /// The twelve addresses of each inode.
    pub fn direct_addresses(&self) -> impl Iterator<Item = u16> + 'a {
        self.addresses.as_flattened().as_chunks().0.iter().map(|&a| u16::from_le_bytes(a))
    }

    /// The 32 entries of every address block that is one of the blocks.
    pub fn further_addresses(&self) -> impl Iterator<Item = u16> + 'a {
        let v = *self;
        let long = v.attributes.iter().enumerate().filter(|(_, a)| get16(*a, 4) > MOST_DIRECT_BYTES && a[0] == FILE).map(|(k, _)| k + 1);
        let locked = v.locked_long.then_some(v.locked);
        long.filter(move |&i| i != v.locked).chain(locked).flat_map(move |i| v.further(&v.addresses[i - 1])).map(|&a| u16::from_le_bytes(a))
    }

    /// Inode i has an address block, once its last address names one.
    pub fn has_further(&self, i: usize) -> bool {
        if i == self.locked { self.locked_long } else { self.inode(i).is_long() }
    }

    /// The block that the last of an inode's addresses names, as addresses; none if it names none.
    pub fn further(&self, addresses: &[u8; 24]) -> &'a [[u8; 2]] {
        let c = get16(addresses, 2 * ADDRESS_PLACE);
        self.blocks.get(c.wrapping_sub(1)).map_or(&[], |block| block.as_chunks().0)
    }

    /// An address names block c.
    pub fn names(&self, c: usize) -> bool {
        self.direct_addresses().fold(false, |named, a| named | (a == c as u16)) || self.further_addresses().any(|a| a == c as u16)
    }

    /// Which blocks an address names, in one pass; most inodes have none.
    pub fn named(&self) -> Map {
        let mut map = [false; MOST_IMAGE_BLOCKS + 1];
        for (k, addresses) in self.addresses.iter().enumerate().filter(|(_, addresses)| **addresses != [0; 24]) {
            note(&mut map, addresses.as_chunks().0);
            if self.has_further(k + 1) {
                note(&mut map, self.further(addresses));
            }
        }
        map
    }
}

fn note(map: &mut Map, addresses: &[[u8; 2]]) {
    for a in addresses {
        map[u16::from_le_bytes(*a) as usize] = true;
    }
}

pub fn free_inodes(s: &[u8]) -> usize {
    get16(s, 4)
}

pub fn free_blocks(s: &[u8]) -> usize {
    get16(s, 6)
}

pub fn put_free(s: &mut [u8], inodes: usize, blocks: usize) {
    put16(s, 4, inodes);
    put16(s, 6, blocks);
}
