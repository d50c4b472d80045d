//! Document 01's "A sound store": one pass over inodes and addresses, one over entries, then links, parents and free counts.
use super::names::{folded, legal_word, split};
use super::view::{free_blocks, free_inodes, get16, Inode, Map, Shape, View, ADDRESS_PLACE, BLOCK, DIRECT, DIRECTORY, FILE, FREE, MOST_BYTES, MOST_DIRECT_BYTES, MOST_IMAGE_BLOCKS, MOST_INODES, MOST_STORE_BLOCKS};

/// How many entries name each inode.
type Counts = [u16; MOST_INODES + 1];

/// `image`: up to 4,096 blocks, and free blocks must be zero.
pub fn check(s: &[u8], image: bool) -> bool {
    let limit = if image { MOST_IMAGE_BLOCKS } else { MOST_STORE_BLOCKS };
    Shape::framed(s, limit).is_some_and(|shape| body_right(s, shape, image))
}

/// What holds of a store whose counts and length are right.
pub fn body_right(s: &[u8], shape: Shape, image: bool) -> bool {
    let v = View::of(s, shape);
    if s[8] != 1 || s[9] != 0 || get16(s, 10) != 1 || s[12..16] != [0; 4] {
        return false;
    }
    let root = v.inode(1);
    if root.kind != DIRECTORY || root.parent != 0 {
        return false;
    }
    let mut map: Map = [false; MOST_IMAGE_BLOCKS + 1];
    let Some((inodes, used)) = inodes_right(&v, &mut map[..=shape.b]) else {
        return false;
    };
    let mut counts = [0; MOST_INODES + 1];
    entries_right(&v, &mut counts)
        && links_right(&v, &counts)
        && parents_right(&v)
        && free_inodes(s) == inodes
        && free_blocks(s) == shape.b - used
        && (!image || blanks_right(&v, &map))
}

/// All inodes; the count of free ones and of the blocks used, which the map then has.
fn inodes_right(v: &View, map: &mut [bool]) -> Option<(usize, usize)> {
    map[0] = true;
    let (mut free, mut used) = (0, 0);
    for (a, addresses) in v.attributes.iter().zip(v.addresses) {
        if *a == [0; 8] {
            if *addresses != [0; 24] {
                return None;
            }
            free += 1;
            continue;
        }
        let inode = Inode::of(*a);
        if a[1] != 0 || !attributes_right(inode) || !blocks_right(v, addresses, inode.size(), map) {
            return None;
        }
        used += inode.blocks();
    }
    Some((free, used))
}

/// The attributes of an inode that are not all zero.
fn attributes_right(a: Inode) -> bool {
    match a.kind {
        FILE => a.size() <= MOST_BYTES && a.parent == 0,
        DIRECTORY => a.size() <= MOST_DIRECT_BYTES && a.size() % BLOCK == 0,
        _ => false,
    }
}

/// The blocks of a size: those of the record, then those behind the address block, and the last bytes. (A directory's size is whole blocks, at most twelve.)
fn blocks_right(v: &View, record: &[u8; 24], size: usize, map: &mut [bool]) -> bool {
    let direct = record.as_chunks().0;
    let used = size.div_ceil(BLOCK);
    if size <= MOST_DIRECT_BYTES {
        return addresses_right(direct, used, map) && zero_tail(v, direct, size, used);
    }
    addresses_right(direct, DIRECT, map) && further_right(v, v.further(record), size, map)
}

/// The entries of an address block. (Apart, so that the loop over the other inodes stays short.)
#[inline(never)]
fn further_right(v: &View, further: &[[u8; 2]], size: usize, map: &mut [bool]) -> bool {
    let used = size.div_ceil(BLOCK) - ADDRESS_PLACE;
    addresses_right(further, used, map) && zero_tail(v, further, size, used)
}

/// The first addresses, as many as used, name blocks that none before them names (0 is in the map from the start); the rest are 0.
fn addresses_right(addresses: &[[u8; 2]], used: usize, map: &mut [bool]) -> bool {
    let (named, rest) = addresses.split_at(used);
    for a in named {
        match map.get_mut(u16::from_le_bytes(*a) as usize) {
            Some(seen) if !*seen => *seen = true,
            _ => return false,
        }
    }
    rest.iter().all(|a| *a == [0; 2])
}

/// The bytes past a file's size in its last block, which the last of the used addresses names.
fn zero_tail(v: &View, addresses: &[[u8; 2]], size: usize, used: usize) -> bool {
    size % BLOCK == 0 || v.blocks[u16::from_le_bytes(addresses[used - 1]) as usize - 1][size % BLOCK..].iter().all(|&x| x == 0)
}

fn entries_right(v: &View, counts: &mut Counts) -> bool {
    (1..=v.attributes.len()).all(|d| {
        let a = v.inode(d);
        a.kind != DIRECTORY || directory_right(v, d, a.blocks(), counts)
    })
}

/// The entries of directory d: legal names that differ, of inodes in use.
fn directory_right(v: &View, d: usize, blocks: usize, counts: &mut Counts) -> bool {
    let (mut names, mut filled) = ([0u128; 48], 0);
    for block in v.blocks_of(d, blocks) {
        for e in block.as_chunks().0 {
            let (i, name) = split(e);
            if i == 0 && name == 0 {
                continue;
            }
            let same = folded(name);
            if !legal_word(name) || !nameable(v, d, i) || names[..filled].contains(&same) {
                return false;
            }
            names[filled] = same;
            filled += 1;
            counts[i] += 1;
        }
    }
    true
}

/// Inode i is in use and not the root; a directory's parent is d.
fn nameable(v: &View, d: usize, i: usize) -> bool {
    i > 1 && i <= v.attributes.len() && {
        let a = v.inode(i);
        a.kind == FILE || a.kind == DIRECTORY && a.parent as usize == d
    }
}

fn links_right(v: &View, counts: &Counts) -> bool {
    v.attributes.iter().zip(&counts[1..]).enumerate().all(|(k, (a, &count))| {
        let a = Inode::of(*a);
        a.links == count && (a.kind == FREE || k == 0 || count == 1 || a.kind == FILE && count > 1)
    })
}

/// Parents lead to the root: a path is followed only up to what is known to lead there.
fn parents_right(v: &View) -> bool {
    let mut known = [false; MOST_INODES + 1];
    known[1] = true;
    (1..=v.attributes.len()).all(|d| v.attributes[d - 1][0] != DIRECTORY || climbs(v, d, &mut known))
}

fn climbs(v: &View, d: usize, known: &mut [bool]) -> bool {
    let (mut at, mut left) = (d, v.attributes.len());
    while !known[at] {
        if left == 0 {
            return false;
        }
        left -= 1;
        at = v.inode(at).parent as usize;
    }
    at = d;
    while !known[at] {
        known[at] = true;
        at = v.inode(at).parent as usize;
    }
    true
}

fn blanks_right(v: &View, map: &Map) -> bool {
    v.blocks.iter().zip(&map[1..]).all(|(block, &named)| named || *block == [0; 64])
}
