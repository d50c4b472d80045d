//! What is read off and written to the image of a running copy, whose addresses are inside.
use super::desk::{clear_mark, is_copied, Desk};
use super::view::{put_free, Map, Shape, View, DIRECTORY, FREE, MOST_INODES};

/// Inode i was taken from slot s of directory d: the mark goes, and if d is copied and i is not, the entry that names i in the same slot of the image.
pub fn taken(image: &mut [u8], desk: &mut [u8], notes: Desk, d: usize, slot: usize, i: usize) {
    if !notes.running() {
        return;
    }
    let n = notes.n;
    if is_copied(desk, n, d) && !is_copied(desk, n, i) {
        cut_entry(image, Shape { n, b: notes.blocks }, d, slot, i);
    }
    clear_mark(desk, n, d, slot);
}

fn cut_entry(image: &mut [u8], shape: Shape, d: usize, slot: usize, i: usize) {
    let v = View::of(image, shape);
    let c = u16::from_le_bytes(v.addresses_of(d)[slot / 4]) as usize;
    if v.inode(d).kind != DIRECTORY || c == 0 {
        return;
    }
    let o = shape.block(c) + 16 * (slot % 4);
    if image[o..o + 2] == (i as u16).to_le_bytes() {
        image[o..o + 16].fill(0);
    }
}

/// How many slots of image directories name each inode; at 0, and above the inodes, nothing is said.
pub type Names = [u16; MOST_INODES + 1];

/// The inode numbers in the slots of the blocks that these addresses name, 0 for an empty one.
fn slots_at<'a>(v: &View<'a>, addresses: &'a [u8; 24]) -> impl Iterator<Item = usize> + 'a {
    let blocks = v.blocks;
    let named = addresses.as_chunks::<2>().0.iter().filter_map(move |&a| blocks.get((u16::from_le_bytes(a) as usize).wrapping_sub(1)));
    named.flat_map(|block| block.as_chunks::<16>().0).map(|e| u16::from_le_bytes([e[0], e[1]]) as usize)
}

/// The same of all image directories.
fn slot_inodes<'a>(v: &View<'a>) -> impl Iterator<Item = usize> + 'a {
    let v = *v;
    let directories = v.attributes.iter().zip(v.addresses).filter(|(a, _)| a[0] == DIRECTORY);
    directories.flat_map(move |(_, addresses)| slots_at(&v, addresses))
}

pub fn names(v: &View) -> Names {
    let mut names = [0; MOST_INODES + 1];
    count(slot_inodes(v), &mut names);
    names
}

/// One directory's slots more.
pub fn count_directory(v: &View, d: usize, names: &mut Names) {
    count(slots_at(v, &v.addresses[d - 1]), names);
}

fn count(inodes: impl Iterator<Item = usize>, names: &mut Names) {
    for i in inodes {
        if let Some(count) = names.get_mut(i) {
            *count += 1;
        }
    }
}

/// The lowest uncopied inode that an image directory names.
pub fn next_inode(v: &View, desk: &[u8], n: usize) -> Option<usize> {
    slot_inodes(v).filter(|&i| (1..=n).contains(&i) && !is_copied(desk, n, i)).min()
}

/// Where the store's block c goes: its own number if that is an unnamed block, else the lowest such.
pub fn target(v: &View, c: usize) -> Option<usize> {
    let b = v.blocks.len();
    if c <= b && !v.names(c) {
        return Some(c);
    }
    v.named()[1..=b].iter().position(|&named| !named).map(|k| k + 1)
}

/// Link counts, free counts and byte 8 of a finished image.
pub fn finish(image: &mut [u8], shape: Shape, names: &Names, map: &Map) {
    let v = View::of(image, shape);
    let inodes = v.attributes.iter().filter(|a| a[0] == FREE).count();
    let blocks = free_in(map, shape.b);
    for (i, count) in names.iter().enumerate().take(shape.n + 1).skip(1) {
        let o = shape.attributes(i) + 2;
        image[o..o + 2].copy_from_slice(&count.to_le_bytes());
    }
    put_free(image, inodes, blocks);
    image[8] = 1;
}

fn free_in(map: &Map, b: usize) -> usize {
    map[1..=b].iter().filter(|&&named| !named).count()
}
