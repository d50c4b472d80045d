//! The bytes of files: read, write and shorten.
use super::guards;
use super::refusal::{BUSY, NO_BLOCKS, PAST_END, WRONG_INODE};
use super::view::{free_blocks, free_inodes, get16, put16, put_free, Inode, Places, Shape, View, ADDRESS_PLACE, BLOCK, DIRECT, FILE, MOST_BLOCKS, MOST_BYTES};
use super::Answer;

pub fn read(store: &[u8], inode: usize, offset: usize, out: &mut [u8]) -> Answer {
    let shape = guards::store_alone(store)?;
    let v = View::of(store, shape);
    let file = v.of_kind(inode, FILE).ok_or(WRONG_INODE)?;
    let left = file.size().checked_sub(offset).ok_or(PAST_END)?;
    let count = left.min(out.len());
    let places = Places::of(store, shape, inode, file);
    for (at, run) in runs(offset, count) {
        let block = &v.blocks[get16(store, places.at(at / BLOCK)) - 1];
        out[at - offset..at - offset + run].copy_from_slice(&block[at % BLOCK..at % BLOCK + run]);
    }
    Ok(count)
}

/// The count bytes from offset on, as runs inside of one block: where each starts, and its length.
fn runs(offset: usize, count: usize) -> impl Iterator<Item = (usize, usize)> {
    let (mut at, end) = (offset, offset + count);
    std::iter::from_fn(move || {
        let run = (BLOCK - at % BLOCK).min(end - at);
        at += run;
        (run > 0).then_some((at - run, run))
    })
}

pub fn write(store: &mut [u8], image: &mut [u8], desk: &mut [u8], inode: usize, offset: usize, bytes: &[u8]) -> Answer {
    let (shape, notes) = guards::three(store, image, desk)?;
    let file = View::of(store, shape).of_kind(inode, FILE).ok_or(WRONG_INODE)?;
    let size = file.size();
    if offset > size || bytes.len() > MOST_BYTES - offset {
        return Err(PAST_END);
    }
    let end = size.max(offset + bytes.len());
    let grown = Inode { size: end as u16, ..file };
    let more = grown.blocks() - file.blocks();
    if more > free_blocks(store) {
        return Err(NO_BLOCKS);
    }
    if notes.locked == inode {
        return Err(BUSY);
    }
    if more > 0 {
        grow(store, shape, inode, file.blocks(), grown);
    }
    grown.put(store, shape, inode);
    overlay(store, shape, Places::of(store, shape, inode, grown), offset, bytes);
    Ok(end)
}

/// The lowest free blocks, zeroed, come after the first k of inode i, as many as its new size uses.
fn grow(store: &mut [u8], shape: Shape, i: usize, k: usize, grown: Inode) {
    let map = View::of(store, shape).named();
    let mut free = (1..=shape.b).filter(|&c| !map[c]);
    let first = if k == DIRECT { free.next().map_or(k, |c| cross(store, shape, i, c)) } else { k };
    for (k, c) in (first..grown.blocks()).zip(free) {
        take_block(store, shape, i, k, c);
    }
    put_free(store, free_inodes(store), free_blocks(store) + k - grown.blocks());
}

/// Block c, zeroed, becomes the address block of inode i, which has twelve; the standing twelfth is its first entry. The place that comes next.
fn cross(store: &mut [u8], shape: Shape, i: usize, c: usize) -> usize {
    let standing = get16(store, shape.kth(store, i, ADDRESS_PLACE));
    take_block(store, shape, i, ADDRESS_PLACE, c);
    put16(store, shape.block(c), standing);
    DIRECT + 1
}

/// Block c, zeroed, is the k-th of inode i.
pub fn take_block(store: &mut [u8], shape: Shape, i: usize, k: usize, c: usize) {
    let o = shape.block(c);
    store[o..o + BLOCK].fill(0);
    let at = shape.kth(store, i, k);
    put16(store, at, c);
}

fn overlay(store: &mut [u8], shape: Shape, places: Places, offset: usize, bytes: &[u8]) {
    for (at, run) in runs(offset, bytes.len()) {
        let o = shape.block(get16(store, places.at(at / BLOCK))) + at % BLOCK;
        store[o..o + run].copy_from_slice(&bytes[at - offset..at - offset + run]);
    }
}

pub fn shorten(store: &mut [u8], image: &mut [u8], desk: &mut [u8], inode: usize, length: usize) -> Answer {
    let (shape, notes) = guards::three(store, image, desk)?;
    let file = View::of(store, shape).of_kind(inode, FILE).ok_or(WRONG_INODE)?;
    if length > file.size() {
        return Err(PAST_END);
    }
    if notes.locked == inode {
        return Err(BUSY);
    }
    let places = Places::of(store, shape, inode, file);
    if length % BLOCK != 0 {
        let block = shape.block(get16(store, places.at(length / BLOCK)));
        store[block + length % BLOCK..block + BLOCK].fill(0);
    }
    let cut = Inode { size: length as u16, ..file };
    drop_addresses(store, shape.addresses(inode), places, cut);
    put_free(store, free_inodes(store), free_blocks(store) + file.blocks() - cut.blocks());
    cut.put(store, shape, inode);
    Ok(length)
}

/// The addresses behind a cut file's last block become 0: in the address block if it stays long, else in its record at o, which then has the twelfth block again.
fn drop_addresses(store: &mut [u8], o: usize, places: Places, cut: Inode) {
    let kept = cut.size().div_ceil(BLOCK);
    if cut.is_long() {
        return store[places.at(kept)..places.at(MOST_BLOCKS - 1)].fill(0);
    }
    let twelfth = if kept == DIRECT { get16(store, places.at(ADDRESS_PLACE)) } else { 0 };
    store[o + 2 * kept..o + 24].fill(0);
    put16(store, o + 2 * ADDRESS_PLACE, twelfth);
}
