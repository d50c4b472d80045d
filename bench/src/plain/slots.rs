//! The slots of a directory: searched in one pass, filled and emptied.
use super::content::take_block;
use super::names::{entry, folded, split};
use super::refusal::{NO_BLOCKS, NO_SLOT};
use super::view::{free_blocks, free_inodes, get16, put_free, Inode, Shape, View, BLOCK, MOST_DIRECT_BYTES};

/// What one pass over a directory's slots finds: the slot of the name and its inode, and the lowest empty slot.
pub struct Found {
    pub named: Option<(usize, usize)>,
    pub empty: Option<usize>,
}

/// The slots of directory d up to the one that has the name, without regard to case.
pub fn search(v: &View, d: usize, dir: Inode, name: u128) -> Found {
    let (name, mut empty) = (folded(name), None);
    for (k, block) in v.blocks_of(d, dir.blocks()).enumerate() {
        for (j, e) in block.as_chunks().0.iter().enumerate() {
            let (i, word) = split(e);
            if folded(word) == name {
                return Found { named: Some((4 * k + j, i)), empty };
            }
            if i == 0 && empty.is_none() {
                empty = Some(4 * k + j);
            }
        }
    }
    Found { named: None, empty }
}

/// Where a new entry goes: a slot, and the block that the directory takes first, if it takes one.
pub struct Room {
    pub slot: usize,
    block: Option<usize>,
}

impl Room {
    /// An empty slot that the directory has.
    pub fn at(slot: usize) -> Room {
        Room { slot, block: None }
    }
}

pub fn room(store: &[u8], v: &View, dir: Inode, empty: Option<usize>) -> Result<Room, u8> {
    if let Some(slot) = empty {
        return Ok(Room::at(slot));
    }
    if dir.size() == MOST_DIRECT_BYTES {
        return Err(NO_SLOT);
    }
    if free_blocks(store) == 0 {
        return Err(NO_BLOCKS);
    }
    let block = v.named()[1..].iter().position(|&named| !named).map(|k| k + 1);
    Ok(Room { slot: 4 * dir.blocks(), block })
}

fn slot_at(store: &[u8], shape: Shape, d: usize, slot: usize) -> usize {
    shape.block(get16(store, shape.addresses(d) + 2 * (slot / 4))) + 16 * (slot % 4)
}

/// The entry in the room of directory d, whose attributes are `dir`.
pub fn enter(store: &mut [u8], shape: Shape, d: usize, dir: Inode, room: &Room, i: usize, name: u128) {
    if let Some(c) = room.block {
        take_block(store, shape, d, dir.blocks(), c);
        Inode { size: dir.size + BLOCK as u16, ..dir }.put(store, shape, d);
        put_free(store, free_inodes(store), free_blocks(store) - 1);
    }
    put_entry(store, shape, d, room.slot, i, name);
}

pub fn put_entry(store: &mut [u8], shape: Shape, d: usize, slot: usize, i: usize, name: u128) {
    let o = slot_at(store, shape, d, slot);
    store[o..o + 16].copy_from_slice(&entry(i, name));
}

pub fn clear_entry(store: &mut [u8], shape: Shape, d: usize, slot: usize) {
    let o = slot_at(store, shape, d, slot);
    store[o..o + 16].fill(0);
}
