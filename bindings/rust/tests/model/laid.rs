//! The image and the desk as bytes, laid out from the records ("Bytes"). The store's bytes are not: what free blocks hold, the
//! records don't say.
use crate::call::{Kind, Sizes};
use crate::copier::{Copier, Kept, Piece, State};
use crate::store::Entry;

fn put(bytes: &mut [u8], at: usize, number: usize) {
    bytes[at..at + 2].copy_from_slice(&u16::try_from(number).expect("16 bits").to_le_bytes());
}

/// The image since the latest start.
pub fn image(copier: &Copier, sizes: Sizes) -> Vec<u8> {
    let (inodes, image) = (sizes.inodes, &copier.image);
    let mut bytes = vec![0; 16 + 32 * inodes + 64 * image.blocks];
    put(&mut bytes, 0, inodes);
    put(&mut bytes, 2, image.blocks);
    put(&mut bytes, 10, 1);
    if copier.state == State::Finished {
        put(&mut bytes, 4, inodes - image.nodes.values().filter(|kept| kept.kind.is_some()).count());
        put(&mut bytes, 6, image.blocks - image.nodes.values().map(|kept| kept.pieces.len()).sum::<usize>());
        bytes[8] = 1;
    }
    for (&inode, kept) in &image.nodes {
        attributes(&mut bytes[16 + 8 * (inode - 1)..][..8], kept);
        pieces(&mut bytes, 16 + 8 * inodes + 24 * (inode - 1), 16 + 32 * inodes, kept);
    }
    bytes
}

fn attributes(bytes: &mut [u8], kept: &Kept) {
    if let Some(kind) = kept.kind {
        bytes[0] = if kind == Kind::File { 1 } else { 2 };
        put(bytes, 2, kept.links);
        put(bytes, 4, kept.size);
        put(bytes, 6, kept.parent);
    }
}

/// An inode's blocks, and their numbers: the first twelve among its addresses, those behind them in the address block.
fn pieces(bytes: &mut [u8], addresses: usize, blocks: usize, kept: &Kept) {
    let mut further = None;
    for (k, (number, piece)) in kept.pieces.iter().enumerate() {
        let block = blocks + 64 * (number - 1);
        let at = if k < 12 { addresses + 2 * k } else { further.expect("an address block stands twelfth") + 2 * (k - 12) };
        put(bytes, at, *number);
        match piece {
            Piece::Bytes(part) => bytes[block..block + part.len()].copy_from_slice(part),
            Piece::Slots(slots) => {
                for (j, Entry { inode, name }) in slots.iter().enumerate().filter_map(|(j, e)| Some((j, e.as_ref()?))) {
                    put(bytes, block + 16 * j, *inode);
                    bytes[block + 16 * j + 2..][..name.len()].copy_from_slice(name);
                }
            }
            Piece::Addresses => further = Some(block),
        }
    }
}

pub fn desk(copier: &Copier, sizes: Sizes) -> Vec<u8> {
    let inodes = sizes.inodes;
    let mut bytes = vec![0; 16 + 9 * inodes];
    put(&mut bytes, 0, inodes);
    put(&mut bytes, 2, copier.image.blocks);
    bytes[4] = copier.state as u8;
    put(&mut bytes, 6, copier.locked.unwrap_or(0));
    put(&mut bytes, 8, copier.done);
    bytes[12..16].copy_from_slice(&u32::try_from(copier.steps).expect("32 bits").to_le_bytes());
    for inode in &copier.copied {
        bytes[15 + inode] = 1;
    }
    for (directory, slot) in &copier.marks {
        bytes[16 + inodes + 8 * (directory - 1) + slot / 8] |= 1 << (slot % 8);
    }
    bytes
}
