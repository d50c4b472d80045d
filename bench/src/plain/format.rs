//! The two layout calls.
use super::desk;
use super::refusal::BAD_BUFFER;
use super::view::{put16, put_free, Shape, DIRECTORY, MOST_STORE_BLOCKS};
use super::Answer;

pub fn lay_out_store(store: &mut [u8], inodes: usize, blocks: usize) -> Answer {
    let shape = Shape::allowed(inodes, blocks, MOST_STORE_BLOCKS, store.len()).ok_or(BAD_BUFFER)?;
    store.fill(0);
    put_header(store, shape);
    put_free(store, inodes - 1, blocks);
    store[8] = 1;
    store[shape.attributes(1)] = DIRECTORY;
    Ok(0)
}

/// Counts and root, in a zeroed buffer.
pub fn put_header(s: &mut [u8], shape: Shape) {
    put16(s, 0, shape.n);
    put16(s, 2, shape.b);
    put16(s, 10, 1);
}

pub fn lay_out_desk(notes: &mut [u8], inodes: usize) -> Answer {
    if !desk::allowed(inodes, notes.len()) {
        return Err(BAD_BUFFER);
    }
    notes.fill(0);
    put16(notes, 0, inodes);
    Ok(0)
}
