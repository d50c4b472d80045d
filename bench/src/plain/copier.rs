//! Start, step and the state question.
use super::desk::{is_copied, marks, Desk, FINISHED, RUNNING, STOPPED};
use super::format::put_header;
use super::guards;
use super::image::{finish, names, next_inode, target};
use super::refusal::{BAD_BUFFER, IMAGE_FULL, WRONG_STATE};
use super::view::{get16, put16, Inode, Shape, View, ADDRESS_PLACE, BLOCK, DIRECTORY, MOST_IMAGE_BLOCKS};
use super::{desk as notes_of, Answer};

pub fn state(store: &[u8], image: &[u8], desk: &[u8]) -> Result<(u8, u16, u32), u8> {
    let (_, notes) = guards::three(store, image, desk)?;
    Ok((notes.state, notes.locked as u16, notes.steps))
}

pub fn start(store: &[u8], image: &mut [u8], desk: &mut [u8]) -> Answer {
    let shape = guards::framed(store)?;
    if !notes_of::framed(desk) {
        return Err(BAD_BUFFER);
    }
    let blocks = image.len().saturating_sub(16 + 32 * shape.n) / BLOCK;
    let copy = Shape::allowed(shape.n, blocks, MOST_IMAGE_BLOCKS, image.len()).ok_or(BAD_BUFFER)?;
    let (_, notes) = guards::after_lengths(store, shape, image, desk)?;
    if notes.running() {
        return Err(WRONG_STATE);
    }
    image.fill(0);
    put_header(image, copy);
    desk[16..].fill(0);
    Desk { blocks: copy.b, state: RUNNING, steps: 0, ..notes }.put(desk);
    Ok(0)
}

pub fn step(store: &[u8], image: &mut [u8], desk: &mut [u8]) -> Answer {
    let (shape, notes) = guards::three(store, image, desk)?;
    if !notes.running() {
        return Err(WRONG_STATE);
    }
    let next = if notes.locked == 0 {
        free_step(image, desk, notes)
    } else {
        locked_step(store, shape, image, desk, notes)
    };
    let Some(next) = next else {
        Desk { state: STOPPED, locked: 0, copied: 0, ..notes }.put(desk);
        return Err(IMAGE_FULL);
    };
    let next = Desk { steps: notes.steps + 1, ..next };
    next.put(desk);
    Ok(next.steps as usize)
}

/// Nothing is locked: lock the root, or the next inode, or finish.
fn free_step(image: &mut [u8], desk: &[u8], notes: Desk) -> Option<Desk> {
    let shape = notes.image();
    let next = if is_copied(desk, notes.n, 1) { next_inode(&View::of(image, shape), desk, notes.n) } else { Some(1) };
    if let Some(i) = next {
        return Some(Desk { locked: i, copied: 0, ..notes });
    }
    let v = View::of(image, shape);
    let (names, map) = (names(&v), v.named());
    finish(image, shape, &names, &map);
    Some(Desk { state: FINISHED, ..notes })
}

/// An inode is locked: its next block, or, none being left, its attributes. None if the image has no block for it.
fn locked_step(store: &[u8], shape: Shape, image: &mut [u8], desk: &mut [u8], notes: Desk) -> Option<Desk> {
    let inode = View::of(store, shape).inode(notes.locked);
    if notes.copied >= inode.blocks() {
        return Some(close(image, desk, notes, inode));
    }
    let own = get16(store, shape.kth(store, notes.locked, notes.copied));
    let c = target(&View::of_copy(image, notes.image(), notes.locked, inode.is_long()), own)?;
    Some(copy_block(store, shape, image, desk, notes, inode, own, c))
}

/// The attributes of the locked inode, all of whose blocks are copied.
pub fn close(image: &mut [u8], desk: &mut [u8], notes: Desk, inode: Inode) -> Desk {
    Inode { links: 0, ..inode }.put(image, notes.image(), notes.locked);
    desk[15 + notes.locked] = 1;
    Desk { locked: 0, copied: 0, ..notes }
}

/// The next block of the locked inode, the store's block `own`, goes to block c.
#[allow(clippy::too_many_arguments)]
pub fn copy_block(store: &[u8], shape: Shape, image: &mut [u8], desk: &[u8], notes: Desk, inode: Inode, own: usize, c: usize) -> Desk {
    let (i, k, copy) = (notes.locked, notes.copied, notes.image());
    let (from, to) = (shape.block(own), copy.block(c));
    let block = &mut image[to..to + BLOCK];
    if inode.is_long() && k == ADDRESS_PLACE {
        block.fill(0);
    } else {
        block.copy_from_slice(&store[from..from + BLOCK]);
    }
    if inode.kind == DIRECTORY {
        drop_marked(block, desk, shape.n, marks(desk, shape.n, i) >> (4 * k));
    }
    let at = copy.kth(image, i, k);
    put16(image, at, c);
    Desk { copied: k + 1, ..notes }
}

/// Of a block's four entries, those that are marked and name a copied inode are zeroed.
fn drop_marked(block: &mut [u8], desk: &[u8], n: usize, marks: u64) {
    for (j, e) in block.as_chunks_mut::<16>().0.iter_mut().enumerate() {
        if marks >> j & 1 == 1 && is_copied(desk, n, get16(e, 0)) {
            e.fill(0);
        }
    }
}
