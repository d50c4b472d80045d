//! Look up, create, link and unlink: decided on the store, then the copy's timing, then the bytes.
use super::desk::{set_mark, Desk};
use super::guards;
use super::image::taken;
use super::names::word;
use super::refusal::{BUSY, NAME_ABSENT, NAME_TAKEN, NOT_EMPTY, NO_INODE, WRONG_INODE};
use super::slots::{clear_entry, enter, room, search};
use super::view::{free_blocks, free_inodes, put_free, Inode, Shape, View, DIRECTORY, FILE, FREE};
use super::Answer;

pub fn look_up(store: &[u8], directory: usize, name: &[u8]) -> Answer {
    let shape = guards::store_alone(store)?;
    let v = View::of(store, shape);
    let name = word(name)?;
    let dir = v.of_kind(directory, DIRECTORY).ok_or(WRONG_INODE)?;
    let (_, inode) = search(&v, directory, dir, name).named.ok_or(NAME_ABSENT)?;
    Ok(inode)
}

/// What a created inode is to be.
#[derive(Clone, Copy)]
pub enum Kind {
    File,
    Directory,
}

pub fn create(store: &mut [u8], image: &mut [u8], desk: &mut [u8], directory: usize, name: &[u8], kind: Kind) -> Answer {
    let (shape, notes) = guards::three(store, image, desk)?;
    let v = View::of(store, shape);
    let name = word(name)?;
    let dir = v.of_kind(directory, DIRECTORY).ok_or(WRONG_INODE)?;
    let found = search(&v, directory, dir, name);
    if found.named.is_some() {
        return Err(NAME_TAKEN);
    }
    let inode = 1 + v.attributes.iter().position(|a| a[0] == FREE).ok_or(NO_INODE)?;
    let room = room(store, &v, dir, found.empty)?;
    if notes.locked == directory {
        return Err(BUSY);
    }
    enter(store, shape, directory, dir, &room, inode, name);
    let (kind, parent) = match kind {
        Kind::File => (FILE, 0),
        Kind::Directory => (DIRECTORY, directory as u16),
    };
    Inode { kind, links: 1, size: 0, parent }.put(store, shape, inode);
    put_free(store, free_inodes(store) - 1, free_blocks(store));
    note_made(desk, notes, directory, room.slot);
    Ok(inode)
}

/// While the copy runs, a new entry is marked.
pub fn note_made(desk: &mut [u8], notes: Desk, directory: usize, slot: usize) {
    if notes.running() {
        set_mark(desk, notes.n, directory, slot);
    }
}

pub fn link(store: &mut [u8], image: &mut [u8], desk: &mut [u8], directory: usize, name: &[u8], inode: usize) -> Answer {
    let (shape, notes) = guards::three(store, image, desk)?;
    let v = View::of(store, shape);
    let name = word(name)?;
    let dir = v.of_kind(directory, DIRECTORY).ok_or(WRONG_INODE)?;
    let file = v.of_kind(inode, FILE).ok_or(WRONG_INODE)?;
    let found = search(&v, directory, dir, name);
    if found.named.is_some() {
        return Err(NAME_TAKEN);
    }
    let room = room(store, &v, dir, found.empty)?;
    if notes.locked == directory || notes.locked == inode {
        return Err(BUSY);
    }
    enter(store, shape, directory, dir, &room, inode, name);
    Inode { links: file.links + 1, ..file }.put(store, shape, inode);
    note_made(desk, notes, directory, room.slot);
    Ok(0)
}

pub fn unlink(store: &mut [u8], image: &mut [u8], desk: &mut [u8], directory: usize, name: &[u8]) -> Answer {
    let (shape, notes) = guards::three(store, image, desk)?;
    let v = View::of(store, shape);
    let name = word(name)?;
    let dir = v.of_kind(directory, DIRECTORY).ok_or(WRONG_INODE)?;
    let (slot, inode) = search(&v, directory, dir, name).named.ok_or(NAME_ABSENT)?;
    let old = v.inode(inode);
    holds_none(&v, inode, old)?;
    if notes.locked == directory || notes.locked == inode {
        return Err(BUSY);
    }
    clear_entry(store, shape, directory, slot);
    drop_link(store, shape, inode, old);
    taken(image, desk, notes, directory, slot, inode);
    Ok(0)
}

/// A directory that is to go has no entries.
pub fn holds_none(v: &View, i: usize, old: Inode) -> Result<(), u8> {
    let full = old.kind == DIRECTORY && v.blocks_of(i, old.blocks()).any(|block| *block != [0; 64]);
    if full { Err(NOT_EMPTY) } else { Ok(()) }
}

/// One link less; the last one frees the inode and its blocks.
pub fn drop_link(store: &mut [u8], shape: Shape, i: usize, old: Inode) {
    if old.links > 1 {
        return Inode { links: old.links - 1, ..old }.put(store, shape, i);
    }
    Inode { kind: FREE, links: 0, size: 0, parent: 0 }.put(store, shape, i);
    let o = shape.addresses(i);
    store[o..o + 24].fill(0);
    put_free(store, free_inodes(store) + 1, free_blocks(store) + old.blocks());
}
