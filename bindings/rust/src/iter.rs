//! Iterators over entries and over a file's bytes.
use core::iter::FusedIterator;

use crate::files::BLOCK;
use crate::{Entry, Files, Inode};

/// The entries of a directory: see [`Files::entries`].
#[derive(Clone, Debug)]
pub struct Entries<'a> {
    files: Files<'a>,
    directory: Inode,
    slot: usize,
    slots: usize,
}

impl<'a> Entries<'a> {
    pub(crate) fn new(files: Files<'a>, directory: Inode, slots: usize) -> Self {
        Entries { files, directory, slot: 0, slots }
    }
}

impl<'a> Iterator for Entries<'a> {
    type Item = Entry<'a>;

    fn next(&mut self) -> Option<Entry<'a>> {
        while self.slot < self.slots {
            self.slot += 1;
            let entry = self.files.entry(self.directory, self.slot - 1);
            if entry.is_some() {
                return entry;
            }
        }
        None
    }

    fn size_hint(&self) -> (usize, Option<usize>) {
        (0, Some(self.slots - self.slot))
    }
}

impl FusedIterator for Entries<'_> {}

/// All entries by directory and slot: see [`Files::all`].
#[derive(Clone, Debug)]
pub struct All<'a> {
    files: Files<'a>,
    entries: Option<Entries<'a>>,
    next: usize,
}

impl<'a> All<'a> {
    pub(crate) fn new(files: Files<'a>) -> Self {
        All { files, entries: None, next: 1 }
    }
}

impl<'a> Iterator for All<'a> {
    type Item = Entry<'a>;

    fn next(&mut self) -> Option<Entry<'a>> {
        loop {
            if let Some(entry) = self.entries.as_mut().and_then(Iterator::next) {
                return Some(entry);
            }
            if self.next > self.files.inodes() {
                return None;
            }
            self.entries = self.files.entries(Inode(self.next)).ok();
            self.next += 1;
        }
    }
}

impl FusedIterator for All<'_> {}

/// A file's bytes in pieces: see [`Files::contents`].
#[derive(Clone, Debug)]
pub struct Contents<'a> {
    files: Files<'a>,
    inode: Inode,
    at: usize,
    size: usize,
}

impl<'a> Contents<'a> {
    /// From the block at a place on.
    pub(crate) fn new(files: Files<'a>, inode: Inode, place: usize, size: usize) -> Self {
        Contents { files, inode, at: BLOCK * place, size }
    }
}

impl<'a> Iterator for Contents<'a> {
    type Item = &'a [u8];

    fn next(&mut self) -> Option<&'a [u8]> {
        if self.at >= self.size {
            return None;
        }
        let block = self.files.block(self.inode, self.at / BLOCK);
        let piece = &block[..BLOCK.min(self.size - self.at)];
        self.at += BLOCK;
        Some(piece)
    }

    fn size_hint(&self) -> (usize, Option<usize>) {
        let left = self.size.saturating_sub(self.at).div_ceil(BLOCK);
        (left, Some(left))
    }
}

impl ExactSizeIterator for Contents<'_> {}
impl FusedIterator for Contents<'_> {}
