//! The copier as records, by the paper's rules ("The copier", and what file calls do to marks and image).
use std::collections::{BTreeMap, BTreeSet};

use crate::call::{Answer, Kind};
use crate::store::{Body, Done, Entry, Store};

#[derive(Clone, Copy, Debug, PartialEq, Eq)]
pub enum State {
    Idle,
    Running,
    Finished,
    Stopped,
}

/// A block of the image.
#[derive(Clone, Debug)]
pub enum Piece {
    Bytes(Vec<u8>),
    Slots([Option<Entry>; 4]),
    /// The numbers of the blocks behind it, as far as they are copied: "it starts zeroed in the image and gains each image
    /// address as that block is copied".
    Addresses,
}

/// An inode of the image: blocks by number as they were copied, the rest when it was closed.
#[derive(Clone, Debug, Default)]
pub struct Kept {
    pub kind: Option<Kind>,
    pub size: usize,
    pub links: usize,
    pub parent: usize,
    /// In the order of copying.
    pub pieces: Vec<(usize, Piece)>,
}

#[derive(Clone, Debug, Default)]
pub struct Image {
    pub blocks: usize,
    pub nodes: BTreeMap<usize, Kept>,
}

impl Image {
    fn named(&self, block: usize) -> bool {
        self.nodes.values().any(|kept| kept.pieces.iter().any(|(number, _)| *number == block))
    }

    /// The entries in image directories of kind 2: directory, slot, entry.
    pub fn entries(&self) -> impl Iterator<Item = (usize, usize, &Entry)> {
        let directories = self.nodes.iter().filter(|(_, kept)| kept.kind == Some(Kind::Directory));
        directories.flat_map(|(&directory, kept)| {
            kept.pieces.iter().enumerate().flat_map(move |(k, (_, piece))| {
                let slots: &[Option<Entry>] = if let Piece::Slots(slots) = piece { slots } else { &[] };
                slots.iter().enumerate().filter_map(move |(j, entry)| Some((directory, 4 * k + j, entry.as_ref()?)))
            })
        })
    }

    /// A slot of an image directory of kind 2.
    fn slot(&mut self, directory: usize, slot: usize) -> Option<&mut Option<Entry>> {
        let kept = self.nodes.get_mut(&directory).filter(|kept| kept.kind == Some(Kind::Directory))?;
        match kept.pieces.get_mut(slot / 4) {
            Some((_, Piece::Slots(slots))) => Some(&mut slots[slot % 4]),
            _ => None,
        }
    }
}

/// What happened in a copy that the lists aim at.
#[derive(Clone, Copy, Debug, Default)]
pub struct Aims {
    /// Entries taken out of the image after an unlink or move of an uncopied inode (000, 3.5).
    pub zeroed: usize,
    /// Marked entries of copied inodes left out of a directory block (000, 3.3).
    pub dropped: usize,
    /// Blocks that could not go to the image block of their own number.
    pub displaced: usize,
    /// Address blocks copied.
    pub address_blocks: usize,
}

#[derive(Clone, Debug)]
pub struct Copier {
    pub state: State,
    pub locked: Option<usize>,
    /// Blocks of the locked inode copied so far.
    pub done: usize,
    pub steps: usize,
    pub copied: BTreeSet<usize>,
    pub marks: BTreeSet<(usize, usize)>,
    pub image: Image,
    pub aims: Aims,
}

impl Copier {
    pub fn idle() -> Self {
        Copier {
            state: State::Idle,
            locked: None,
            done: 0,
            steps: 0,
            copied: BTreeSet::new(),
            marks: BTreeSet::new(),
            image: Image::default(),
            aims: Aims::default(),
        }
    }

    pub fn start(&mut self, image_blocks: usize) -> Answer {
        if self.state == State::Running {
            return Err(15);
        }
        let image = Image { blocks: image_blocks, nodes: BTreeMap::new() };
        *self = Copier { state: State::Running, image, aims: self.aims, ..Copier::idle() };
        Ok(0)
    }

    /// What an accepted file call means to marks and image. Answers whether the image changed.
    pub fn learn(&mut self, done: &Done) -> bool {
        if self.state != State::Running {
            return false;
        }
        let mut changed = false;
        for taken in &done.taken {
            self.marks.remove(&(taken.directory, taken.slot));
            if self.copied.contains(&taken.directory)
                && !self.copied.contains(&taken.inode)
                && let Some(slot) = self.image.slot(taken.directory, taken.slot)
                && slot.as_ref().is_some_and(|entry| entry.inode == taken.inode)
            {
                *slot = None;
                changed = true;
                self.aims.zeroed += 1;
            }
        }
        self.marks.extend(done.made);
        changed
    }

    pub fn step(&mut self, store: &Store) -> Answer {
        if self.state != State::Running {
            return Err(15);
        }
        match self.locked {
            None => self.lock_or_finish(),
            Some(inode) if self.done < store.nodes.get(&inode).map_or(0, |node| node.blocks.len()) => {
                self.copy_block(store, inode)?
            }
            Some(inode) => self.close(store, inode),
        }
        self.steps += 1;
        Ok(self.steps)
    }

    /// "The call does what that many single steps would, ends early when the copy finishes or a step is refused, and reports how
    /// many were accepted. If the very first is refused, that refusal is the answer."
    pub fn burst(&mut self, store: &Store, count: usize) -> Answer {
        if !(1..=64).contains(&count) {
            return Err(17);
        }
        for done in 0..count {
            match self.step(store) {
                Ok(_) if self.state == State::Finished => return Ok(done + 1),
                Ok(_) => {}
                Err(refusal) if done == 0 => return Err(refusal),
                Err(_) => return Ok(done),
            }
        }
        Ok(count)
    }

    fn lock_or_finish(&mut self) {
        let uncopied = |i: &usize| !self.copied.contains(i);
        let next = Some(1).filter(uncopied).or_else(|| self.image.entries().map(|(_, _, e)| e.inode).filter(uncopied).min());
        match next {
            Some(inode) => (self.locked, self.done) = (Some(inode), 0),
            None => {
                let named: Vec<usize> = self.image.entries().map(|(_, _, e)| e.inode).collect();
                for inode in named {
                    self.image.nodes.entry(inode).or_default().links += 1;
                }
                self.state = State::Finished;
            }
        }
    }

    fn copy_block(&mut self, store: &Store, inode: usize) -> Result<(), u8> {
        let node = &store.nodes[&inode];
        let own = Some(node.blocks[self.done]).filter(|&b| b <= self.image.blocks && !self.image.named(b));
        let Some(block) = own.or_else(|| (1..=self.image.blocks).find(|&b| !self.image.named(b))) else {
            (self.state, self.locked, self.done) = (State::Stopped, None, 0);
            return Err(16);
        };
        self.aims.displaced += usize::from(own.is_none());
        let piece = match &node.body {
            Body::File(bytes) => match node.piece_of(self.done) {
                Some(k) => Piece::Bytes(bytes[64 * k..bytes.len().min(64 * k + 64)].to_vec()),
                None => Piece::Addresses,
            },
            Body::Directory(slots) => Piece::Slots(std::array::from_fn(|j| {
                let slot = 4 * self.done + j;
                let entry = slots[slot].clone()?;
                let late = self.marks.contains(&(inode, slot)) && self.copied.contains(&entry.inode);
                self.aims.dropped += usize::from(late);
                (!late).then_some(entry)
            })),
        };
        self.aims.address_blocks += usize::from(matches!(piece, Piece::Addresses));
        self.image.nodes.entry(inode).or_default().pieces.push((block, piece));
        self.done += 1;
        Ok(())
    }

    fn close(&mut self, store: &Store, inode: usize) {
        let kept = self.image.nodes.entry(inode).or_default();
        if let Some(node) = store.nodes.get(&inode) {
            (kept.kind, kept.size, kept.parent) = (Some(node.kind()), node.size(), node.parent);
        }
        self.copied.insert(inode);
        (self.locked, self.done) = (None, 0);
    }
}
