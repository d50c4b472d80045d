//! Up to 64 steps in one call: one set of checks, and what the steps look up in the image is kept from step to step.
use super::copier::{close, copy_block};
use super::desk::{framed, is_copied, Desk, FINISHED, STOPPED};
use super::guards;
use super::image::{count_directory, finish, names, Names};
use super::refusal::{BAD_BUFFER, BAD_COUNT, IMAGE_FULL, WRONG_STATE};
use super::view::{get16, Inode, Map, Shape, View, ADDRESS_PLACE, DIRECTORY};
use super::Answer;

const MOST_BURST: usize = 64;

pub fn burst(store: &[u8], image: &mut [u8], desk: &mut [u8], count: usize) -> Answer {
    let shape = guards::framed(store)?;
    if !framed(desk) {
        return Err(BAD_BUFFER);
    }
    if !(1..=MOST_BURST).contains(&count) {
        return Err(BAD_COUNT);
    }
    let (_, notes) = guards::after_lengths(store, shape, image, desk)?;
    if !notes.running() {
        return Err(WRONG_STATE);
    }
    let mut copy = Copy { store, shape, image, desk, notes, map: None, names: None };
    let answer = copy.steps(count);
    let (notes, desk) = (copy.notes, copy.desk);
    notes.put(desk);
    answer
}

/// The blocks that addresses name, and a number below which all are named.
struct Named {
    map: Map,
    low: usize,
}

/// A running copy within one call. What is kept holds of the image as it is; on one that no copy wrote, a step may spoil it, and it is looked up again.
struct Copy<'a> {
    store: &'a [u8],
    shape: Shape,
    image: &'a mut [u8],
    desk: &'a mut [u8],
    notes: Desk,
    map: Option<Named>,
    /// Counted while nothing was locked: an address block that is written later was taken in this call, and is no directory's.
    names: Option<Names>,
}

impl Copy<'_> {
    fn steps(&mut self, count: usize) -> Answer {
        for done in 0..count {
            if done > 0 && self.notes.steps > self.notes.most_steps() {
                return Ok(done);
            }
            let next = if self.notes.locked == 0 { self.free_step() } else { self.locked_step() };
            let Some(next) = next else {
                self.notes = Desk { state: STOPPED, locked: 0, copied: 0, ..self.notes };
                return if done == 0 { Err(IMAGE_FULL) } else { Ok(done) };
            };
            let locks = self.notes.locked == 0 && next.locked != 0;
            self.notes = Desk { steps: self.notes.steps + 1, ..next };
            if !self.notes.running() || locks && !self.still_fits() {
                return Ok(done + 1);
            }
        }
        Ok(count)
    }

    fn inode(&self) -> Inode {
        View::of(self.store, self.shape).inode(self.notes.locked)
    }

    /// With a new lock another address block may count, where its place is not 0 yet: then 3 may hold of the next step.
    fn still_fits(&mut self) -> bool {
        let copy = self.notes.image();
        if get16(self.image, copy.addresses(self.notes.locked) + 2 * ADDRESS_PLACE) == 0 {
            return true;
        }
        self.map = None;
        guards::addresses_fit(&View::of_copy(self.image, copy, self.notes.locked, self.inode().is_long()), self.notes)
    }

    /// Nothing is locked: lock the root, or the next inode, or finish.
    fn free_step(&mut self) -> Option<Desk> {
        let (notes, n) = (self.notes, self.notes.n);
        if !is_copied(self.desk, n, 1) {
            return Some(Desk { locked: 1, copied: 0, ..notes });
        }
        let image = View::of(self.image, notes.image());
        let names = self.names.get_or_insert_with(|| names(&image));
        if let Some(k) = names[1..=n].iter().zip(&self.desk[16..16 + n]).position(|(&count, &copied)| count > 0 && copied == 0) {
            return Some(Desk { locked: k + 1, copied: 0, ..notes });
        }
        let named = self.map.get_or_insert_with(|| Named::of(&image));
        finish(self.image, notes.image(), names, &named.map);
        Some(Desk { state: FINISHED, ..notes })
    }

    /// An inode is locked: its next block, or, none being left, its attributes. None if the image has no block for it.
    fn locked_step(&mut self) -> Option<Desk> {
        let (notes, inode) = (self.notes, self.inode());
        let (i, k, copy) = (notes.locked, notes.copied, notes.image());
        // its slots are counted already, and change
        if self.image[copy.attributes(i)] == DIRECTORY {
            self.names = None;
        }
        if k >= inode.blocks() {
            let next = close(self.image, self.desk, notes, inode);
            if let (DIRECTORY, Some(names)) = (inode.kind, &mut self.names) {
                count_directory(&View::of(self.image, copy), i, names);
            }
            return Some(next);
        }
        let own = get16(self.store, self.shape.kth(self.store, i, k));
        let image = View::of_copy(self.image, copy, i, inode.is_long());
        let c = self.map.get_or_insert_with(|| Named::of(&image)).take(own, copy.b)?;
        if get16(self.image, copy.kth(self.image, i, k)) != 0 {
            self.map = None;
        }
        Some(copy_block(self.store, self.shape, self.image, self.desk, notes, inode, own, c))
    }
}

impl Named {
    fn of(image: &View) -> Named {
        Named { map: image.named(), low: 1 }
    }

    /// Where the store's block c goes of b blocks: its own number if that is an unnamed block, else the lowest such.
    fn take(&mut self, c: usize, b: usize) -> Option<usize> {
        let free = if c <= b && !self.map[c] {
            c
        } else {
            self.low += self.map[self.low..=b].iter().position(|&named| !named)?;
            self.low
        };
        self.map[free] = true;
        Some(free)
    }
}
