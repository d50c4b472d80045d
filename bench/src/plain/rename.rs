//! The two renames, within a directory and as a move to another. They differ where another entry has the new name: the phone app's replaces it, the lap recorder's refuses.
use super::desk::Desk;
use super::entries::{drop_link, holds_none, note_made};
use super::guards;
use super::image::taken;
use super::names::word;
use super::refusal::{BUSY, INTO_ITSELF, KINDS_DIFFER, NAME_ABSENT, NAME_TAKEN, WRONG_INODE};
use super::slots::{clear_entry, enter, put_entry, room, search, Room};
use super::view::{Inode, Shape, View, DIRECTORY};
use super::Answer;

/// An entry: its directory, its slot and the inode that it names.
#[derive(Clone, Copy, PartialEq)]
struct Entry {
    directory: usize,
    slot: usize,
    inode: usize,
}

/// The buffers, examined.
struct Lent<'a> {
    store: &'a mut [u8],
    image: &'a mut [u8],
    desk: &'a mut [u8],
    shape: Shape,
    notes: Desk,
}

/// The entry to be renamed with its inode, where it is to go, and what is there: another entry of that name, and the lowest empty slot before it.
struct Way {
    old: Entry,
    moved: Inode,
    to: usize,
    to_dir: Inode,
    to_name: u128,
    holder: Option<Entry>,
    empty: Option<usize>,
}

pub fn rename(store: &mut [u8], image: &mut [u8], desk: &mut [u8], directory: usize, name: &[u8], to: usize, to_name: &[u8]) -> Answer {
    let (shape, notes) = guards::three(store, image, desk)?;
    let way = find(&View::of(store, shape), directory, name, to, to_name)?;
    let lent = Lent { store, image, desk, shape, notes };
    match way.holder {
        Some(holder) => replace(lent, way, holder),
        None => to_free_name(lent, way),
    }
}

pub fn rename_new(store: &mut [u8], image: &mut [u8], desk: &mut [u8], directory: usize, name: &[u8], to: usize, to_name: &[u8]) -> Answer {
    let (shape, notes) = guards::three(store, image, desk)?;
    let way = find(&View::of(store, shape), directory, name, to, to_name)?;
    if way.holder.is_some() {
        return Err(NAME_TAKEN);
    }
    to_free_name(Lent { store, image, desk, shape, notes }, way)
}

fn find(v: &View, directory: usize, name: &[u8], to: usize, to_name: &[u8]) -> Result<Way, u8> {
    let (name, to_name) = (word(name)?, word(to_name)?);
    let dir = v.of_kind(directory, DIRECTORY).ok_or(WRONG_INODE)?;
    let to_dir = v.of_kind(to, DIRECTORY).ok_or(WRONG_INODE)?;
    let (slot, inode) = search(v, directory, dir, name).named.ok_or(NAME_ABSENT)?;
    let old = Entry { directory, slot, inode };
    let found = search(v, to, to_dir, to_name);
    let holder = found.named.map(|(slot, inode)| Entry { directory: to, slot, inode }).filter(|&holder| holder != old);
    Ok(Way { old, moved: v.inode(inode), to, to_dir, to_name, holder, empty: found.empty })
}

/// No other entry has the name.
fn to_free_name(mut lent: Lent, way: Way) -> Answer {
    way.not_into_itself(&lent)?;
    let room = way.moves().then(|| room(lent.store, &lent.view(), way.to_dir, way.empty)).transpose()?;
    way.not_busy(&lent)?;
    lent.put(&way, room);
    Ok(0)
}

/// Another entry has the name: if it names the same file nothing changes, else it is unlinked first.
fn replace(mut lent: Lent, way: Way, holder: Entry) -> Answer {
    let v = lent.view();
    let held = v.inode(holder.inode);
    holds_none(&v, holder.inode, held)?;
    way.not_into_itself(&lent)?;
    if way.moved.kind != held.kind {
        return Err(KINDS_DIFFER);
    }
    way.not_busy(&lent)?;
    if holder.inode == way.old.inode {
        return Ok(0);
    }
    if lent.notes.locked == holder.inode {
        return Err(BUSY);
    }
    lent.take_out(holder);
    drop_link(lent.store, lent.shape, holder.inode, held);
    // the holder's slot is empty now, and the lowest unless there is one before it
    let room = way.moves().then(|| Room::at(way.empty.unwrap_or(holder.slot)));
    lent.put(&way, room);
    Ok(0)
}

impl Way {
    fn moves(&self) -> bool {
        self.old.directory != self.to
    }

    fn not_into_itself(&self, lent: &Lent) -> Result<(), u8> {
        let into = self.moves() && self.moved.kind == DIRECTORY && is_below(&lent.view(), self.to, self.old.inode);
        if into { Err(INTO_ITSELF) } else { Ok(()) }
    }

    /// In a locked directory, or a move of the locked inode.
    fn not_busy(&self, lent: &Lent) -> Result<(), u8> {
        let locked = lent.notes.locked;
        let busy = [self.old.directory, self.to].contains(&locked) || (self.moves() && self.old.inode == locked);
        if busy { Err(BUSY) } else { Ok(()) }
    }
}

impl Lent<'_> {
    fn view(&self) -> View<'_> {
        View::of(self.store, self.shape)
    }

    fn take_out(&mut self, entry: Entry) {
        clear_entry(self.store, self.shape, entry.directory, entry.slot);
        taken(self.image, self.desk, self.notes, entry.directory, entry.slot, entry.inode);
    }

    /// The entry under its new name: in its own slot, or moved to the room.
    fn put(&mut self, way: &Way, room: Option<Room>) {
        let Some(room) = room else {
            return put_entry(self.store, self.shape, way.to, way.old.slot, way.old.inode, way.to_name);
        };
        self.take_out(way.old);
        enter(self.store, self.shape, way.to, way.to_dir, &room, way.old.inode, way.to_name);
        if way.moved.kind == DIRECTORY {
            Inode { parent: way.to as u16, ..way.moved }.put(self.store, self.shape, way.old.inode);
        }
        note_made(self.desk, self.notes, way.to, room.slot);
    }
}

/// Directory d is `top` or below it.
fn is_below(v: &View, d: usize, top: usize) -> bool {
    let mut at = d;
    while at != top && at != 1 {
        at = v.inode(at).parent as usize;
    }
    at == top
}
