//! The store as records, by the paper's rules ("File calls", "Refusals"): inodes with names and bytes. Of the layout it has
//! only what the rules choose by: numbers of inodes, of blocks and of slots, the lowest free one first.
use std::collections::{BTreeMap, BTreeSet};

use crate::call::{Call, Kind, Name};

const BLOCK: usize = 64;
const SLOTS_IN_BLOCK: usize = 4;
const MAX_DIRECTORY_BLOCKS: usize = 12;
/// "A file above 768 bytes uses eleven direct addresses, and its twelfth names a block of 32 further".
pub const EDGE: usize = 768;
pub const MAX_FILE: usize = 2752;
/// Blocks that come before the address block.
const DIRECT: usize = 11;

#[derive(Clone, Debug, PartialEq, Eq)]
pub struct Entry {
    pub inode: usize,
    pub name: Name,
}

#[derive(Clone, Debug)]
pub enum Body {
    File(Vec<u8>),
    Directory(Vec<Option<Entry>>),
}

#[derive(Clone, Debug)]
pub struct Node {
    pub links: usize,
    /// Of a directory; 0 for files and the root.
    pub parent: usize,
    pub body: Body,
    /// The numbers of its blocks, in the order of taking and copying.
    pub blocks: Vec<usize>,
}

/// "The address block counts as a block of its file."
fn blocks_for(size: usize) -> usize {
    size.div_ceil(BLOCK) + usize::from(size > EDGE)
}

impl Node {
    pub fn kind(&self) -> Kind {
        match self.body {
            Body::File(_) => Kind::File,
            Body::Directory(_) => Kind::Directory,
        }
    }

    pub fn size(&self) -> usize {
        match &self.body {
            Body::File(bytes) => bytes.len(),
            Body::Directory(_) => BLOCK * self.blocks.len(),
        }
    }

    /// Which piece of a file's bytes its k-th block has; none is the address block's.
    pub fn piece_of(&self, k: usize) -> Option<usize> {
        match k {
            DIRECT if self.size() > EDGE => None,
            k if k > DIRECT => Some(k - usize::from(self.size() > EDGE)),
            k => Some(k),
        }
    }
}

/// An entry that a call took out.
#[derive(Clone, Copy, Debug)]
pub struct Taken {
    pub directory: usize,
    pub slot: usize,
    pub inode: usize,
}

/// What had the new name of a rename.
#[derive(Clone, Copy, Debug)]
pub enum Held {
    /// Another entry of the same file.
    Same,
    /// An entry of another file, its last one or one of several, or of an empty directory: it was unlinked.
    Freed,
    Linked,
    Directory,
}

/// What an accepted file call did, beside changing the store.
#[derive(Clone, Debug, Default)]
pub struct Done {
    pub answer: usize,
    /// Bytes that a read puts at the front of its out-buffer.
    pub out: Vec<u8>,
    /// The entries that an unlink or a move emptied, in this order.
    pub taken: Vec<Taken>,
    /// Directory and slot of the entry that a create, a link or a move made.
    pub made: Option<(usize, usize)>,
    /// Directory and slot of an entry with a new name.
    pub renamed: Option<(usize, usize)>,
    /// The file that a write or a shortening changed.
    pub written: Option<usize>,
    /// Of a rename onto another entry's name.
    pub held: Option<Held>,
}

#[derive(Clone, Debug)]
pub struct Store {
    pub inodes: usize,
    pub blocks: usize,
    pub nodes: BTreeMap<usize, Node>,
    used: BTreeSet<usize>,
}

/// A condition for a refusal of that number.
fn refuse(number: u8, condition: bool) -> Result<(), u8> {
    if condition { Err(number) } else { Ok(()) }
}

/// 14, if one of the inodes that the call would change is locked.
fn busy(locked: Option<usize>, inodes: &[usize]) -> Result<(), u8> {
    refuse(14, locked.is_some_and(|l| inodes.contains(&l)))
}

/// "A name is 1 to 14 bytes, none 0 or `/`, and is not `.` or `..`."
fn legal(name: &[u8]) -> Result<(), u8> {
    let good = (1..=14).contains(&name.len()) && !name.contains(&0) && !name.contains(&b'/') && name != b"." && name != b"..";
    refuse(4, !good)
}

impl Store {
    pub fn new(inodes: usize, blocks: usize) -> Self {
        let root = Node { links: 0, parent: 0, body: Body::Directory(vec![]), blocks: vec![] };
        Store { inodes, blocks, nodes: BTreeMap::from([(1, root)]), used: BTreeSet::new() }
    }

    pub fn free_inodes(&self) -> usize {
        self.inodes - self.nodes.len()
    }

    pub fn free_blocks(&self) -> usize {
        self.blocks - self.used.len()
    }

    /// 5, unless it is a directory.
    pub fn slots(&self, directory: usize) -> Result<&Vec<Option<Entry>>, u8> {
        match self.nodes.get(&directory).map(|node| &node.body) {
            Some(Body::Directory(slots)) => Ok(slots),
            _ => Err(5),
        }
    }

    /// 5, unless it is a file.
    pub fn bytes(&self, inode: usize) -> Result<&Vec<u8>, u8> {
        match self.nodes.get(&inode).map(|node| &node.body) {
            Some(Body::File(bytes)) => Ok(bytes),
            _ => Err(5),
        }
    }

    fn find(&self, directory: usize, name: &[u8]) -> Option<(usize, usize)> {
        let slots = self.slots(directory).ok()?;
        let slot = slots.iter().position(|entry| entry.as_ref().is_some_and(|e| e.name.eq_ignore_ascii_case(name)))?;
        Some((slot, slots[slot].as_ref()?.inode))
    }

    /// The inode that a name stands for.
    pub fn named(&self, directory: usize, name: &[u8]) -> Option<usize> {
        self.find(directory, name).map(|(_, inode)| inode)
    }

    /// 12: no empty slot, fewer than twelve blocks, no free block. 13: no empty slot and twelve blocks.
    fn room(&self, directory: usize) -> Result<(), u8> {
        let full = self.slots(directory)?.iter().all(Option::is_some);
        let blocks = self.nodes[&directory].blocks.len();
        refuse(12, full && blocks < MAX_DIRECTORY_BLOCKS && self.free_blocks() == 0)?;
        refuse(13, full && blocks == MAX_DIRECTORY_BLOCKS)
    }

    fn node(&mut self, inode: usize) -> &mut Node {
        self.nodes.get_mut(&inode).expect("in use")
    }

    fn slots_mut(&mut self, directory: usize) -> &mut Vec<Option<Entry>> {
        match &mut self.node(directory).body {
            Body::Directory(slots) => slots,
            Body::File(_) => unreachable!("a directory"),
        }
    }

    fn bytes_mut(&mut self, inode: usize) -> &mut Vec<u8> {
        match &mut self.node(inode).body {
            Body::File(bytes) => bytes,
            Body::Directory(_) => unreachable!("a file"),
        }
    }

    fn take_block(&mut self, inode: usize) {
        let lowest = (1..=self.blocks).find(|b| !self.used.contains(b)).expect("a free block was found before");
        self.used.insert(lowest);
        self.node(inode).blocks.push(lowest);
    }

    fn free_blocks_from(&mut self, inode: usize, place: usize) {
        for block in self.node(inode).blocks.split_off(place) {
            self.used.remove(&block);
        }
    }

    /// The lowest empty slot; "a directory takes a block only when it has no empty slot".
    fn put_entry(&mut self, directory: usize, entry: Entry) -> usize {
        if self.slots_mut(directory).iter().all(Option::is_some) {
            self.take_block(directory);
            self.slots_mut(directory).extend([const { None }; SLOTS_IN_BLOCK]);
        }
        let slots = self.slots_mut(directory);
        let slot = slots.iter().position(Option::is_none).expect("room was made");
        slots[slot] = Some(entry);
        slot
    }

    /// Whether a directory is another one or lies below it.
    fn within(&self, mut directory: usize, above: usize) -> bool {
        while directory != above {
            if directory == 1 {
                return false;
            }
            directory = self.nodes[&directory].parent;
        }
        true
    }

    /// A file call, while a copy has an inode locked or not. A refused one changes nothing.
    pub fn call(&mut self, call: &Call, locked: Option<usize>) -> Result<Done, u8> {
        match call {
            Call::LookUp(directory, name) => self.look_up(*directory, name),
            Call::Create(directory, name, kind) => self.create(*directory, name, *kind, locked),
            Call::Read(inode, offset, length) => self.read(*inode, *offset, *length),
            Call::Write(inode, offset, bytes) => self.write(*inode, *offset, bytes, locked),
            Call::Shorten(inode, length) => self.shorten(*inode, *length, locked),
            Call::Link(directory, name, inode) => self.link(*directory, name, *inode, locked),
            Call::Unlink(directory, name) => self.unlink(*directory, name, locked),
            Call::Rename(directory, name, to, to_name) => self.rename(*directory, name, *to, to_name, locked),
            Call::RenameNew(directory, name, to, to_name) => self.rename_new(*directory, name, *to, to_name, locked),
            Call::Start | Call::Step | Call::Burst(_) | Call::Ask => unreachable!("no file call"),
        }
    }

    fn look_up(&self, directory: usize, name: &[u8]) -> Result<Done, u8> {
        legal(name)?;
        self.slots(directory)?;
        let (_, inode) = self.find(directory, name).ok_or(6)?;
        Ok(Done { answer: inode, ..Done::default() })
    }

    fn create(&mut self, directory: usize, name: &[u8], kind: Kind, locked: Option<usize>) -> Result<Done, u8> {
        legal(name)?;
        self.slots(directory)?;
        refuse(7, self.find(directory, name).is_some())?;
        let inode = (1..=self.inodes).find(|i| !self.nodes.contains_key(i)).ok_or(11)?;
        self.room(directory)?;
        busy(locked, &[directory])?;
        let slot = self.put_entry(directory, Entry { inode, name: name.to_vec() });
        let (parent, body) = match kind {
            Kind::File => (0, Body::File(vec![])),
            Kind::Directory => (directory, Body::Directory(vec![])),
        };
        self.nodes.insert(inode, Node { links: 1, parent, body, blocks: vec![] });
        Ok(Done { answer: inode, made: Some((directory, slot)), ..Done::default() })
    }

    fn read(&self, inode: usize, offset: usize, length: usize) -> Result<Done, u8> {
        let bytes = self.bytes(inode)?;
        refuse(9, offset > bytes.len())?;
        let out: Vec<u8> = bytes.iter().skip(offset).take(length).copied().collect();
        Ok(Done { answer: out.len(), out, ..Done::default() })
    }

    fn write(&mut self, inode: usize, offset: usize, bytes: &[u8], locked: Option<usize>) -> Result<Done, u8> {
        let old = self.bytes(inode)?.len();
        refuse(9, offset > old || offset + bytes.len() > MAX_FILE)?;
        let end = offset + bytes.len();
        let new = old.max(end);
        let wanted = blocks_for(new) - blocks_for(old);
        refuse(12, wanted > self.free_blocks())?;
        busy(locked, &[inode])?;
        let standing = self.nodes[&inode].blocks.len();
        for _ in 0..wanted {
            self.take_block(inode);
        }
        // "(a standing twelfth block keeps its number)": it now comes behind the address block, which was taken after it
        if old <= EDGE && new > EDGE && standing == DIRECT + 1 {
            self.node(inode).blocks.swap(DIRECT, DIRECT + 1);
        }
        let held = self.bytes_mut(inode);
        held.resize(new, 0);
        held[offset..end].copy_from_slice(bytes);
        Ok(Done { answer: new, written: Some(inode), ..Done::default() })
    }

    fn shorten(&mut self, inode: usize, length: usize, locked: Option<usize>) -> Result<Done, u8> {
        let old = self.bytes(inode)?.len();
        refuse(9, length > old)?;
        busy(locked, &[inode])?;
        if old > EDGE && length <= EDGE {
            let addresses = self.node(inode).blocks.remove(DIRECT);
            self.used.remove(&addresses);
        }
        self.free_blocks_from(inode, blocks_for(length));
        self.bytes_mut(inode).truncate(length);
        Ok(Done { answer: length, written: Some(inode), ..Done::default() })
    }

    fn link(&mut self, directory: usize, name: &[u8], inode: usize, locked: Option<usize>) -> Result<Done, u8> {
        legal(name)?;
        self.slots(directory)?;
        self.bytes(inode)?;
        refuse(7, self.find(directory, name).is_some())?;
        self.room(directory)?;
        busy(locked, &[directory, inode])?;
        let slot = self.put_entry(directory, Entry { inode, name: name.to_vec() });
        self.node(inode).links += 1;
        Ok(Done { made: Some((directory, slot)), ..Done::default() })
    }

    fn unlink(&mut self, directory: usize, name: &[u8], locked: Option<usize>) -> Result<Done, u8> {
        legal(name)?;
        self.slots(directory)?;
        let (slot, inode) = self.find(directory, name).ok_or(6)?;
        self.empty(inode)?;
        busy(locked, &[directory, inode])?;
        self.slots_mut(directory)[slot] = None;
        self.node(inode).links -= 1;
        if self.nodes[&inode].links == 0 {
            self.free_blocks_from(inode, 0);
            self.nodes.remove(&inode);
        }
        Ok(Done { taken: vec![Taken { directory, slot, inode }], ..Done::default() })
    }

    /// 8, if it is a directory with entries.
    fn empty(&self, inode: usize) -> Result<(), u8> {
        refuse(8, self.slots(inode).is_ok_and(|slots| slots.iter().any(Option::is_some)))
    }

    /// 10, if it is a directory that would move into itself or below.
    fn apart(&self, directory: usize, inode: usize, to: usize) -> Result<(), u8> {
        refuse(10, directory != to && self.slots(inode).is_ok() && self.within(to, inode))
    }

    /// "a rename onto a name taken by another entry unlinks this old holder and then renames"
    fn rename(&mut self, directory: usize, name: &[u8], to: usize, to_name: &[u8], locked: Option<usize>) -> Result<Done, u8> {
        legal(name)?;
        legal(to_name)?;
        self.slots(directory)?;
        self.slots(to)?;
        let (slot, inode) = self.find(directory, name).ok_or(6)?;
        let Some((_, holder)) = self.find(to, to_name).filter(|(held, _)| (to, *held) != (directory, slot)) else {
            return self.rename_new(directory, name, to, to_name, locked);
        };
        // "an old holder that is a directory and not empty gives 8, whichever kind comes"
        self.empty(holder)?;
        self.apart(directory, inode, to)?;
        let (comes, goes) = (&self.nodes[&inode], &self.nodes[&holder]);
        refuse(18, comes.kind() != goes.kind())?;
        if inode == holder {
            // "nothing changes, but refusals come as for any rename"
            let moved = if directory == to { directory } else { inode };
            busy(locked, &[directory, to, moved])?;
            return Ok(Done { held: Some(Held::Same), ..Done::default() });
        }
        let held = match (goes.kind(), goes.links) {
            (Kind::Directory, _) => Held::Directory,
            (Kind::File, 1) => Held::Freed,
            (Kind::File, _) => Held::Linked,
        };
        // "Blocks and slots are judged as they are once the old holder is gone."
        let mut gone = self.clone();
        let unlinked = gone.unlink(to, to_name, None)?;
        let renamed = gone.rename_new(directory, name, to, to_name, locked)?;
        // "A locked holder that would be replaced is busy."
        busy(locked, &[to, holder])?;
        *self = gone;
        Ok(Done { taken: [unlinked.taken, renamed.taken].concat(), held: Some(held), ..renamed })
    }

    /// The lap recorder's, "with the old rule".
    fn rename_new(
        &mut self,
        directory: usize,
        name: &[u8],
        to: usize,
        to_name: &[u8],
        locked: Option<usize>,
    ) -> Result<Done, u8> {
        legal(name)?;
        legal(to_name)?;
        self.slots(directory)?;
        self.slots(to)?;
        let (slot, inode) = self.find(directory, name).ok_or(6)?;
        let holder = self.find(to, to_name).map(|(held, _)| (to, held));
        refuse(7, holder.is_some_and(|place| place != (directory, slot)))?;
        let entry = Entry { inode, name: to_name.to_vec() };
        if directory == to {
            busy(locked, &[directory])?;
            self.slots_mut(directory)[slot] = Some(entry);
            return Ok(Done { renamed: Some((directory, slot)), ..Done::default() });
        }
        self.apart(directory, inode, to)?;
        self.room(to)?;
        busy(locked, &[directory, to, inode])?;
        self.slots_mut(directory)[slot] = None;
        let made = self.put_entry(to, entry);
        if self.slots(inode).is_ok() {
            self.node(inode).parent = to;
        }
        Ok(Done { taken: vec![Taken { directory, slot, inode }], made: Some((to, made)), ..Done::default() })
    }
}
