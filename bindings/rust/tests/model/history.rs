//! Demand 3's first claim, from stores and calls alone: what stood at the start and was left in place is in the finished copy.
//! The copier's notes are not looked at.
use std::collections::BTreeMap;

use honecerise::{Files, Inode};

use crate::call::{Kind, Name};
use crate::store::{Body, Done, Store};

struct Stood {
    inode: usize,
    kind: Kind,
    /// The names that the slot held.
    names: Vec<Name>,
    /// Unlinked or moved; "being replaced is being unlinked".
    gone: bool,
}

pub struct History {
    /// By directory and slot, as they stood at the start.
    entries: BTreeMap<(usize, usize), Stood>,
    /// The place of the entry that names a directory.
    above: BTreeMap<usize, (usize, usize)>,
    /// Each file's bytes, from moment to moment.
    versions: BTreeMap<usize, Vec<Vec<u8>>>,
}

impl History {
    pub fn begin(store: &Store) -> Self {
        let mut history = History { entries: BTreeMap::new(), above: BTreeMap::new(), versions: BTreeMap::new() };
        for (&directory, node) in &store.nodes {
            match &node.body {
                Body::File(bytes) => drop(history.versions.insert(directory, vec![bytes.clone()])),
                Body::Directory(slots) => {
                    for (slot, entry) in slots.iter().enumerate().filter_map(|(slot, e)| Some((slot, e.as_ref()?))) {
                        let kind = store.nodes[&entry.inode].kind();
                        if kind == Kind::Directory {
                            history.above.insert(entry.inode, (directory, slot));
                        }
                        let stood = Stood { inode: entry.inode, kind, names: vec![entry.name.clone()], gone: false };
                        history.entries.insert((directory, slot), stood);
                    }
                }
            }
        }
        history
    }

    /// An accepted file call, and the store that it left.
    pub fn note(&mut self, done: &Done, store: &Store) {
        for taken in &done.taken {
            if let Some(stood) = self.entries.get_mut(&(taken.directory, taken.slot)) {
                stood.gone = true;
            }
        }
        if let Some((directory, slot)) = done.renamed
            && let Some(stood) = self.entries.get_mut(&(directory, slot))
            && let Ok(slots) = store.slots(directory)
        {
            stood.names.extend(slots[slot].as_ref().map(|entry| entry.name.clone()));
        }
        if let Some(inode) = done.written
            && let Some(versions) = self.versions.get_mut(&inode)
            && let Ok(bytes) = store.bytes(inode)
        {
            versions.push(bytes.clone());
        }
    }

    /// The entry there stood at the start, and neither it nor any above it was taken out since.
    pub fn untouched(&self, place: (usize, usize)) -> bool {
        let stands = self.entries.get(&place).is_some_and(|stood| !stood.gone);
        stands && (place.0 == 1 || self.untouched(self.above[&place.0]))
    }

    /// How many entries the claim is about, or which one is not in the copy as it says.
    pub fn claim(&self, copy: &Files) -> Result<usize, String> {
        let untouched: Vec<_> = self.entries.iter().filter(|(place, _)| self.untouched(**place)).collect();
        for ((directory, slot), stood) in &untouched {
            let at = format!("the entry in slot {slot} of directory {directory}, untouched since the start,");
            let entries = copy.entries(Inode(*directory)).map_err(|_| format!("{at} lacks its directory in the copy"))?;
            let Some(entry) = entries.into_iter().find(|entry| entry.slot == *slot) else {
                return Err(format!("{at} is not in the copy"));
            };
            if entry.inode != Inode(stood.inode) || entry.kind != stood.kind {
                return Err(format!("{at} is for another inode in the copy"));
            }
            if !stood.names.iter().any(|name| name == entry.name) {
                return Err(format!("{at} has a name in the copy that it never had"));
            }
            if entry.kind == Kind::File {
                let bytes = copy.contents(entry.inode).expect("a file").collect::<Vec<_>>().concat();
                if bytes.len() != entry.size || !self.versions[&stood.inode].contains(&bytes) {
                    return Err(format!("{at} has bytes in the copy that it had at no moment"));
                }
            }
        }
        Ok(untouched.len())
    }
}
