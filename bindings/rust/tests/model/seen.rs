//! What a store or an image holds, in one form for the library's bytes and the model's records.
use std::fmt;

use honecerise::Files;

use crate::call::{Kind, Name};
use crate::copier::{Image, Piece};
use crate::store::{Body, EDGE, Store};

#[derive(PartialEq, Eq)]
pub struct Row {
    directory: usize,
    slot: usize,
    inode: usize,
    name: Name,
    kind: Kind,
    size: usize,
    links: usize,
}

pub struct Seen {
    free_inodes: usize,
    free_blocks: usize,
    /// By directory and slot.
    rows: Vec<Row>,
    /// Files with their bytes.
    files: Vec<(usize, Vec<u8>)>,
    /// Inodes with the numbers of their blocks, those that have some.
    blocks: Vec<(usize, Vec<usize>)>,
}

impl Seen {
    /// Where two of them differ first.
    pub fn same_as(&self, expected: &Seen) -> Result<(), String> {
        differ("free inodes", &[self.free_inodes], &[expected.free_inodes])?;
        differ("entries", &self.rows, &expected.rows)?;
        differ("files", &self.files, &expected.files)?;
        differ("numbers of blocks", &self.blocks, &expected.blocks)?;
        differ("free blocks", &[self.free_blocks], &[expected.free_blocks])
    }
}

fn differ<T: PartialEq + fmt::Debug>(what: &str, library: &[T], model: &[T]) -> Result<(), String> {
    if library == model {
        return Ok(());
    }
    let k = library.iter().zip(model).take_while(|(a, b)| a == b).count();
    Err(format!("{what}: the library has {:?}, expected was {:?}", library.get(k), model.get(k)))
}

/// By the listing iterators; the numbers of blocks by the paper's layout ("Bytes").
pub fn of_bytes(files: &Files, bytes: &[u8]) -> Seen {
    let number = |at: usize| usize::from(bytes[at]) + 256 * usize::from(bytes[at + 1]);
    let inodes = files.inodes();
    let rows: Vec<Row> = files.all().map(|e| row(e.directory.0, e.slot, e.inode.0, e.name, e.kind, e.size, e.links)).collect();
    let contents =
        |inode| files.contents(honecerise::Inode(inode)).ok().map(|pieces| (inode, pieces.collect::<Vec<_>>().concat()));
    // the twelve addresses, and those in the block that the last one of a file above 768 bytes names
    let addresses = |inode: usize| {
        let (attributes, direct) = (16 + 8 * (inode - 1), 16 + 8 * inodes + 24 * (inode - 1));
        let long = bytes[attributes] == 1 && number(attributes + 4) > EDGE;
        let further = if long { 16 + 32 * inodes + 64 * (number(direct + 22) - 1) } else { 0 };
        let places = (0..12).map(move |k| direct + 2 * k).chain((0..if long { 32 } else { 0 }).map(move |k| further + 2 * k));
        places.map(number).filter(|&b| b != 0)
    };
    Seen {
        free_inodes: files.free_inodes(),
        free_blocks: files.free_blocks(),
        rows,
        files: (1..=inodes).filter_map(contents).collect(),
        blocks: (1..=inodes)
            .map(|inode| (inode, addresses(inode).collect()))
            .filter(|(_, blocks): &(_, Vec<_>)| !blocks.is_empty())
            .collect(),
    }
}

impl fmt::Debug for Row {
    fn fmt(&self, f: &mut fmt::Formatter<'_>) -> fmt::Result {
        let Row { directory, slot, inode, name, kind, size, links } = self;
        write!(f, "{directory} {slot} {inode} {kind:?} {size} {links} {}", name.escape_ascii())
    }
}

fn row(directory: usize, slot: usize, inode: usize, name: &[u8], kind: Kind, size: usize, links: usize) -> Row {
    Row { directory, slot, inode, name: name.to_vec(), kind, size, links }
}

pub fn of_store(store: &Store) -> Seen {
    let mut seen =
        Seen { free_inodes: store.free_inodes(), free_blocks: store.free_blocks(), rows: vec![], files: vec![], blocks: vec![] };
    for (&inode, node) in &store.nodes {
        if !node.blocks.is_empty() {
            seen.blocks.push((inode, node.blocks.clone()));
        }
        match &node.body {
            Body::File(bytes) => seen.files.push((inode, bytes.clone())),
            Body::Directory(slots) => {
                for (slot, entry) in slots.iter().enumerate().filter_map(|(slot, e)| Some((slot, e.as_ref()?))) {
                    let named = &store.nodes[&entry.inode];
                    seen.rows.push(row(inode, slot, entry.inode, &entry.name, named.kind(), named.size(), named.links));
                }
            }
        }
    }
    seen
}

pub fn of_image(image: &Image, inodes: usize) -> Seen {
    let in_use = || image.nodes.iter().filter_map(|(&inode, kept)| Some((inode, kept, kept.kind?)));
    let files = in_use().filter(|(_, _, kind)| *kind == Kind::File).map(|(inode, kept, _)| {
        let bytes = kept.pieces.iter().flat_map(|(_, piece)| if let Piece::Bytes(bytes) = piece { &bytes[..] } else { &[] });
        (inode, bytes.copied().collect())
    });
    Seen {
        free_inodes: inodes - in_use().count(),
        free_blocks: image.blocks - image.nodes.values().map(|kept| kept.pieces.len()).sum::<usize>(),
        rows: image
            .entries()
            .map(|(directory, slot, entry)| {
                let kept = &image.nodes[&entry.inode];
                row(directory, slot, entry.inode, &entry.name, kept.kind.expect("copied"), kept.size, kept.links)
            })
            .collect(),
        files: files.collect(),
        blocks: in_use()
            .filter(|(_, kept, _)| !kept.pieces.is_empty())
            .map(|(inode, kept, _)| (inode, kept.pieces.iter().map(|(block, _)| *block).collect()))
            .collect(),
    }
}
