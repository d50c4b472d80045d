//! What a sound store or a finished image holds, read by its layout.
//!
//! A [`Files`] exists only over bytes that the check said yes to, and they stay as they are while it does: so addresses and
//! inode numbers in them are in range, and every slice below lies inside.
use crate::{All, Contents, Entries, Inode, Kind, Refusal, ffi};

const HEADER: usize = 16;
const ATTRIBUTES: usize = 8;
const ADDRESSES: usize = 24;
pub(crate) const BLOCK: usize = 64;
const ENTRY: usize = 16;
/// A file above so many bytes is long: its twelfth address names a block of further ones.
const MAX_DIRECT: usize = 768;
const ADDRESS_PLACE: usize = 11;
const SLOTS_IN_BLOCK: usize = BLOCK / ENTRY;

/// The files and directories of a sound store or finished image. Files of an image are read here:
/// [`Watch::read`](crate::Watch::read) takes the store, and an image may have more blocks than a store can.
///
/// ```
/// # use honecerise::{desk_len, image_len, store_len, Files, Inode, Refusal, Watch};
/// # let (mut store, mut image, mut desk) = ([0; store_len(8, 8)], [0; image_len(8, 8)], [0; desk_len(8)]);
/// # let mut watch = Watch::lay_out(&mut store, &mut image, &mut desk, 8, 8)?;
/// # let laps = watch.create_directory(Inode::ROOT, "laps")?;
/// # let run = watch.create_file(laps, "run1")?;
/// # watch.write(run, 0, b"71.2 70.8")?;
/// # watch.start()?;
/// # while watch.step().is_ok() {}
/// // bytes that came over the air
/// let sent: &[u8] = watch.image();
/// let copy = Files::of_image(sent).expect("a sound finished image");
/// for entry in copy.all() {
///     println!("{} in {}: {:?}", entry.name.escape_ascii(), entry.directory, entry.kind);
/// }
/// let run = copy.find(laps, "run1").expect("the run").inode;
/// assert_eq!(copy.contents(run)?.next(), Some(&b"71.2 70.8"[..]));
/// # Ok::<(), Refusal>(())
/// ```
#[derive(Clone, Copy)]
pub struct Files<'a> {
    bytes: &'a [u8],
}

/// A directory's entry, and what it names.
#[derive(Clone, Copy, Debug, PartialEq, Eq, Hash)]
pub struct Entry<'a> {
    /// The directory that it is in.
    pub directory: Inode,
    /// Its place there, counted from 0.
    pub slot: usize,
    /// The file or directory that it names.
    pub inode: Inode,
    /// Its name, 1 to 14 bytes.
    pub name: &'a [u8],
    /// What the inode is.
    pub kind: Kind,
    /// The inode's size in bytes; a directory's is 64 for each block that it has.
    pub size: usize,
    /// How many entries name the inode.
    pub links: usize,
}

impl<'a> Files<'a> {
    /// The files of a store, if the bytes are a sound one.
    pub fn of_store(bytes: &'a [u8]) -> Option<Self> {
        ffi::check(false, bytes).then_some(Files { bytes })
    }

    /// The files of a finished image, if the bytes are a sound one.
    pub fn of_image(bytes: &'a [u8]) -> Option<Self> {
        ffi::check(true, bytes).then_some(Files { bytes })
    }

    fn number(&self, at: usize) -> usize {
        u16::from_le_bytes([self.bytes[at], self.bytes[at + 1]]).into()
    }

    /// How many inodes there are, free ones included.
    pub fn inodes(&self) -> usize {
        self.number(0)
    }

    /// How many blocks there are, free ones included.
    pub fn blocks(&self) -> usize {
        self.number(2)
    }

    /// How many inodes are free.
    pub fn free_inodes(&self) -> usize {
        self.number(4)
    }

    /// How many blocks are free.
    pub fn free_blocks(&self) -> usize {
        self.number(6)
    }

    /// Where an inode's attributes stand, if there is such an inode.
    fn attributes(&self, inode: Inode) -> Option<usize> {
        (1..=self.inodes()).contains(&inode.0).then(|| HEADER + ATTRIBUTES * (inode.0 - 1))
    }

    /// What an inode is; `None` if it is free or there is none of that number.
    pub fn kind(&self, inode: Inode) -> Option<Kind> {
        match self.bytes[self.attributes(inode)?] {
            1 => Some(Kind::File),
            2 => Some(Kind::Directory),
            _ => None,
        }
    }

    /// The size of an inode in use that is of the kind needed.
    fn size(&self, inode: Inode, needed: Kind) -> Result<usize, Refusal> {
        match (self.attributes(inode), self.kind(inode)) {
            (Some(at), Some(kind)) if kind == needed => Ok(self.number(at + 4)),
            _ => Err(Refusal::WrongInode),
        }
    }

    /// Where a block stands whose number stands at a place.
    fn block_named(&self, at: usize) -> usize {
        HEADER + (ATTRIBUTES + ADDRESSES) * self.inodes() + BLOCK * (self.number(at) - 1)
    }

    /// The block at a place inside an inode's size.
    pub(crate) fn block(&self, inode: Inode, place: usize) -> &'a [u8] {
        let size = self.number(HEADER + ATTRIBUTES * (inode.0 - 1) + 4);
        let addresses = HEADER + ATTRIBUTES * self.inodes() + ADDRESSES * (inode.0 - 1);
        let at = if size > MAX_DIRECT && place >= ADDRESS_PLACE {
            self.block_named(self.block_named(addresses + 2 * ADDRESS_PLACE) + 2 * (place - ADDRESS_PLACE))
        } else {
            self.block_named(addresses + 2 * place)
        };
        &self.bytes[at..at + BLOCK]
    }

    /// A directory's entries in the order of its slots, empty ones left out.
    ///
    /// Refuses with `WrongInode`.
    pub fn entries(&self, directory: Inode) -> Result<Entries<'a>, Refusal> {
        let slots = self.size(directory, Kind::Directory)? / ENTRY;
        Ok(Entries::new(*self, directory, slots))
    }

    /// All entries, by directory and slot.
    pub fn all(&self) -> All<'a> {
        All::new(*self)
    }

    /// The entry of a name, if the directory is one and has it; `Run1` and `run1` are one name.
    pub fn find(&self, directory: Inode, name: impl AsRef<[u8]>) -> Option<Entry<'a>> {
        self.entries(directory).ok()?.find(|entry| entry.name.eq_ignore_ascii_case(name.as_ref()))
    }

    /// A file's bytes in pieces: all but the last have 64.
    ///
    /// Refuses with `WrongInode`.
    pub fn contents(&self, inode: Inode) -> Result<Contents<'a>, Refusal> {
        let size = self.size(inode, Kind::File)?;
        Ok(Contents::new(*self, inode, 0, size))
    }

    /// Bytes of a file from `offset` on, as many as there are and `out` has room for: how many. The rest of `out` stays.
    ///
    /// Refuses with `WrongInode`, `PastEnd`.
    pub fn read(&self, inode: Inode, offset: usize, out: &mut [u8]) -> Result<usize, Refusal> {
        let size = self.size(inode, Kind::File)?;
        if offset > size {
            return Err(Refusal::PastEnd);
        }
        let mut done = 0;
        let pieces = Contents::new(*self, inode, offset / BLOCK, size);
        for (k, piece) in pieces.enumerate() {
            let piece = if k == 0 { &piece[offset % BLOCK..] } else { piece };
            let count = piece.len().min(out.len() - done);
            out[done..done + count].copy_from_slice(&piece[..count]);
            done += count;
        }
        Ok(done)
    }

    /// The entry in a slot inside a directory's size, unless it is empty.
    pub(crate) fn entry(&self, directory: Inode, slot: usize) -> Option<Entry<'a>> {
        let block = self.block(directory, slot / SLOTS_IN_BLOCK);
        let bytes = &block[slot % SLOTS_IN_BLOCK * ENTRY..][..ENTRY];
        let inode = Inode(u16::from_le_bytes([bytes[0], bytes[1]]).into());
        let at = self.attributes(inode)?;
        let name = &bytes[2..];
        let length = name.iter().position(|&b| b == 0).unwrap_or(name.len());
        Some(Entry {
            directory,
            slot,
            inode,
            name: &name[..length],
            kind: self.kind(inode)?,
            size: self.number(at + 4),
            links: self.number(at + 2),
        })
    }
}

impl core::fmt::Debug for Files<'_> {
    fn fmt(&self, f: &mut core::fmt::Formatter<'_>) -> core::fmt::Result {
        f.debug_list().entries(self.all()).finish()
    }
}
