//! Inodes: what entries name.
use core::fmt;

/// The number of a file or directory, counted from 1. Any number may be handed to a call; one that is not the file or
/// directory needed is refused.
#[derive(Clone, Copy, Debug, PartialEq, Eq, PartialOrd, Ord, Hash)]
pub struct Inode(pub usize);

impl Inode {
    /// The root directory.
    pub const ROOT: Inode = Inode(1);
}

impl fmt::Display for Inode {
    fn fmt(&self, f: &mut fmt::Formatter<'_>) -> fmt::Result {
        self.0.fmt(f)
    }
}

/// What an inode is.
#[derive(Clone, Copy, Debug, PartialEq, Eq, Hash)]
pub enum Kind {
    /// Up to [`MAX_FILE`](crate::MAX_FILE) bytes.
    File,
    /// Up to [`MAX_SLOTS`](crate::MAX_SLOTS) entries.
    Directory,
}
