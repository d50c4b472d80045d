//! Limits, and the lengths of buffers in bytes.

/// The most inodes of a store; its image and desk have as many.
pub const MAX_INODES: usize = 256;
/// The most blocks of a store.
pub const MAX_BLOCKS: usize = 1024;
/// The most blocks of an image.
pub const MAX_IMAGE: usize = 4096;
/// The most bytes of a name. None is 0 or `/`, and the name is not `.` or `..`; A to Z and a to z are alike.
pub const MAX_NAME: usize = 14;
/// The most bytes of a file.
pub const MAX_FILE: usize = 2752;
/// The most entries of a directory.
pub const MAX_SLOTS: usize = 48;
/// The most steps of a burst.
pub const MOST_BURST: usize = 64;
/// The bays of a charging case.
pub const BAYS: usize = 16;
/// The most steps of a charging case's turn.
pub const MOST_TURN: usize = 64;
/// The most times of a list of laps.
pub const MAX_TIMES: usize = 512;
/// How far apart a watch time and a mat time of one crossing may be, in hundredths of a second.
pub const MOST_APART: u32 = 50;
/// The most finished images of a case.
pub const MAX_COPIES: usize = 256;
/// The most terms of a school.
pub const MAX_TERMS: usize = 12;

/// The length of a store of so many inodes (1 to [`MAX_INODES`]) and blocks (1 to [`MAX_BLOCKS`]).
///
/// ```
/// let store = [0; honecerise::store_len(16, 64)];
/// assert_eq!(store.len(), 4624);
/// ```
pub const fn store_len(inodes: usize, blocks: usize) -> usize {
    16 + 32 * inodes + 64 * blocks
}

/// The length of an image of so many inodes, which are the store's, and blocks (1 to [`MAX_IMAGE`]).
///
/// ```
/// assert_eq!(honecerise::image_len(16, honecerise::enough_image(16)), 45584);
/// ```
pub const fn image_len(inodes: usize, blocks: usize) -> usize {
    16 + 32 * inodes + 64 * blocks
}

/// The length of a desk for so many inodes, which are the store's.
///
/// ```
/// assert_eq!(honecerise::desk_len(16), 160);
/// ```
pub const fn desk_len(inodes: usize) -> usize {
    16 + 9 * inodes
}

/// So many blocks in the image let every copy finish: [`ImageFull`](crate::Refusal::ImageFull) never comes. From
/// 94 inodes on that is more than [`MAX_IMAGE`], and it depends on the files; a store that nothing changes while it is copied
/// needs no more blocks than it has itself (by counting them; this is not proved).
pub const fn enough_image(inodes: usize) -> usize {
    44 * inodes
}

/// A copy is finished, or stopped by [`ImageFull`](crate::Refusal::ImageFull), within so many steps.
pub const fn most_steps(inodes: usize) -> usize {
    46 * inodes + 1
}
