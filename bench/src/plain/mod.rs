//! The papers' calls in plain Rust, with files above 768 bytes: the same checks and the same order of refusals as the proved library, over lent buffers, without a heap and without `unsafe`.
mod burst;
mod content;
mod copier;
mod deal;
mod desk;
mod entries;
mod format;
mod guards;
mod image;
mod keep;
mod laps;
mod names;
mod rename;
mod slots;
mod sound;
mod view;

pub use burst::burst;
pub use content::{read, shorten, write};
pub use copier::{start, state, step};
pub use deal::deal;
pub use entries::{create, link, look_up, unlink, Kind};
pub use format::{lay_out_desk, lay_out_store};
pub use keep::keep;
pub use laps::match_laps;
pub use rename::{rename, rename_new};
pub use sound::check;

/// A call's number (0 where document 01 names none), or the number of its refusal.
pub type Answer = Result<usize, u8>;

/// The refusals by document 01's numbers.
mod refusal {
    pub const BAD_BUFFER: u8 = 1;
    pub const UNSOUND_STORE: u8 = 2;
    pub const BAD_DESK: u8 = 3;
    pub const ILLEGAL_NAME: u8 = 4;
    pub const WRONG_INODE: u8 = 5;
    pub const NAME_ABSENT: u8 = 6;
    pub const NAME_TAKEN: u8 = 7;
    pub const NOT_EMPTY: u8 = 8;
    pub const PAST_END: u8 = 9;
    pub const INTO_ITSELF: u8 = 10;
    pub const NO_INODE: u8 = 11;
    pub const NO_BLOCKS: u8 = 12;
    pub const NO_SLOT: u8 = 13;
    pub const BUSY: u8 = 14;
    pub const WRONG_STATE: u8 = 15;
    pub const IMAGE_FULL: u8 = 16;
    pub const BAD_COUNT: u8 = 17;
    pub const KINDS_DIFFER: u8 = 18;
    pub const BAD_TURN: u8 = 21;
    pub const NO_DATE: u8 = 23;
    pub const BAD_TERMS: u8 = 24;
    pub const AFTER_ASKED: u8 = 25;
    pub const BAD_TIMES: u8 = 26;
}
