//! The file store of a running watch, and a copy of it that is taken while the watch goes on recording.
//!
//! The calls are those of a proved library: each is safe on any bytes and numbers, returns, and does to every byte what its
//! definition says. This crate gives them Rust types. It lends the library byte slices and keeps nothing of its own: no
//! allocation, no globals, no `std`.
//!
//! [`Watch`] holds the three lent buffers (store, image and desk) and has all calls on them.
//! [`Files`] reads what a sound store or a finished image holds. [`deal`] parts a charging case's
//! steps among its bays. [`match_laps`] holds a watch's lap times against those of the track's timing
//! mat, and [`keep`] says which copies of a case stay; both need no store. [`Refusal`] says why a call was refused; a refused call has changed
//! nothing, save that [`Refusal::ImageFull`] marks the copy stopped.
//!
//! ```
//! use honecerise::{desk_len, image_len, store_len, CopyState, Inode, Refusal, Watch};
//!
//! // 16 inodes, 64 blocks, and in the image as many blocks as always suffice
//! let mut store = [0; store_len(16, 64)];
//! let mut image = [0; image_len(16, 704)];
//! let mut desk = [0; desk_len(16)];
//! let mut watch = Watch::lay_out(&mut store, &mut image, &mut desk, 16, 64)?;
//!
//! let laps = watch.create_directory(Inode::ROOT, "laps")?;
//! let run = watch.create_file(laps, "run1")?;
//! watch.write(run, 0, b"71.2 70.8")?;
//!
//! // a copy, with a call between two of its steps, then steps in bursts
//! watch.start()?;
//! watch.step()?;
//! watch.create_file(laps, "run2")?;
//! while watch.status()?.state == CopyState::Running {
//!     watch.burst(8)?;
//! }
//!
//! let copy = watch.copy().expect("a finished copy");
//! let names: Vec<&[u8]> = copy.entries(laps)?.map(|e| e.name).collect();
//! assert_eq!(names, [b"run1", b"run2"]);
//! # Ok::<(), Refusal>(())
//! ```
#![no_std]
#![deny(unsafe_code)]
#![warn(missing_docs)]

#[allow(unsafe_code)]
mod ffi;
mod files;
mod inode;
mod iter;
mod keep;
mod laps;
mod refusal;
mod sizes;
mod turn;
mod watch;

pub use files::{Entry, Files};
pub use inode::{Inode, Kind};
pub use iter::{All, Contents, Entries};
pub use keep::{Date, Kept, Term, keep};
pub use laps::match_laps;
pub use refusal::Refusal;
pub use sizes::{
    BAYS, MAX_BLOCKS, MAX_COPIES, MAX_FILE, MAX_IMAGE, MAX_INODES, MAX_NAME, MAX_SLOTS, MAX_TERMS, MAX_TIMES, MOST_APART,
    MOST_BURST, MOST_TURN, desk_len, enough_image, image_len, most_steps, store_len,
};
pub use turn::{Turn, deal};
pub use watch::{CopyState, Status, Watch};
