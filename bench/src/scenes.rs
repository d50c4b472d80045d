//! The stores that calls and copies are timed on, all of 256 inodes and 1,024 blocks with an image of 12 × 256 blocks, and what the calls name in them.
use crate::stores;
use bench::plain::{self, Kind};
use bench::side::{Buffers, Plain, Side};

const INODES: usize = 256;
const IMAGE_BLOCKS: usize = 12 * INODES;

/// A store with room for one more file of 768 bytes.
pub struct Scene {
    pub name: &'static str,
    pub buffers: Buffers,
    /// A directory, an entry of it, a name that is free in it, and another directory with an empty slot.
    pub directory: usize,
    pub entry: Vec<u8>,
    pub free_name: Vec<u8>,
    pub other: usize,
    /// A file of 768 bytes, and an empty one.
    pub long: usize,
    pub fresh: usize,
    /// The lowest free inode.
    pub next: usize,
    /// A file of 2,752 bytes, where there is room for one more.
    pub longest: Option<usize>,
}

fn beside(store: Vec<u8>) -> Buffers {
    let mut desk = vec![0; 16 + 9 * INODES];
    plain::lay_out_desk(&mut desk, INODES).unwrap();
    Buffers { store, image: vec![0; 16 + 32 * INODES + 64 * IMAGE_BLOCKS], desk }
}

pub fn empty() -> Buffers {
    beside(stores::empty())
}

pub fn full() -> Buffers {
    beside(stores::full(1024))
}

pub fn long() -> Buffers {
    beside(stores::long())
}

/// Twenty runs of a few hundred bytes in four folders, the first of each folder of 768.
pub fn typical() -> Buffers {
    let mut w = empty();
    for folder in 0..4 {
        let d = create(&mut w, 1, format!("week-{folder}").as_bytes(), Kind::Directory);
        for run in 0..5 {
            let i = create(&mut w, d, format!("run-{folder}-{run}.lap").as_bytes(), Kind::File);
            let size = if run == 0 { 768 } else { 200 + 83 * run + 31 * folder };
            let bytes: Vec<u8> = (0..size).map(|k| (k * 7 + i) as u8).collect();
            Plain::write(&mut w, i, 0, &bytes).unwrap();
        }
    }
    w
}

fn create(w: &mut Buffers, d: usize, name: &[u8], kind: Kind) -> usize {
    plain::create(&mut w.store, &mut w.image, &mut w.desk, d, name, kind).unwrap()
}

/// The typical store with one more run in the last folder, still empty.
pub fn typical_scene() -> Scene {
    let mut buffers = typical();
    let last = Plain::look_up(&buffers.store, 1, b"week-3").unwrap();
    let other = Plain::look_up(&buffers.store, 1, b"week-0").unwrap();
    let long = Plain::look_up(&buffers.store, last, b"run-3-0.lap").unwrap();
    let fresh = create(&mut buffers, last, b"run-3-5.lap", Kind::File);
    Scene { name: "typical", buffers, directory: last, entry: b"run-3-4.lap".to_vec(), free_name: b"run-3-6.lap".to_vec(), other, long, fresh, next: fresh + 1, longest: None }
}

/// The full store without the last entry of a full directory and with one file cut to nothing: a file more takes the last inode, and 768 bytes the last blocks. The other directory has one empty slot.
pub fn full_scene() -> Scene {
    let mut buffers = full();
    let name = |i: usize| format!("run-{i:05}-lap").into_bytes();
    Plain::unlink(&mut buffers, 2, &name(97)).unwrap();
    Plain::shorten(&mut buffers, 8, 0).unwrap();
    Scene { name: "full", buffers, directory: 2, entry: name(96), free_name: name(0), other: 6, long: 7, fresh: 8, next: 97, longest: None }
}

/// The store of long files with one cut to 768 bytes and one to nothing, which then has room for 2,752 bytes again.
pub fn long_scene() -> Scene {
    let mut buffers = long();
    let name = |i: usize| format!("run-{i:05}-lap").into_bytes();
    Plain::shorten(&mut buffers, 7, 768).unwrap();
    Plain::shorten(&mut buffers, 8, 0).unwrap();
    Scene { name: "long files", buffers, directory: 2, entry: name(4), free_name: name(0), other: 3, long: 7, fresh: 8, next: 27, longest: Some(10) }
}
