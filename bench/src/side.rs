//! One trait over the public calls, so that a list of calls can be run on either side.
use crate::plain;
pub use crate::plain::Answer;

/// State, locked inode and steps, or the number of a refusal.
pub type Status = Result<(u8, u16, u32), u8>;

/// The three buffers of a watch.
#[derive(Clone, Default, PartialEq)]
pub struct Buffers {
    pub store: Vec<u8>,
    pub image: Vec<u8>,
    pub desk: Vec<u8>,
}

pub trait Side {
    const NAME: &'static str;
    fn lay_out_store(store: &mut [u8], inodes: usize, blocks: usize) -> Answer;
    fn lay_out_desk(desk: &mut [u8], inodes: usize) -> Answer;
    fn check(bytes: &[u8], image: bool) -> bool;
    fn look_up(store: &[u8], directory: usize, name: &[u8]) -> Answer;
    fn read(store: &[u8], inode: usize, offset: usize, out: &mut [u8]) -> Answer;
    fn create_file(w: &mut Buffers, directory: usize, name: &[u8]) -> Answer;
    fn create_directory(w: &mut Buffers, directory: usize, name: &[u8]) -> Answer;
    fn write(w: &mut Buffers, inode: usize, offset: usize, bytes: &[u8]) -> Answer;
    fn shorten(w: &mut Buffers, inode: usize, length: usize) -> Answer;
    fn link(w: &mut Buffers, directory: usize, name: &[u8], inode: usize) -> Answer;
    fn unlink(w: &mut Buffers, directory: usize, name: &[u8]) -> Answer;
    fn rename(w: &mut Buffers, directory: usize, name: &[u8], to: usize, to_name: &[u8]) -> Answer;
    /// The lap recorder's, which replaces nothing.
    fn rename_new(w: &mut Buffers, directory: usize, name: &[u8], to: usize, to_name: &[u8]) -> Answer;
    fn start(w: &mut Buffers) -> Answer;
    fn step(w: &mut Buffers) -> Answer;
    fn burst(w: &mut Buffers, count: usize) -> Answer;
    fn state(w: &Buffers) -> Status;
    fn deal(running: u16, steps: usize, last: usize, counts: &mut [u8; 16]) -> Answer;
}

pub struct Plain;

impl Side for Plain {
    const NAME: &'static str = "plain";
    fn lay_out_store(store: &mut [u8], inodes: usize, blocks: usize) -> Answer {
        plain::lay_out_store(store, inodes, blocks)
    }
    fn lay_out_desk(desk: &mut [u8], inodes: usize) -> Answer {
        plain::lay_out_desk(desk, inodes)
    }
    fn check(bytes: &[u8], image: bool) -> bool {
        plain::check(bytes, image)
    }
    fn look_up(store: &[u8], directory: usize, name: &[u8]) -> Answer {
        plain::look_up(store, directory, name)
    }
    fn read(store: &[u8], inode: usize, offset: usize, out: &mut [u8]) -> Answer {
        plain::read(store, inode, offset, out)
    }
    fn create_file(w: &mut Buffers, directory: usize, name: &[u8]) -> Answer {
        plain::create(&mut w.store, &mut w.image, &mut w.desk, directory, name, plain::Kind::File)
    }
    fn create_directory(w: &mut Buffers, directory: usize, name: &[u8]) -> Answer {
        plain::create(&mut w.store, &mut w.image, &mut w.desk, directory, name, plain::Kind::Directory)
    }
    fn write(w: &mut Buffers, inode: usize, offset: usize, bytes: &[u8]) -> Answer {
        plain::write(&mut w.store, &mut w.image, &mut w.desk, inode, offset, bytes)
    }
    fn shorten(w: &mut Buffers, inode: usize, length: usize) -> Answer {
        plain::shorten(&mut w.store, &mut w.image, &mut w.desk, inode, length)
    }
    fn link(w: &mut Buffers, directory: usize, name: &[u8], inode: usize) -> Answer {
        plain::link(&mut w.store, &mut w.image, &mut w.desk, directory, name, inode)
    }
    fn unlink(w: &mut Buffers, directory: usize, name: &[u8]) -> Answer {
        plain::unlink(&mut w.store, &mut w.image, &mut w.desk, directory, name)
    }
    fn rename(w: &mut Buffers, directory: usize, name: &[u8], to: usize, to_name: &[u8]) -> Answer {
        plain::rename(&mut w.store, &mut w.image, &mut w.desk, directory, name, to, to_name)
    }
    fn rename_new(w: &mut Buffers, directory: usize, name: &[u8], to: usize, to_name: &[u8]) -> Answer {
        plain::rename_new(&mut w.store, &mut w.image, &mut w.desk, directory, name, to, to_name)
    }
    fn start(w: &mut Buffers) -> Answer {
        plain::start(&w.store, &mut w.image, &mut w.desk)
    }
    fn step(w: &mut Buffers) -> Answer {
        plain::step(&w.store, &mut w.image, &mut w.desk)
    }
    fn burst(w: &mut Buffers, count: usize) -> Answer {
        plain::burst(&w.store, &mut w.image, &mut w.desk, count)
    }
    fn state(w: &Buffers) -> Status {
        plain::state(&w.store, &w.image, &w.desk)
    }
    fn deal(running: u16, steps: usize, last: usize, counts: &mut [u8; 16]) -> Answer {
        plain::deal(running, steps, last, counts)
    }
}
