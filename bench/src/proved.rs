//! The proved library by its C names: an answer is the result if it is not negative, else minus the refusal's number.
use crate::side::{Answer, Buffers, Side, Status};

extern "C" {
    fn honecerise_lay_out_store(store: *mut u8, store_length: usize, inodes: usize, blocks: usize) -> i32;
    fn honecerise_lay_out_desk(desk: *mut u8, desk_length: usize, inodes: usize) -> i32;
    fn honecerise_check(image: u8, bytes: *const u8, length: usize) -> u8;
    fn honecerise_look_up(store: *const u8, store_length: usize, directory: usize, name: *const u8, name_length: usize) -> i32;
    fn honecerise_read(store: *const u8, store_length: usize, inode: usize, offset: usize, out: *mut u8, out_length: usize) -> i32;
    fn honecerise_create_file(
        store: *mut u8, store_length: usize, image: *mut u8, image_length: usize, desk: *mut u8, desk_length: usize,
        directory: usize, name: *const u8, name_length: usize,
    ) -> i32;
    fn honecerise_create_directory(
        store: *mut u8, store_length: usize, image: *mut u8, image_length: usize, desk: *mut u8, desk_length: usize,
        directory: usize, name: *const u8, name_length: usize,
    ) -> i32;
    fn honecerise_write(
        store: *mut u8, store_length: usize, image: *mut u8, image_length: usize, desk: *mut u8, desk_length: usize,
        inode: usize, offset: usize, bytes: *const u8, length: usize,
    ) -> i32;
    fn honecerise_shorten(
        store: *mut u8, store_length: usize, image: *mut u8, image_length: usize, desk: *mut u8, desk_length: usize,
        inode: usize, length: usize,
    ) -> i32;
    fn honecerise_link(
        store: *mut u8, store_length: usize, image: *mut u8, image_length: usize, desk: *mut u8, desk_length: usize,
        directory: usize, name: *const u8, name_length: usize, inode: usize,
    ) -> i32;
    fn honecerise_unlink(
        store: *mut u8, store_length: usize, image: *mut u8, image_length: usize, desk: *mut u8, desk_length: usize,
        directory: usize, name: *const u8, name_length: usize,
    ) -> i32;
    fn honecerise_rename(
        store: *mut u8, store_length: usize, image: *mut u8, image_length: usize, desk: *mut u8, desk_length: usize,
        directory: usize, name: *const u8, name_length: usize, to_directory: usize, to_name: *const u8, to_name_length: usize,
    ) -> i32;
    fn honecerise_rename_new(
        store: *mut u8, store_length: usize, image: *mut u8, image_length: usize, desk: *mut u8, desk_length: usize,
        directory: usize, name: *const u8, name_length: usize, to_directory: usize, to_name: *const u8, to_name_length: usize,
    ) -> i32;
    fn honecerise_start(store: *const u8, store_length: usize, image: *mut u8, image_length: usize, desk: *mut u8, desk_length: usize) -> i32;
    fn honecerise_step(store: *const u8, store_length: usize, image: *mut u8, image_length: usize, desk: *mut u8, desk_length: usize) -> i32;
    fn honecerise_burst(
        store: *const u8, store_length: usize, image: *mut u8, image_length: usize, desk: *mut u8, desk_length: usize, count: usize,
    ) -> i32;
    fn honecerise_state(
        store: *const u8, store_length: usize, image: *const u8, image_length: usize, desk: *const u8, desk_length: usize,
        state: *mut usize, locked: *mut usize, steps: *mut usize,
    ) -> i32;
    fn honecerise_deal(running: u16, steps: usize, last: usize, counts: *mut u8) -> i32;
    fn honecerise_match_laps(
        watch: *const u32, watch_count: usize, mat: *const u32, mat_count: usize,
        paired_watch: *mut u32, paired_watch_count: usize, paired_mat: *mut u32, paired_mat_count: usize,
        alone_watch: *mut u32, alone_watch_count: usize, alone_mat: *mut u32, alone_mat_count: usize,
    ) -> i32;
    fn honecerise_keep(
        copies: *const u32, count: usize, terms: *const u32, term_days: usize, asked: u32, out: *mut u8, out_length: usize,
    ) -> i32;
}

fn answer(r: i32) -> Answer {
    if r < 0 { Err(-r as u8) } else { Ok(r as usize) }
}

/// A call of a function that takes store, image and desk to be written, then the rest.
macro_rules! over {
    ($w:expr, $call:ident $(, $rest:expr)*) => {
        answer(unsafe {
            let w = $w;
            $call(w.store.as_mut_ptr(), w.store.len(), w.image.as_mut_ptr(), w.image.len(), w.desk.as_mut_ptr(), w.desk.len() $(, $rest)*)
        })
    };
}

/// Laps against the mat, which takes no store and is no call of a side.
pub fn match_laps(
    watch: &[u32], mat: &[u32],
    paired_watch: &mut [u32], paired_mat: &mut [u32], alone_watch: &mut [u32], alone_mat: &mut [u32],
) -> Answer {
    answer(unsafe {
        honecerise_match_laps(
            watch.as_ptr(), watch.len(), mat.as_ptr(), mat.len(),
            paired_watch.as_mut_ptr(), paired_watch.len(), paired_mat.as_mut_ptr(), paired_mat.len(),
            alone_watch.as_mut_ptr(), alone_watch.len(), alone_mat.as_mut_ptr(), alone_mat.len(),
        )
    })
}

/// Which copies to keep, which takes no store either.
pub fn keep(copies: &[u32], terms: &[u32], asked: u32, out: &mut [u8]) -> Answer {
    answer(unsafe { honecerise_keep(copies.as_ptr(), copies.len(), terms.as_ptr(), terms.len(), asked, out.as_mut_ptr(), out.len()) })
}

pub struct Proved;

impl Side for Proved {
    const NAME: &'static str = "proved";
    fn lay_out_store(store: &mut [u8], inodes: usize, blocks: usize) -> Answer {
        answer(unsafe { honecerise_lay_out_store(store.as_mut_ptr(), store.len(), inodes, blocks) })
    }
    fn lay_out_desk(desk: &mut [u8], inodes: usize) -> Answer {
        answer(unsafe { honecerise_lay_out_desk(desk.as_mut_ptr(), desk.len(), inodes) })
    }
    fn check(bytes: &[u8], image: bool) -> bool {
        unsafe { honecerise_check(image as u8, bytes.as_ptr(), bytes.len()) == 1 }
    }
    fn look_up(store: &[u8], directory: usize, name: &[u8]) -> Answer {
        answer(unsafe { honecerise_look_up(store.as_ptr(), store.len(), directory, name.as_ptr(), name.len()) })
    }
    fn read(store: &[u8], inode: usize, offset: usize, out: &mut [u8]) -> Answer {
        answer(unsafe { honecerise_read(store.as_ptr(), store.len(), inode, offset, out.as_mut_ptr(), out.len()) })
    }
    fn create_file(w: &mut Buffers, directory: usize, name: &[u8]) -> Answer {
        over!(w, honecerise_create_file, directory, name.as_ptr(), name.len())
    }
    fn create_directory(w: &mut Buffers, directory: usize, name: &[u8]) -> Answer {
        over!(w, honecerise_create_directory, directory, name.as_ptr(), name.len())
    }
    fn write(w: &mut Buffers, inode: usize, offset: usize, bytes: &[u8]) -> Answer {
        over!(w, honecerise_write, inode, offset, bytes.as_ptr(), bytes.len())
    }
    fn shorten(w: &mut Buffers, inode: usize, length: usize) -> Answer {
        over!(w, honecerise_shorten, inode, length)
    }
    fn link(w: &mut Buffers, directory: usize, name: &[u8], inode: usize) -> Answer {
        over!(w, honecerise_link, directory, name.as_ptr(), name.len(), inode)
    }
    fn unlink(w: &mut Buffers, directory: usize, name: &[u8]) -> Answer {
        over!(w, honecerise_unlink, directory, name.as_ptr(), name.len())
    }
    fn rename(w: &mut Buffers, directory: usize, name: &[u8], to: usize, to_name: &[u8]) -> Answer {
        over!(w, honecerise_rename, directory, name.as_ptr(), name.len(), to, to_name.as_ptr(), to_name.len())
    }
    fn rename_new(w: &mut Buffers, directory: usize, name: &[u8], to: usize, to_name: &[u8]) -> Answer {
        over!(w, honecerise_rename_new, directory, name.as_ptr(), name.len(), to, to_name.as_ptr(), to_name.len())
    }
    fn start(w: &mut Buffers) -> Answer {
        over!(w, honecerise_start)
    }
    fn step(w: &mut Buffers) -> Answer {
        over!(w, honecerise_step)
    }
    fn burst(w: &mut Buffers, count: usize) -> Answer {
        over!(w, honecerise_burst, count)
    }
    fn state(w: &Buffers) -> Status {
        let (mut state, mut locked, mut steps) = (0, 0, 0);
        let (s, m, d) = (&w.store, &w.image, &w.desk);
        let r = unsafe { honecerise_state(s.as_ptr(), s.len(), m.as_ptr(), m.len(), d.as_ptr(), d.len(), &mut state, &mut locked, &mut steps) };
        answer(r).map(|_| (state as u8, locked as u16, steps as u32))
    }
    fn deal(running: u16, steps: usize, last: usize, counts: &mut [u8; 16]) -> Answer {
        answer(unsafe { honecerise_deal(running, steps, last, counts.as_mut_ptr()) })
    }
}
