//! The library's C names, and a safe function for each. All `unsafe` of the crate is here.
//!
//! What every call rests on: a pointer and the length after it are those of one slice, which is lent until the call returns;
//! a slice to be written is `&mut`, so no other argument overlaps it; a slice may be empty. The library is proved to read and
//! write inside these slices alone, whatever their bytes and the numbers are, and keeps none of them.
use crate::{BAYS, Refusal};

#[cfg(not(target_pointer_width = "64"))]
compile_error!("the library's lengths and numbers are 64 bits wide, and this crate hands it usize");

#[rustfmt::skip]
mod c {
    // SAFETY: these are the functions of include/honecerise.h, with the same parameters in the same order.
    unsafe extern "C" {
        pub fn honecerise_lay_out_store(store: *mut u8, store_len: usize, inodes: usize, blocks: usize) -> i32;
        pub fn honecerise_lay_out_desk(desk: *mut u8, desk_len: usize, inodes: usize) -> i32;

        pub fn honecerise_check(image: u8, bytes: *const u8, len: usize) -> u8;
        pub fn honecerise_look_up(store: *const u8, store_len: usize, directory: usize, name: *const u8, name_len: usize) -> i32;
        pub fn honecerise_read(store: *const u8, store_len: usize, inode: usize, offset: usize, out: *mut u8, out_len: usize) -> i32;

        pub fn honecerise_create_file(
            store: *mut u8, store_len: usize, image: *mut u8, image_len: usize, desk: *mut u8, desk_len: usize,
            directory: usize, name: *const u8, name_len: usize,
        ) -> i32;
        pub fn honecerise_create_directory(
            store: *mut u8, store_len: usize, image: *mut u8, image_len: usize, desk: *mut u8, desk_len: usize,
            directory: usize, name: *const u8, name_len: usize,
        ) -> i32;
        pub fn honecerise_write(
            store: *mut u8, store_len: usize, image: *mut u8, image_len: usize, desk: *mut u8, desk_len: usize,
            inode: usize, offset: usize, bytes: *const u8, len: usize,
        ) -> i32;
        pub fn honecerise_shorten(
            store: *mut u8, store_len: usize, image: *mut u8, image_len: usize, desk: *mut u8, desk_len: usize,
            inode: usize, length: usize,
        ) -> i32;
        pub fn honecerise_link(
            store: *mut u8, store_len: usize, image: *mut u8, image_len: usize, desk: *mut u8, desk_len: usize,
            directory: usize, name: *const u8, name_len: usize, inode: usize,
        ) -> i32;
        pub fn honecerise_unlink(
            store: *mut u8, store_len: usize, image: *mut u8, image_len: usize, desk: *mut u8, desk_len: usize,
            directory: usize, name: *const u8, name_len: usize,
        ) -> i32;
        pub fn honecerise_rename(
            store: *mut u8, store_len: usize, image: *mut u8, image_len: usize, desk: *mut u8, desk_len: usize,
            directory: usize, name: *const u8, name_len: usize, to_directory: usize, to_name: *const u8, to_name_len: usize,
        ) -> i32;
        pub fn honecerise_rename_new(
            store: *mut u8, store_len: usize, image: *mut u8, image_len: usize, desk: *mut u8, desk_len: usize,
            directory: usize, name: *const u8, name_len: usize, to_directory: usize, to_name: *const u8, to_name_len: usize,
        ) -> i32;

        pub fn honecerise_start(
            store: *const u8, store_len: usize, image: *mut u8, image_len: usize, desk: *mut u8, desk_len: usize,
        ) -> i32;
        pub fn honecerise_step(
            store: *const u8, store_len: usize, image: *mut u8, image_len: usize, desk: *mut u8, desk_len: usize,
        ) -> i32;
        pub fn honecerise_burst(
            store: *const u8, store_len: usize, image: *mut u8, image_len: usize, desk: *mut u8, desk_len: usize, count: usize,
        ) -> i32;
        pub fn honecerise_state(
            store: *const u8, store_len: usize, image: *const u8, image_len: usize, desk: *const u8, desk_len: usize,
            state: *mut usize, locked: *mut usize, steps: *mut usize,
        ) -> i32;

        pub fn honecerise_deal(running: u16, steps: usize, last: usize, counts: *mut u8) -> i32;

        pub fn honecerise_match_laps(
            watch: *const u32, watch_count: usize, mat: *const u32, mat_count: usize,
            paired_watch: *mut u32, paired_watch_count: usize, paired_mat: *mut u32, paired_mat_count: usize,
            alone_watch: *mut u32, alone_watch_count: usize, alone_mat: *mut u32, alone_mat_count: usize,
        ) -> i32;

        pub fn honecerise_keep(
            copies: *const u32, count: usize, terms: *const u32, term_days: usize, asked: u32, out: *mut u8, out_len: usize,
        ) -> i32;
    }
}

/// A result, or why there is none.
pub type Answer = Result<usize, Refusal>;

/// The three buffers, lent to be written.
pub struct Lent<'a> {
    pub store: &'a mut [u8],
    pub image: &'a mut [u8],
    pub desk: &'a mut [u8],
}

/// An answer is the result if it is not negative, else minus the refusal's number.
fn answer(code: i32) -> Answer {
    usize::try_from(code).map_err(|_| {
        let number = u8::try_from(code.unsigned_abs()).ok();
        number.and_then(Refusal::from_number).expect("a negative answer is minus the number of a refusal: this is proved")
    })
}

pub fn lay_out_store(store: &mut [u8], inodes: usize, blocks: usize) -> Answer {
    // SAFETY: pointer and length are of one slice, lent for the call.
    answer(unsafe { c::honecerise_lay_out_store(store.as_mut_ptr(), store.len(), inodes, blocks) })
}

pub fn lay_out_desk(desk: &mut [u8], inodes: usize) -> Answer {
    // SAFETY: pointer and length are of one slice, lent for the call.
    answer(unsafe { c::honecerise_lay_out_desk(desk.as_mut_ptr(), desk.len(), inodes) })
}

pub fn check(image: bool, bytes: &[u8]) -> bool {
    // SAFETY: pointer and length are of one slice, which is only read.
    unsafe { c::honecerise_check(image.into(), bytes.as_ptr(), bytes.len()) == 1 }
}

pub fn look_up(store: &[u8], directory: usize, name: &[u8]) -> Answer {
    // SAFETY: each pointer and length are of one slice; both slices are only read.
    answer(unsafe { c::honecerise_look_up(store.as_ptr(), store.len(), directory, name.as_ptr(), name.len()) })
}

pub fn read(store: &[u8], inode: usize, offset: usize, out: &mut [u8]) -> Answer {
    // SAFETY: each pointer and length are of one slice; `out` alone is written, and overlaps nothing, being `&mut`.
    answer(unsafe { c::honecerise_read(store.as_ptr(), store.len(), inode, offset, out.as_mut_ptr(), out.len()) })
}

/// A call that takes the three buffers to be written, then the rest, of which nothing is written.
macro_rules! over {
    ($lent:expr, $call:ident $(, $rest:expr)*) => {{
        let Lent { store, image, desk } = $lent;
        // SAFETY: each pointer and length are of one slice; the three buffers are apart from each other and from what is only
        // read, since each is `&mut`.
        answer(unsafe {
            c::$call(store.as_mut_ptr(), store.len(), image.as_mut_ptr(), image.len(), desk.as_mut_ptr(), desk.len() $(, $rest)*)
        })
    }};
}

pub fn create_file(lent: &mut Lent<'_>, directory: usize, name: &[u8]) -> Answer {
    over!(lent, honecerise_create_file, directory, name.as_ptr(), name.len())
}

pub fn create_directory(lent: &mut Lent<'_>, directory: usize, name: &[u8]) -> Answer {
    over!(lent, honecerise_create_directory, directory, name.as_ptr(), name.len())
}

pub fn write(lent: &mut Lent<'_>, inode: usize, offset: usize, bytes: &[u8]) -> Answer {
    over!(lent, honecerise_write, inode, offset, bytes.as_ptr(), bytes.len())
}

pub fn shorten(lent: &mut Lent<'_>, inode: usize, length: usize) -> Answer {
    over!(lent, honecerise_shorten, inode, length)
}

pub fn link(lent: &mut Lent<'_>, directory: usize, name: &[u8], inode: usize) -> Answer {
    over!(lent, honecerise_link, directory, name.as_ptr(), name.len(), inode)
}

pub fn unlink(lent: &mut Lent<'_>, directory: usize, name: &[u8]) -> Answer {
    over!(lent, honecerise_unlink, directory, name.as_ptr(), name.len())
}

pub fn rename(lent: &mut Lent<'_>, directory: usize, name: &[u8], to: usize, to_name: &[u8]) -> Answer {
    over!(lent, honecerise_rename, directory, name.as_ptr(), name.len(), to, to_name.as_ptr(), to_name.len())
}

pub fn rename_new(lent: &mut Lent<'_>, directory: usize, name: &[u8], to: usize, to_name: &[u8]) -> Answer {
    over!(lent, honecerise_rename_new, directory, name.as_ptr(), name.len(), to, to_name.as_ptr(), to_name.len())
}

pub fn start(lent: &mut Lent<'_>) -> Answer {
    over!(lent, honecerise_start)
}

pub fn step(lent: &mut Lent<'_>) -> Answer {
    over!(lent, honecerise_step)
}

pub fn burst(lent: &mut Lent<'_>, count: usize) -> Answer {
    over!(lent, honecerise_burst, count)
}

/// State, locked inode and steps.
pub fn state(lent: &Lent<'_>) -> Result<(usize, usize, usize), Refusal> {
    let Lent { store, image, desk } = lent;
    let (mut state, mut locked, mut steps) = (0, 0, 0);
    // SAFETY: each pointer and length are of one slice, and the slices are only read; the three numbers are locals of this
    // function, each its own.
    answer(unsafe {
        c::honecerise_state(
            store.as_ptr(),
            store.len(),
            image.as_ptr(),
            image.len(),
            desk.as_ptr(),
            desk.len(),
            &mut state,
            &mut locked,
            &mut steps,
        )
    })?;
    Ok((state, locked, steps))
}

/// The bay last served; the counts are written in every case.
pub fn deal(running: u16, steps: usize, last: usize, counts: &mut [u8; BAYS]) -> Answer {
    // SAFETY: the pointer is that of sixteen bytes, lent for the call.
    answer(unsafe { c::honecerise_deal(running, steps, last, counts.as_mut_ptr()) })
}

pub fn match_laps(
    watch: &[u32],
    mat: &[u32],
    paired_watch: &mut [u32],
    paired_mat: &mut [u32],
    alone_watch: &mut [u32],
    alone_mat: &mut [u32],
) -> Answer {
    // SAFETY: each pointer and count are of one slice, aligned as a slice is; the four lists that are
    // written are apart from each other and from the two that are only read, since each is `&mut`.
    answer(unsafe {
        c::honecerise_match_laps(
            watch.as_ptr(),
            watch.len(),
            mat.as_ptr(),
            mat.len(),
            paired_watch.as_mut_ptr(),
            paired_watch.len(),
            paired_mat.as_mut_ptr(),
            paired_mat.len(),
            alone_watch.as_mut_ptr(),
            alone_watch.len(),
            alone_mat.as_mut_ptr(),
            alone_mat.len(),
        )
    })
}

pub fn keep(copies: &[u32], terms: &[u32], asked: u32, out: &mut [u8]) -> Answer {
    // SAFETY: each pointer and count are of one slice, aligned as a slice is; the list that is written is
    // apart from the two that are only read, since it is `&mut`.
    answer(unsafe {
        c::honecerise_keep(copies.as_ptr(), copies.len(), terms.as_ptr(), terms.len(), asked, out.as_mut_ptr(), out.len())
    })
}
