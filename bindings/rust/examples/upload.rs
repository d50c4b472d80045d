//! What an upload page does: takes a directory of the host into a store and copies it, and gets the files out of a finished
//! image again.
//!
//! ```text
//! cargo run --example upload -- pack DIRECTORY IMAGE
//! cargo run --example upload -- unpack IMAGE DIRECTORY
//! ```
use std::error::Error;
use std::ffi::OsStr;
use std::fs::{self, File};
use std::io::Write;
use std::os::unix::ffi::OsStrExt;
use std::path::Path;

use honecerise::{CopyState, Files, Inode, Kind, MAX_BLOCKS, MAX_FILE, MAX_INODES, MAX_NAME, MOST_BURST, Watch};
use honecerise::{desk_len, image_len, store_len};

type Outcome<T = ()> = Result<T, Box<dyn Error>>;

fn main() {
    let arguments: Vec<_> = std::env::args_os().skip(1).collect();
    let outcome = match &arguments[..] {
        [what, from, to] if what == "pack" => pack(from.as_ref(), to.as_ref()),
        [what, from, to] if what == "unpack" => unpack(from.as_ref(), to.as_ref()),
        _ => Err("usage: upload pack DIRECTORY IMAGE, or upload unpack IMAGE DIRECTORY".into()),
    };
    if let Err(why) = outcome {
        eprintln!("upload: {why}");
        std::process::exit(1);
    }
}

/// An error with the path that it is about.
fn at<E: std::fmt::Display>(path: &Path) -> impl Fn(E) -> Box<dyn Error> + '_ {
    move |why| format!("{}: {why}", path.display()).into()
}

fn pack(directory: &Path, image_path: &Path) -> Outcome {
    let mut store = vec![0; store_len(MAX_INODES, MAX_BLOCKS)];
    // nothing changes while it is copied, so the image needs no more blocks than the store
    let mut image = vec![0; image_len(MAX_INODES, MAX_BLOCKS)];
    let mut desk = vec![0; desk_len(MAX_INODES)];
    let mut watch = Watch::lay_out(&mut store, &mut image, &mut desk, MAX_INODES, MAX_BLOCKS)?;
    take_in(&mut watch, Inode::ROOT, directory)?;
    watch.start()?;
    while watch.status()?.state == CopyState::Running {
        watch.burst(MOST_BURST)?;
    }
    let copy = watch.copy().ok_or("the copy is not sound")?;
    println!("{} entries in {} steps", copy.all().count(), watch.status()?.steps);
    fs::write(image_path, watch.image()).map_err(at(image_path))
}

/// What is in a directory of the host, by name.
fn take_in(watch: &mut Watch, into: Inode, directory: &Path) -> Outcome {
    let mut entries = fs::read_dir(directory).and_then(Iterator::collect::<Result<Vec<_>, _>>).map_err(at(directory))?;
    entries.sort_by_key(|entry| entry.file_name());
    for entry in entries {
        let (path, name) = (entry.path(), entry.file_name());
        let name = name.as_bytes();
        if name.len() > MAX_NAME {
            return Err(at(&path)(format!("the name has {} bytes, at most {MAX_NAME} are stored", name.len())));
        }
        let kind = entry.file_type().map_err(at(&path))?;
        if kind.is_dir() {
            let made = watch.create_directory(into, name).map_err(at(&path))?;
            take_in(watch, made, &path)?;
        } else if kind.is_file() {
            let bytes = fs::read(&path).map_err(at(&path))?;
            if bytes.len() > MAX_FILE {
                return Err(at(&path)(format!("the file has {} bytes, at most {MAX_FILE} are stored", bytes.len())));
            }
            let made = watch.create_file(into, name).map_err(at(&path))?;
            watch.write(made, 0, &bytes).map_err(at(&path))?;
        } else {
            return Err(at(&path)("neither a file nor a directory"));
        }
    }
    Ok(())
}

fn unpack(image_path: &Path, directory: &Path) -> Outcome {
    let image = fs::read(image_path).map_err(at(image_path))?;
    let files = Files::of_image(&image).ok_or_else(|| at(image_path)("not a sound finished image"))?;
    fs::create_dir(directory).map_err(at(directory))?;
    get_out(&files, Inode::ROOT, directory)
}

/// What is in a directory of the image. The image is sound, so names have no `/` and are not `..`, and no directory is below
/// itself: nothing is written outside of the host's directory, and it ends.
fn get_out(files: &Files, from: Inode, directory: &Path) -> Outcome {
    for entry in files.entries(from)? {
        let path = directory.join(OsStr::from_bytes(entry.name));
        match entry.kind {
            Kind::Directory => {
                fs::create_dir(&path).map_err(at(&path))?;
                get_out(files, entry.inode, &path)?;
            }
            Kind::File => {
                let mut file = File::create_new(&path).map_err(at(&path))?;
                for piece in files.contents(entry.inode)? {
                    file.write_all(piece).map_err(at(&path))?;
                }
            }
        }
    }
    Ok(())
}
