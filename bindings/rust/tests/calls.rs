//! The wrapper's calls, one by one: what each answers, and every refusal that a caller can bring about.
use honecerise::*;

/// Buffers for so many inodes, blocks and image blocks.
struct Buffers {
    store: Vec<u8>,
    image: Vec<u8>,
    desk: Vec<u8>,
}

impl Buffers {
    fn new(inodes: usize, blocks: usize, image_blocks: usize) -> Self {
        Buffers {
            store: vec![0; store_len(inodes, blocks)],
            image: vec![0; image_len(inodes, image_blocks)],
            desk: vec![0; desk_len(inodes)],
        }
    }

    fn lay_out(&mut self, inodes: usize, blocks: usize) -> Watch<'_> {
        Watch::lay_out(&mut self.store, &mut self.image, &mut self.desk, inodes, blocks).unwrap()
    }
}

fn copied(watch: &mut Watch) -> usize {
    watch.start().unwrap();
    while watch.status().unwrap().state == CopyState::Running {
        watch.step().unwrap();
    }
    watch.status().unwrap().steps
}

#[test]
fn numbers_and_reasons() {
    for (refusal, number) in Refusal::ALL.into_iter().zip((1..=18).chain([21, 23, 24, 25, 26])) {
        assert_eq!(refusal.number(), number);
        assert_eq!(Refusal::from_number(number), Some(refusal));
        assert!(refusal.to_string().ends_with(&format!("({number})")));
    }
    assert_eq!((0..=255).filter(|&number| Refusal::from_number(number).is_some()).count(), Refusal::ALL.len());
}

#[test]
fn a_refused_layout_leaves_both_buffers() {
    for (inodes, blocks, desk_length) in
        [(0, 4, 16), (257, 4, desk_len(257)), (4, 0, desk_len(4)), (4, 4, desk_len(5)), (usize::MAX, 4, 16)]
    {
        let (mut store, mut desk) = (vec![7; store_len(4, 4)], vec![7; desk_length]);
        assert_eq!(Watch::lay_out(&mut store, &mut [], &mut desk, inodes, blocks).unwrap_err(), Refusal::BadBuffer);
        assert!(store.iter().chain(&desk).all(|&b| b == 7));
    }
}

#[test]
fn naming() {
    let mut buffers = Buffers::new(8, 16, 96);
    let mut w = buffers.lay_out(8, 16);
    let root = Inode::ROOT;
    let a = w.create_directory(root, "a").unwrap();
    let b = w.create_directory(a, "b").unwrap();
    let f = w.create_file(b, "fourteen bytes").unwrap();
    assert_eq!(w.look_up(b, "fourteen bytes"), Ok(f));
    assert_eq!(w.create_file(b, "fifteen bytes !"), Err(Refusal::IllegalName));
    for name in ["", ".", "..", "a/b", "a\0"] {
        assert_eq!(w.look_up(root, name), Err(Refusal::IllegalName));
    }
    assert_eq!(w.look_up(f, "x"), Err(Refusal::WrongInode));
    assert_eq!(w.look_up(Inode(usize::MAX), "x"), Err(Refusal::WrongInode));
    assert_eq!(w.unlink(root, "x"), Err(Refusal::NameAbsent));
    assert_eq!(w.rename_new(b, "fourteen bytes", root, "a"), Err(Refusal::NameTaken));
    assert_eq!(w.unlink(root, "a"), Err(Refusal::NotEmpty));
    assert_eq!(w.rename(root, "a", b, "c"), Err(Refusal::IntoItself));
    assert_eq!(w.link(root, [0xff], f), Ok(()));
    assert_eq!(w.look_up(root, [0xff]), Ok(f));
    assert_eq!(w.rename(root, [0xff], a, "g"), Ok(()));
    let links: Vec<_> = w.files().unwrap().all().filter(|e| e.inode == f).map(|e| (e.directory, e.slot, e.links)).collect();
    assert_eq!(links, [(a, 1, 2), (b, 0, 2)]);
}

/// Directory, name and inode of every entry.
fn listed(w: &Watch) -> Vec<(Inode, String, Inode)> {
    let text = |name: &[u8]| String::from_utf8(name.to_vec()).unwrap();
    w.files().unwrap().all().map(|e| (e.directory, text(e.name), e.inode)).collect()
}

#[test]
fn replacing() {
    let mut buffers = Buffers::new(16, 32, 96);
    let mut w = buffers.lay_out(16, 32);
    let root = Inode::ROOT;
    let d = w.create_directory(root, "d").unwrap();
    let old = w.create_file(root, "best").unwrap();
    w.write(old, 0, &[1; 768]).unwrap();
    let new = w.create_file(d, "run").unwrap();
    let free = |w: &Watch| (w.files().unwrap().free_inodes(), w.files().unwrap().free_blocks());
    let before = free(&w);
    // the recorder's is refused, the phone app's replaces; the last name frees the file and its blocks
    assert_eq!(w.rename_new(d, "run", root, "BEST"), Err(Refusal::NameTaken));
    assert_eq!(w.rename(d, "run", root, "BEST"), Ok(()));
    assert_eq!(listed(&w), [(root, "d".into(), d), (root, "BEST".into(), new)]);
    assert_eq!(free(&w), (before.0 + 1, before.1 + 12));
    // a holder with another name loses one
    w.link(d, "kept", new).unwrap();
    let more = w.create_file(d, "more").unwrap();
    assert_eq!(w.rename(d, "more", d, "kept"), Ok(()));
    assert_eq!(w.files().unwrap().find(root, "best").unwrap().links, 1);
    assert_eq!(listed(&w), [(root, "d".into(), d), (root, "BEST".into(), new), (d, "kept".into(), more)]);
    // both names are the same file's already
    w.link(root, "twin", more).unwrap();
    let store = w.store().to_vec();
    assert_eq!(w.rename(root, "twin", d, "Kept"), Ok(()));
    assert_eq!(w.store(), store);
    assert_eq!(w.rename_new(root, "twin", d, "Kept"), Err(Refusal::NameTaken));
    // files and directories
    let e = w.create_directory(root, "e").unwrap();
    assert_eq!(w.rename(root, "best", root, "e"), Err(Refusal::KindsDiffer));
    assert_eq!(w.rename(root, "e", root, "best"), Err(Refusal::KindsDiffer));
    assert_eq!(w.rename(root, "best", root, "d"), Err(Refusal::NotEmpty));
    assert_eq!(w.rename(root, "e", root, "d"), Err(Refusal::NotEmpty));
    assert_eq!(w.rename(root, "d", root, "e"), Ok(()));
    assert_eq!(w.files().unwrap().kind(e), None);
    assert_eq!(w.look_up(root, "e"), Ok(d));
    // 8 before 10, and 10 before 18
    let inner = w.create_directory(d, "inner").unwrap();
    w.create_file(inner, "x").unwrap();
    let deep = w.create_directory(inner, "deep").unwrap();
    w.create_file(deep, "y").unwrap();
    assert_eq!(w.rename(root, "e", inner, "deep"), Err(Refusal::NotEmpty));
    assert_eq!(w.rename(root, "e", inner, "x"), Err(Refusal::IntoItself));
    assert_eq!(w.rename_new(root, "e", inner, "deep"), Err(Refusal::NameTaken));
}

#[test]
fn the_slot_of_a_replacing_move() {
    let mut buffers = Buffers::new(16, 32, 96);
    let mut w = buffers.lay_out(16, 32);
    let d = w.create_directory(Inode::ROOT, "d").unwrap();
    for name in ["a", "b", "c"] {
        w.create_file(d, name).unwrap();
    }
    let slot = |w: &Watch, name: &str| w.files().unwrap().find(d, name).unwrap().slot;
    w.create_file(Inode::ROOT, "new").unwrap();
    // the holder's, since none below is empty
    w.rename(Inode::ROOT, "new", d, "b").unwrap();
    assert_eq!(slot(&w, "b"), 1);
    // one below the holder's
    w.create_file(Inode::ROOT, "new").unwrap();
    w.unlink(d, "a").unwrap();
    w.rename(Inode::ROOT, "new", d, "c").unwrap();
    assert_eq!(slot(&w, "c"), 0);
    // within the directory the entry keeps its own
    w.rename(d, "c", d, "b").unwrap();
    assert_eq!(slot(&w, "b"), 0);
    assert_eq!(w.files().unwrap().entries(d).unwrap().count(), 1);
}

#[test]
fn a_full_watch_replaces() {
    // 48 names of one file, 13 blocks and no inode: only what is replaced makes room
    let mut buffers = Buffers::new(4, 13, 36);
    let mut w = buffers.lay_out(4, 13);
    let root = Inode::ROOT;
    let d = w.create_directory(root, "d").unwrap();
    let f = w.create_file(d, "f").unwrap();
    for i in 1..48 {
        w.link(root, format!("link {i}"), f).unwrap();
    }
    assert_eq!(w.files().unwrap().free_blocks(), 0);
    let g = w.create_file(d, "g").unwrap();
    assert_eq!(w.rename(d, "g", root, "one more"), Err(Refusal::NoSlot));
    assert_eq!(w.rename_new(d, "g", root, "link 9"), Err(Refusal::NameTaken));
    assert_eq!(w.rename(d, "g", root, "link 9"), Ok(()));
    assert_eq!(w.files().unwrap().find(root, "link 9").unwrap().inode, g);
    assert_eq!(w.files().unwrap().entries(root).unwrap().count(), MAX_SLOTS);
}

#[test]
fn busy_renames() {
    let mut buffers = Buffers::new(8, 16, 96);
    let mut w = buffers.lay_out(8, 16);
    let root = Inode::ROOT;
    let d = w.create_directory(root, "d").unwrap();
    let held = w.create_file(root, "held").unwrap();
    w.link(root, "twin", held).unwrap();
    w.create_file(root, "a").unwrap();
    w.create_file(root, "b").unwrap();
    w.create_file(d, "c").unwrap();
    let locked = |w: &Watch| w.status().unwrap().locked;
    let until = |w: &mut Watch, inode| {
        while locked(w) != Some(inode) {
            w.step().unwrap();
        }
    };
    w.start().unwrap();
    until(&mut w, root);
    for (name, to) in [("a", "b"), ("held", "twin"), ("a", "a")] {
        assert_eq!(w.rename(root, name, root, to), Err(Refusal::Busy));
    }
    until(&mut w, held);
    // the holder may not be replaced; what does not touch it may
    assert_eq!(w.rename(root, "a", root, "held"), Err(Refusal::Busy));
    assert_eq!(w.rename(d, "c", root, "held"), Err(Refusal::Busy));
    assert_eq!(w.rename(root, "held", d, "c"), Err(Refusal::Busy));
    assert_eq!(w.rename_new(root, "held", d, "e"), Err(Refusal::Busy));
    // both names are the locked file's: no move, no ground
    assert_eq!(w.rename(root, "held", root, "twin"), Ok(()));
    // the mover may be locked
    assert_eq!(w.rename(root, "held", root, "a"), Ok(()));
    assert_eq!(w.rename(d, "c", root, "b"), Ok(()));
    while w.status().unwrap().state == CopyState::Running {
        w.step().unwrap();
    }
    let copy = w.copy().unwrap();
    assert_eq!(copy.find(root, "held").unwrap().slot, 1);
    assert_eq!(copy.entries(root).unwrap().map(|e| e.name).collect::<Vec<_>>(), [b"d" as &[u8], b"held", b"twin"]);
}

#[test]
fn spellings() {
    let mut buffers = Buffers::new(8, 16, 96);
    let mut w = buffers.lay_out(8, 16);
    let root = Inode::ROOT;
    let run = w.create_file(root, "Run1").unwrap();
    assert_eq!(w.create_file(root, "run1"), Err(Refusal::NameTaken));
    assert_eq!(w.look_up(root, "RUN1"), Ok(run));
    assert_eq!(w.rename(root, "run1", root, "rUN1"), Ok(()));
    for name in ["RUN1", "run1"] {
        assert_eq!(w.files().unwrap().find(root, name).unwrap().name, b"rUN1");
    }
    // no letters: what stands beside them, above 127, and the zeros behind a name
    for (one, other) in [(b"@".as_slice(), b"`".as_slice()), (b"[", b"{"), (b"\xc1", b"\xe1"), (b"a", b"a ")] {
        w.create_file(root, one).unwrap();
        w.create_file(root, other).unwrap();
        w.unlink(root, one).unwrap();
        w.unlink(root, other).unwrap();
    }
    w.unlink(root, "RUN1").unwrap();
    assert_eq!(w.files().unwrap().all().count(), 0);
}

#[test]
fn bytes() {
    let mut buffers = Buffers::new(4, 16, 48);
    let mut w = buffers.lay_out(4, 16);
    let f = w.create_file(Inode::ROOT, "f").unwrap();
    let all: Vec<u8> = (0..768).map(|i| i as u8).collect();
    assert_eq!(w.write(f, 0, &all), Ok(768));
    assert_eq!(w.write(f, 769, b"x"), Err(Refusal::PastEnd));
    assert_eq!(w.write(f, 768, &[]), Ok(768));
    assert_eq!(w.shorten(f, 769), Err(Refusal::PastEnd));
    let steps = copied(&mut w);
    assert_eq!(steps, w.status().unwrap().steps);
    let copy = w.copy().unwrap();
    assert_eq!(copy.contents(f).unwrap().len(), 12);
    assert_eq!(copy.contents(f).unwrap().collect::<Vec<_>>().concat(), all);
    for (offset, room) in [(0, 768), (0, 1000), (1, 63), (63, 66), (64, 64), (700, 1), (767, 9), (768, 5), (5, 0)] {
        let (mut live, mut kept) = (vec![0xaa; room], vec![0xaa; room]);
        assert_eq!(w.read(f, offset, &mut live), copy.read(f, offset, &mut kept), "read at {offset} into {room}");
        assert_eq!(live, kept);
    }
    assert_eq!(copy.read(f, 769, &mut []), Err(Refusal::PastEnd));
    assert_eq!(copy.read(Inode::ROOT, 0, &mut []), Err(Refusal::WrongInode));
    assert_eq!(w.shorten(f, 70), Ok(70));
    assert_eq!(w.files().unwrap().contents(f).unwrap().map(<[u8]>::len).collect::<Vec<_>>(), [64, 6]);
}

#[test]
fn a_long_file() {
    // the root's block, 43 blocks of bytes and one of addresses
    let mut buffers = Buffers::new(4, 45, enough_image(4));
    let mut w = buffers.lay_out(4, 45);
    let f = w.create_file(Inode::ROOT, "f").unwrap();
    let all: Vec<u8> = (0..MAX_FILE).map(|i| (i * 7 / 5) as u8).collect();
    assert_eq!(w.write(f, 0, &all[..768]), Ok(768));
    assert_eq!(w.write(f, 0, &[0; 2753]), Err(Refusal::PastEnd));
    assert_eq!(w.write(f, 768, &all[768..]), Ok(2752));
    assert_eq!(w.files().unwrap().free_blocks(), 0);
    assert_eq!(w.write(f, 2752, b"x"), Err(Refusal::PastEnd));
    assert_eq!(copied(&mut w), 50); // the root in 3 steps, the file in 46, the finish
    let copy = w.copy().unwrap();
    assert_eq!(copy.contents(f).unwrap().len(), 43);
    assert_eq!(copy.contents(f).unwrap().collect::<Vec<_>>().concat(), all);
    for (offset, room) in [(0, 2752), (0, 3000), (700, 100), (703, 2), (704, 64), (767, 2), (768, 64), (2688, 65), (2751, 9)] {
        let (mut live, mut kept) = (vec![0xaa; room], vec![0xaa; room]);
        assert_eq!(w.read(f, offset, &mut live), copy.read(f, offset, &mut kept), "read at {offset} into {room}");
        assert_eq!(live, kept);
    }
    // back over the edge and over it again: the address block is freed, and wanted again
    for (length, free) in [(769, 30), (768, 32), (704, 33)] {
        assert_eq!(w.shorten(f, length), Ok(length));
        let files = w.files().unwrap();
        assert_eq!(files.free_blocks(), free);
        assert_eq!(files.contents(f).unwrap().collect::<Vec<_>>().concat(), all[..length]);
    }
    let g = w.create_file(Inode::ROOT, "g").unwrap();
    assert_eq!(w.write(g, 0, &all[..64 * 31]), Ok(1984));
    assert_eq!(w.write(f, 704, &all[704..769]), Err(Refusal::NoBlocks));
    assert_eq!(w.write(f, 704, &all[704..768]), Ok(768));
    assert_eq!(w.files().unwrap().free_blocks(), 0);
}

#[test]
fn a_full_watch() {
    let mut buffers = Buffers::new(3, 13, 36);
    let mut w = buffers.lay_out(3, 13);
    let f = w.create_file(Inode::ROOT, "f").unwrap();
    for i in 1..48 {
        w.link(Inode::ROOT, format!("link {i}"), f).unwrap();
    }
    assert_eq!(w.link(Inode::ROOT, "one more", f), Err(Refusal::NoSlot));
    assert_eq!(w.files().unwrap().entries(Inode::ROOT).unwrap().count(), MAX_SLOTS);
    assert_eq!(w.write(f, 0, &[1; 65]), Err(Refusal::NoBlocks));
    w.unlink(Inode::ROOT, "link 7").unwrap();
    w.create_directory(Inode::ROOT, "d").unwrap();
    w.unlink(Inode::ROOT, "link 8").unwrap();
    assert_eq!(w.create_file(Inode::ROOT, "g"), Err(Refusal::NoInode));
}

#[test]
fn a_copy_and_its_timing() {
    let mut buffers = Buffers::new(4, 8, 1);
    let mut w = buffers.lay_out(4, 8);
    assert!(w.copy().is_none());
    assert_eq!(w.step(), Err(Refusal::WrongState));
    let f = w.create_file(Inode::ROOT, "f").unwrap();
    w.write(f, 0, b"abc").unwrap();
    w.start().unwrap();
    assert_eq!(w.start(), Err(Refusal::WrongState));
    assert_eq!(w.step(), Ok(1));
    assert_eq!(w.status(), Ok(Status { state: CopyState::Running, locked: Some(Inode::ROOT), steps: 1 }));
    assert_eq!(w.unlink(Inode::ROOT, "f"), Err(Refusal::Busy));
    assert_eq!((w.step(), w.step(), w.step()), (Ok(2), Ok(3), Ok(4)));
    assert_eq!(w.step(), Err(Refusal::ImageFull));
    assert_eq!(w.status(), Ok(Status { state: CopyState::Stopped, locked: None, steps: 4 }));
    assert!(w.copy().is_none());
    assert_eq!(w.unlink(Inode::ROOT, "f"), Ok(()));
    assert!(copied(&mut w) <= most_steps(4));
    assert_eq!(w.copy().unwrap().all().count(), 0);
}

#[test]
fn bursts() {
    // the root in 3 steps, the long file in 46, the other in 18, the finish
    let mut buffers = Buffers::new(4, 64, enough_image(4));
    let mut w = buffers.lay_out(4, 64);
    let f = w.create_file(Inode::ROOT, "f").unwrap();
    let g = w.create_file(Inode::ROOT, "g").unwrap();
    w.write(f, 0, &[7; MAX_FILE]).unwrap();
    w.write(g, 0, &[8; 900]).unwrap();
    for count in [1, 64] {
        assert_eq!(w.burst(count), Err(Refusal::WrongState));
    }
    w.start().unwrap();
    for count in [0, 65, 256 + 1, usize::MAX] {
        assert_eq!(w.burst(count), Err(Refusal::BadCount));
    }
    assert_eq!(w.status().unwrap().steps, 0);
    assert_eq!((w.burst(1), w.step(), w.burst(2)), (Ok(1), Ok(2), Ok(2)));
    assert_eq!(w.status(), Ok(Status { state: CopyState::Running, locked: Some(f), steps: 4 }));
    assert_eq!((w.burst(MOST_BURST), w.step()), (Ok(64), Err(Refusal::WrongState)));
    assert_eq!(w.status(), Ok(Status { state: CopyState::Finished, locked: None, steps: 68 }));
    assert_eq!(w.copy().unwrap().contents(g).unwrap().collect::<Vec<_>>().concat(), [8; 900]);
}

#[test]
fn a_burst_that_stops() {
    let mut buffers = Buffers::new(4, 8, 2);
    let mut w = buffers.lay_out(4, 8);
    let f = w.create_file(Inode::ROOT, "f").unwrap();
    w.write(f, 0, &[7; 65]).unwrap();
    // the image has no block for the last one: as a later step, and as the first
    for count in [64, 5] {
        w.start().unwrap();
        assert_eq!(w.burst(count), Ok(5));
        let full = if count == 64 { Refusal::WrongState } else { Refusal::ImageFull };
        assert_eq!(w.burst(count), Err(full));
        assert_eq!(w.status(), Ok(Status { state: CopyState::Stopped, locked: None, steps: 5 }));
    }
}

#[test]
fn wiring() {
    let mut buffers = Buffers::new(4, 8, 48);
    buffers.lay_out(4, 8).start().unwrap();
    // another image than the copy began on
    let mut other = vec![0; image_len(4, 47)];
    let w = Watch::over(&mut buffers.store, &mut other, &mut buffers.desk);
    assert_eq!(w.status(), Err(Refusal::BadDesk));
    // an image whose length is no image's
    let mut w = Watch::over(&mut buffers.store, &mut other[1..], &mut buffers.desk);
    assert_eq!(w.start(), Err(Refusal::BadBuffer));
    // a byte that nobody may write
    buffers.store[9] = 1;
    let mut w = Watch::over(&mut buffers.store, &mut buffers.image, &mut buffers.desk);
    assert_eq!(w.step(), Err(Refusal::UnsoundStore));
    assert_eq!((w.burst(1), w.burst(65)), (Err(Refusal::UnsoundStore), Err(Refusal::BadCount)));
    assert!(w.files().is_none());
    let mut w = Watch::over(&mut [], &mut [], &mut []);
    assert_eq!(w.start(), Err(Refusal::BadBuffer));
    assert_eq!(w.burst(0), Err(Refusal::BadBuffer));
    assert_eq!(w.create_file(Inode::ROOT, "f"), Err(Refusal::BadBuffer));
    assert_eq!(w.status(), Err(Refusal::BadBuffer));
}
