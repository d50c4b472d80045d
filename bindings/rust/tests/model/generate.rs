//! Calls at random, aimed so that copies overlap changes: on small stores, among few names, and while a copy runs at what it has
//! locked, and between what it has copied and what not.
use crate::call::{Call, Kind, Name, Sizes};
use crate::copier::State;
use crate::random::Random;
use crate::session::Session;
use crate::store::{Body, EDGE, Entry, MAX_FILE, Store};

/// What a list is after.
#[derive(Clone, Copy, PartialEq, Eq)]
enum Mood {
    /// Everything in turn.
    Mixed,
    /// Long files and few blocks.
    Bytes,
    /// One directory with all its slots used.
    Slots,
    /// Directories moved about.
    Moves,
}

pub struct Aim {
    mood: Mood,
    names: usize,
    /// Steps and bursts in a hundred calls, while a copy runs.
    pace: usize,
    /// Bursts in a hundred of these.
    bursts: usize,
}

pub fn sizes(random: &mut Random) -> (Sizes, Aim) {
    let mood = [Mood::Mixed, Mood::Bytes, Mood::Slots, Mood::Moves][random.below(4)];
    let inodes = match random.below(10) {
        0 => random.between(1, 3),
        1 => random.between(12, 24),
        _ => random.between(4, 10),
    };
    let blocks = match mood {
        Mood::Slots => random.between(12, 24),
        Mood::Bytes => random.between(4, 100),
        _ => random.between(inodes, 4 * inodes + 30),
    };
    let image_blocks = if random.percent(70) { 44 * inodes } else { random.between(1, blocks + 4) };
    let names = if mood == Mood::Slots { 60 } else { random.between(3, 12) };
    (Sizes { inodes, blocks, image_blocks }, Aim { mood, names, pace: random.between(15, 60), bursts: random.below(50) })
}

/// Calls before the first random one: a directory with nearly all its slots used.
pub fn prelude(random: &mut Random, aim: &Aim) -> Vec<Call> {
    if aim.mood != Mood::Slots {
        return vec![];
    }
    let first = Call::Create(1, b"first".to_vec(), Kind::File);
    let links: Vec<Call> = (0..random.between(30, 50)).map(|k| Call::Link(1, short(random, k), 2)).collect();
    std::iter::once(first).chain(links).collect()
}

/// Name k, at times in another spelling.
fn short(random: &mut Random, k: usize) -> Name {
    let letter = if random.percent(25) { 'N' } else { 'n' };
    format!("{letter}{k}").into_bytes()
}

fn name(random: &mut Random, aim: &Aim) -> Name {
    match random.below(60) {
        0 => [&b""[..], b".", b"..", b"a/b", b"a\0b", b"fifteen bytes !"][random.below(6)].to_vec(),
        1 => b"fourteen bytes".to_vec(),
        _ => {
            let k = random.below(aim.names);
            short(random, k)
        }
    }
}

/// Numbers of a kind in the model's store, at times any number.
fn number(random: &mut Random, store: &Store, kind: Kind) -> usize {
    if random.percent(3) {
        return [0, store.inodes + 1, usize::MAX, random.below(store.inodes + 1)][random.below(4)];
    }
    let all: Vec<usize> = store.nodes.iter().filter(|(_, node)| node.kind() == kind).map(|(&i, _)| i).collect();
    random.pick(&all).unwrap_or(2)
}

/// An entry of the store as directory, name and inode, of those that suit.
fn entry(random: &mut Random, store: &Store, suits: impl Fn(usize, &Entry) -> bool) -> Option<(usize, Name, usize)> {
    let mut all = vec![];
    for (&directory, node) in &store.nodes {
        if let Body::Directory(slots) = &node.body {
            all.extend(slots.iter().flatten().filter(|e| suits(directory, e)).map(|e| (directory, e)));
        }
    }
    random.pick(&all).map(|(directory, e)| (directory, e.name.clone(), e.inode))
}

pub fn next(random: &mut Random, aim: &Aim, session: &Session) -> Call {
    let running = session.copier.state == State::Running;
    match random.below(100) {
        n if running && n < aim.pace && random.percent(aim.bursts) => Call::Burst(steps(random)),
        n if running && n < aim.pace => Call::Step,
        n if !running && n < 12 => Call::Start,
        97 => Call::Start,
        98 if random.percent(50) => Call::Burst(steps(random)),
        98 => Call::Step,
        99 => Call::Ask,
        _ if running && random.percent(40) => aimed(random, aim, session),
        _ => file_call(random, aim, &session.store),
    }
}

/// Of a burst: mostly few, so that calls fall between; any that are allowed, the most, or too many and none.
fn steps(random: &mut Random) -> usize {
    match random.below(12) {
        0 => [0, 65, 256 + 1, usize::MAX][random.below(4)],
        1 => random.between(62, 64),
        2 | 3 => random.between(1, 64),
        _ => random.between(1, 6),
    }
}

/// A file call that crosses the copy.
fn aimed(random: &mut Random, aim: &Aim, session: &Session) -> Call {
    let (store, copied) = (&session.store, &session.copier.copied);
    let directories = |copied_ones: bool| -> Vec<usize> {
        let all = store.nodes.iter().filter(|(_, node)| node.kind() == Kind::Directory).map(|(&i, _)| i);
        all.filter(|i| copied.contains(i) == copied_ones).collect()
    };
    let call = match (random.below(11), session.copier.locked) {
        // what is locked, in every way that 14 names
        (0, Some(locked)) => match random.below(6) {
            0 => Some(Call::Write(locked, 0, vec![1; random.between(0, 70)])),
            1 => Some(Call::Shorten(locked, 0)),
            2 => Some(Call::Create(locked, name(random, aim), Kind::File)),
            3 => Some(Call::Link(number(random, store, Kind::Directory), name(random, aim), locked)),
            4 => entry(random, store, |d, e| d == locked || e.inode == locked).map(|(d, n, _)| Call::Unlink(d, n)),
            _ => entry(random, store, |d, e| d == locked || e.inode == locked).map(|from| anywhere(random, aim, store, from)),
        },
        // out of a copied directory into an uncopied one, and back
        (1 | 2, _) => {
            let from_copied = random.percent(50);
            let to = random.pick(&directories(!from_copied));
            let from = entry(random, store, |d, _| copied.contains(&d) == from_copied);
            let to_name = name(random, aim);
            from.zip(to).map(|(from, to)| renaming(random, from, to, to_name))
        }
        // an uncopied inode out of a copied directory
        (3, _) => {
            entry(random, store, |d, e| copied.contains(&d) && !copied.contains(&e.inode)).map(|(d, n, _)| Call::Unlink(d, n))
        }
        // a copied inode freed, and its number taken again
        (4, _) => entry(random, store, |_, e| copied.contains(&e.inode)).map(|(d, n, _)| Call::Unlink(d, n)),
        (5, _) => {
            let to = random.pick(&directories(false)).unwrap_or(1);
            Some(Call::Create(to, name(random, aim), kind(random)))
        }
        (6, _) => entry(random, store, |_, e| store.bytes(e.inode).is_ok()).map(|(_, _, i)| across(random, store, i)),
        // onto what is locked, or with it
        (7, Some(locked)) => {
            let is_it = random.percent(70);
            let from = entry(random, store, |_, e| (e.inode == locked) != is_it);
            let onto = entry(random, store, |_, e| (e.inode == locked) == is_it);
            from.zip(onto).map(|(from, onto)| replacing(random, from, onto))
        }
        // onto an entry on the other side of the copy, or one that the image has and whose inode is still to be copied
        (8, _) => {
            let to_copied = random.percent(50);
            let from = entry(random, store, |d, _| copied.contains(&d) != to_copied);
            let onto = entry(random, store, |d, _| copied.contains(&d) == to_copied);
            from.zip(onto).map(|(from, onto)| replacing(random, from, onto))
        }
        (9, _) => {
            let onto = entry(random, store, |d, e| copied.contains(&d) && !copied.contains(&e.inode));
            let from = entry(random, store, |_, _| true);
            from.zip(onto).map(|(from, onto)| replacing(random, from, onto))
        }
        // a copied file linked into what is not copied yet
        _ => {
            let to = random.pick(&directories(false)).unwrap_or(1);
            entry(random, store, |_, e| copied.contains(&e.inode)).map(|(_, _, i)| Call::Link(to, name(random, aim), i))
        }
    };
    call.unwrap_or_else(|| file_call(random, aim, store))
}

/// An entry under another name, at times by the recorder's call.
fn renaming(random: &mut Random, (directory, name, _): (usize, Name, usize), to: usize, to_name: Name) -> Call {
    if random.percent(20) { Call::RenameNew(directory, name, to, to_name) } else { Call::Rename(directory, name, to, to_name) }
}

/// An entry under any name in any directory.
fn anywhere(random: &mut Random, aim: &Aim, store: &Store, from: (usize, Name, usize)) -> Call {
    let (to, to_name) = (number(random, store, Kind::Directory), name(random, aim));
    renaming(random, from, to, to_name)
}

/// An entry under another's name, at times in another spelling.
fn replacing(random: &mut Random, from: (usize, Name, usize), (to, mut to_name, _): (usize, Name, usize)) -> Call {
    if random.percent(25) {
        to_name.make_ascii_uppercase();
    }
    renaming(random, from, to, to_name)
}

/// A rename onto another entry's name, of those that suit each other or of any.
fn onto(random: &mut Random, store: &Store) -> Option<Call> {
    let file = |_: usize, e: &Entry| store.bytes(e.inode).is_ok();
    let directory = |_: usize, e: &Entry| store.slots(e.inode).is_ok();
    let empty = |_: usize, e: &Entry| store.slots(e.inode).is_ok_and(|slots| slots.iter().all(Option::is_none));
    let (from, onto) = match random.below(6) {
        0 | 1 => (entry(random, store, file)?, entry(random, store, file)?),
        2 => (entry(random, store, directory)?, entry(random, store, empty)?),
        // two names of one file, or one that has others
        3 => {
            let (d, n, inode) = entry(random, store, |_, e| store.nodes[&e.inode].links > 1)?;
            ((d, n, inode), entry(random, store, |_, e| e.inode == inode)?)
        }
        4 => (entry(random, store, file)?, entry(random, store, |_, e| store.nodes[&e.inode].links > 1)?),
        _ => (entry(random, store, |_, _| true)?, entry(random, store, |_, _| true)?),
    };
    Some(replacing(random, from, onto))
}

/// A file grown or cut across 768 bytes.
fn across(random: &mut Random, store: &Store, file: usize) -> Call {
    let size = store.bytes(file).map_or(0, Vec::len);
    if size > EDGE {
        return Call::Shorten(file, random.between(EDGE - 100, EDGE));
    }
    let length = random.between(EDGE + 1, EDGE + 200) - size;
    Call::Write(file, size, bytes(random, length))
}

fn kind(random: &mut Random) -> Kind {
    if random.percent(60) { Kind::File } else { Kind::Directory }
}

fn file_call(random: &mut Random, aim: &Aim, store: &Store) -> Call {
    let directory = number(random, store, Kind::Directory);
    let (what, weight) = (random.below(100), |mood| if aim.mood == mood { 15 } else { 0 });
    // bounds in a hundred: create, write, shorten, link, unlink, rename, read, and the rest look up
    let writes = 18 + 18 + weight(Mood::Bytes);
    match what {
        n if n < 18 => Call::Create(directory, name(random, aim), kind(random)),
        n if n < writes => {
            let file = number(random, store, Kind::File);
            let size = store.bytes(file).map_or(0, Vec::len);
            let offset = match random.below(20) {
                0 => size + 1,
                1..10 => size,
                _ => random.below(size + 1),
            };
            let length = match random.below(10) {
                0..4 => random.below(100),
                4..6 => random.below(800),
                _ => aimed_size(random).saturating_sub(offset),
            };
            Call::Write(file, offset, bytes(random, length))
        }
        n if n < writes + 8 => {
            let file = number(random, store, Kind::File);
            let size = store.bytes(file).map_or(0, Vec::len);
            let length = if random.percent(50) { aimed_size(random).min(size) } else { random.below(size + 2) };
            Call::Shorten(file, length)
        }
        n if n < writes + 16 => Call::Link(directory, name(random, aim), number(random, store, Kind::File)),
        n if n < writes + 26 => match entry(random, store, |_, _| true) {
            Some((d, n, _)) if random.percent(90) => Call::Unlink(d, n),
            _ => Call::Unlink(directory, name(random, aim)),
        },
        n if n < writes + 31 => match onto(random, store) {
            Some(call) => call,
            None => Call::LookUp(directory, name(random, aim)),
        },
        n if n < writes + 40 => match entry(random, store, |_, e| aim.mood != Mood::Moves || store.slots(e.inode).is_ok()) {
            Some(from) if random.percent(90) => anywhere(random, aim, store, from),
            _ => {
                let from = (directory, name(random, aim), 0);
                anywhere(random, aim, store, from)
            }
        },
        n if n < writes + 46 => {
            let file = number(random, store, Kind::File);
            let size = store.bytes(file).map_or(0, Vec::len);
            Call::Read(file, random.below(size + 2), random.below(200))
        }
        _ => Call::LookUp(directory, name(random, aim)),
    }
}

/// Sizes around where a file takes or gives back its address block and its twelfth block, around the limit, and any.
fn aimed_size(random: &mut Random) -> usize {
    match random.below(6) {
        0 | 1 => random.between(EDGE - 1, EDGE + 1),
        2 => random.between(EDGE - 66, EDGE + 66),
        3 => random.between(MAX_FILE - 1, MAX_FILE + 1),
        _ => random.below(MAX_FILE + 2),
    }
}

/// No two writes look alike.
fn bytes(random: &mut Random, length: usize) -> Vec<u8> {
    let mut bytes = random.next().to_le_bytes().repeat(length.div_ceil(8));
    bytes.truncate(length);
    bytes
}
