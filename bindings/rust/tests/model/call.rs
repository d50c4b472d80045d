//! A list of calls, and how it is printed: the commands that `replay` reads.
use std::fmt;

pub use honecerise::Kind;

pub type Name = Vec<u8>;

#[derive(Clone, Debug, PartialEq, Eq)]
pub enum Call {
    LookUp(usize, Name),
    Create(usize, Name, Kind),
    Read(usize, usize, usize),
    Write(usize, usize, Vec<u8>),
    Shorten(usize, usize),
    Link(usize, Name, usize),
    Unlink(usize, Name),
    Rename(usize, Name, usize, Name),
    /// The lap recorder's.
    RenameNew(usize, Name, usize, Name),
    Start,
    Step,
    Burst(usize),
    Ask,
}

/// What a call answers: its number, or the number of its refusal.
pub type Answer = Result<usize, u8>;

#[derive(Clone, Copy, Debug, PartialEq, Eq)]
pub struct Sizes {
    pub inodes: usize,
    pub blocks: usize,
    pub image_blocks: usize,
}

#[derive(Clone, Debug)]
pub struct List {
    pub sizes: Sizes,
    pub calls: Vec<Call>,
}

struct Hex<'a>(&'a [u8]);

impl fmt::Display for Hex<'_> {
    fn fmt(&self, f: &mut fmt::Formatter<'_>) -> fmt::Result {
        if self.0.is_empty() {
            return f.write_str("-");
        }
        self.0.iter().try_for_each(|b| write!(f, "{b:02x}"))
    }
}

impl fmt::Display for Call {
    fn fmt(&self, f: &mut fmt::Formatter<'_>) -> fmt::Result {
        match self {
            Call::LookUp(d, name) => write!(f, "lk {d} {}", Hex(name)),
            Call::Create(d, name, Kind::File) => write!(f, "mk {d} {} f", Hex(name)),
            Call::Create(d, name, Kind::Directory) => write!(f, "mk {d} {} d", Hex(name)),
            Call::Read(i, offset, length) => write!(f, "rd {i} {offset} {length}"),
            Call::Write(i, offset, bytes) => write!(f, "wr {i} {offset} {}", Hex(bytes)),
            Call::Shorten(i, length) => write!(f, "sh {i} {length}"),
            Call::Link(d, name, i) => write!(f, "ln {d} {} {i}", Hex(name)),
            Call::Unlink(d, name) => write!(f, "rm {d} {}", Hex(name)),
            Call::Rename(d, name, e, to) => write!(f, "mv {d} {} {e} {}", Hex(name), Hex(to)),
            Call::RenameNew(d, name, e, to) => write!(f, "mvo {d} {} {e} {}", Hex(name), Hex(to)),
            Call::Start => f.write_str("go"),
            Call::Step => f.write_str("st"),
            Call::Burst(count) => write!(f, "bu {count}"),
            Call::Ask => f.write_str("ask"),
        }
    }
}

impl fmt::Display for List {
    fn fmt(&self, f: &mut fmt::Formatter<'_>) -> fmt::Result {
        let Sizes { inodes, blocks, image_blocks } = self.sizes;
        writeln!(f, "new {inodes} {blocks} {image_blocks}")?;
        self.calls.iter().try_for_each(|call| writeln!(f, "{call}"))
    }
}
