//! Why a call was refused.
use core::fmt;

/// The refusals, by who causes them. Where several apply, the lowest is answered, save that
/// [`BadCount`](Refusal::BadCount) is looked at right after [`BadBuffer`](Refusal::BadBuffer),
/// [`KindsDiffer`](Refusal::KindsDiffer) right after [`IntoItself`](Refusal::IntoItself), and
/// [`BadTimes`](Refusal::BadTimes) before `BadBuffer`. `KindsDiffer` comes to
/// [`rename`](crate::Watch::rename) alone, [`BadTurn`](Refusal::BadTurn) to [`deal`](crate::deal),
/// `BadTimes` to [`match_laps`](crate::match_laps), and
/// [`NoDate`](Refusal::NoDate) to [`AfterAsked`](Refusal::AfterAsked) to [`keep`](crate::keep).
///
/// ```
/// use honecerise::Refusal;
/// assert_eq!(Refusal::NameTaken.number(), 7);
/// assert_eq!(Refusal::from_number(7), Some(Refusal::NameTaken));
/// assert_eq!(Refusal::NameTaken.to_string(), "the new name is taken by another entry (7)");
/// ```
#[derive(Clone, Copy, Debug, PartialEq, Eq, Hash)]
#[repr(u8)]
pub enum Refusal {
    /// Wiring: a buffer has no length or count that is allowed, a list that a report goes to is
    /// shorter than the list its times come from, or there are too many copies or terms.
    BadBuffer = 1,
    /// Wiring: the store is not sound; something else wrote to it, or it is from before and has two spellings of a
    /// name in a directory.
    UnsoundStore = 2,
    /// Wiring: the desk breaks its layout or is of another inode count; or, while a copy runs, the image's length or counts are not
    /// the desk's, its root is not 1, its byte 8 is not 0, an address is above its block count, or the locked file lacks its
    /// block of addresses.
    BadDesk = 3,
    /// Naming: not 1 to 14 bytes, a byte that is 0 or `/`, or `.` or `..`.
    IllegalName = 4,
    /// Naming: a number that is not the file or directory needed.
    WrongInode = 5,
    /// Naming: no entry of that name.
    NameAbsent = 6,
    /// Naming: the new name is taken by another entry, in whatever spelling. [`rename`](crate::Watch::rename) replaces that
    /// entry instead.
    NameTaken = 7,
    /// Naming: a directory to be unlinked, or to be replaced by a rename, has entries.
    NotEmpty = 8,
    /// Naming: offset or new length past the size, or a write that ends past [`MAX_FILE`](crate::MAX_FILE).
    PastEnd = 9,
    /// Naming: a directory moved into itself or below.
    IntoItself = 10,
    /// A full watch: no free inode.
    NoInode = 11,
    /// A full watch: too few free blocks; a file above 768 bytes takes one for addresses, too.
    NoBlocks = 12,
    /// A full watch: all 48 slots of the directory are used.
    NoSlot = 13,
    /// Timing: a write or shortening of the inode that the copier has locked; a create, link, unlink or rename in a locked
    /// directory; a link to, unlink or move of the locked inode, or a rename that would replace an entry of it. Step, and try
    /// again.
    Busy = 14,
    /// Timing: a start while a copy runs, or a step while none does.
    WrongState = 15,
    /// Timing: a step had a block to copy and no image block for it. The copy is stopped, and what was locked is free again.
    ImageFull = 16,
    /// Whoever asks for the steps: a burst of none, or of more than [`MOST_BURST`](crate::MOST_BURST).
    BadCount = 17,
    /// Naming: a rename onto another entry's name, where one of the two is a file's and the other a directory's.
    KindsDiffer = 18,
    /// The charging case: a turn of no steps, or of more than [`MOST_TURN`](crate::MOST_TURN), or a last bay that is none of the
    /// [`BAYS`](crate::BAYS).
    BadTurn = 21,
    /// Copies: a date does not exist, or does not lie from 2000-01-01 to 2049-12-31.
    NoDate = 23,
    /// Copies: terms share a day, run backwards or are out of order.
    BadTerms = 24,
    /// Copies: one is dated after the day asked.
    AfterAsked = 25,
    /// Laps: a list has more than [`MAX_TIMES`](crate::MAX_TIMES) times, or does not rise strictly.
    BadTimes = 26,
}

impl Refusal {
    /// All of them, by number.
    pub const ALL: [Refusal; 23] = [
        Refusal::BadBuffer,
        Refusal::UnsoundStore,
        Refusal::BadDesk,
        Refusal::IllegalName,
        Refusal::WrongInode,
        Refusal::NameAbsent,
        Refusal::NameTaken,
        Refusal::NotEmpty,
        Refusal::PastEnd,
        Refusal::IntoItself,
        Refusal::NoInode,
        Refusal::NoBlocks,
        Refusal::NoSlot,
        Refusal::Busy,
        Refusal::WrongState,
        Refusal::ImageFull,
        Refusal::BadCount,
        Refusal::KindsDiffer,
        Refusal::BadTurn,
        Refusal::NoDate,
        Refusal::BadTerms,
        Refusal::AfterAsked,
        Refusal::BadTimes,
    ];

    /// Its number: 1 to 18, 21, or 23 to 26.
    pub const fn number(self) -> u8 {
        self as u8
    }

    /// The refusal of a number, if there is one.
    pub const fn from_number(number: u8) -> Option<Refusal> {
        let mut at = 0;
        while at < Refusal::ALL.len() {
            if Refusal::ALL[at].number() == number {
                return Some(Refusal::ALL[at]);
            }
            at += 1;
        }
        None
    }

    const fn reason(self) -> &'static str {
        match self {
            Refusal::BadBuffer => "a buffer has no length or count that is allowed",
            Refusal::UnsoundStore => "the store is not sound",
            Refusal::BadDesk => "the desk, or the image of the running copy, does not fit",
            Refusal::IllegalName => "the name is not legal",
            Refusal::WrongInode => "the number is not the file or directory needed",
            Refusal::NameAbsent => "there is no entry of that name",
            Refusal::NameTaken => "the new name is taken by another entry",
            Refusal::NotEmpty => "the directory is not empty",
            Refusal::PastEnd => "it lies past the size, or ends past 2752 bytes",
            Refusal::IntoItself => "a directory cannot move into itself or below",
            Refusal::NoInode => "no inode is free",
            Refusal::NoBlocks => "too few blocks are free",
            Refusal::NoSlot => "all 48 slots of the directory are used",
            Refusal::Busy => "the copier has it locked",
            Refusal::WrongState => "a copy runs already, or none does",
            Refusal::ImageFull => "the image has no block left",
            Refusal::BadCount => "a burst has 1 to 64 steps",
            Refusal::KindsDiffer => "one name is a file's, the other a directory's",
            Refusal::BadTurn => "a turn has 1 to 64 steps, and its last bay is 0 to 15",
            Refusal::NoDate => "a date does not exist, or not from 2000 to 2049",
            Refusal::BadTerms => "terms share a day, run backwards or are out of order",
            Refusal::AfterAsked => "a copy is dated after the day asked",
            Refusal::BadTimes => "a list of times has more than 512, or does not rise",
        }
    }
}

impl fmt::Display for Refusal {
    fn fmt(&self, f: &mut fmt::Formatter<'_>) -> fmt::Result {
        write!(f, "{} ({})", self.reason(), self.number())
    }
}

impl core::error::Error for Refusal {}
