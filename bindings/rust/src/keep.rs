//! Which copies of a case to keep.
use crate::{MAX_COPIES, MAX_TERMS, Refusal, ffi};

/// A day of the Gregorian calendar; one that does not exist is refused when it is used.
///
/// Dates order as days do.
#[derive(Clone, Copy, Debug, PartialEq, Eq, Hash, PartialOrd, Ord)]
pub struct Date {
    /// 2000 to 2049.
    pub year: u16,
    /// 1 to 12.
    pub month: u8,
    /// 1 to 28, 29, 30 or 31.
    pub day: u8,
}

impl Date {
    /// The date of a year, month and day.
    pub const fn new(year: u16, month: u8, day: u8) -> Date {
        Date { year, month, day }
    }

    /// As the library takes it: year × 10,000 + month × 100 + day. A month or day that would spoil
    /// the others' digits makes it 0, which is no date.
    const fn number(self) -> u32 {
        if self.month > 99 || self.day > 99 {
            return 0;
        }
        self.year as u32 * 10_000 + self.month as u32 * 100 + self.day as u32
    }
}

/// A term of a school, by its first and its last day, both included.
#[derive(Clone, Copy, Debug, PartialEq, Eq, Hash)]
pub struct Term {
    /// The first day.
    pub first: Date,
    /// The last day.
    pub last: Date,
}

/// Which copies are kept, in list order.
#[derive(Clone, Copy, Debug, PartialEq, Eq)]
pub struct Kept {
    flags: [u8; MAX_COPIES],
    copies: usize,
    count: usize,
}

impl Kept {
    /// How many are kept.
    pub const fn count(&self) -> usize {
        self.count
    }

    /// Whether copy `i` is kept; `None` if there is no such copy.
    pub fn get(&self, i: usize) -> Option<bool> {
        self.flags[..self.copies].get(i).map(|&f| f == 1)
    }

    /// For each copy, whether it is kept.
    pub fn iter(&self) -> impl ExactSizeIterator<Item = bool> + '_ {
        self.flags[..self.copies].iter().map(|&f| f == 1)
    }
}

/// Says which of a case's finished images are kept on the day asked. It deletes nothing.
///
/// A copy aged 0 to 13 days is kept. An older one that lies in a term is kept until 56 days after the
/// term's last day, that day included, if it is the last of its Monday-to-Sunday week within that term;
/// the last copy of a term is always kept. Other copies go. Of several on one date only the last in the
/// list is looked at; the others go at any age.
///
/// Refused with [`BadBuffer`](Refusal::BadBuffer) for more than [`MAX_COPIES`] copies or [`MAX_TERMS`]
/// terms, then with [`NoDate`](Refusal::NoDate) if a copy's date, a term's or the day asked is none from
/// 2000-01-01 to 2049-12-31, then with [`BadTerms`](Refusal::BadTerms), then with
/// [`AfterAsked`](Refusal::AfterAsked).
///
/// What goes on one day goes on every later day, and deleting it changes nothing for the others.
///
/// ```
/// use honecerise::{Date, Term, keep};
///
/// let autumn = Term { first: Date::new(2023, 9, 4), last: Date::new(2023, 12, 21) };
/// // Thursday, Sunday, and the Wednesday after
/// let copies = [Date::new(2023, 12, 14), Date::new(2023, 12, 17), Date::new(2023, 12, 20)];
/// // 56 days after the term the last of each week is there, a day later the last of the term
/// let on = |day| keep(&copies, &[autumn], Date::new(2024, 2, day)).unwrap();
/// assert!(on(15).iter().eq([false, true, true]));
/// assert!(on(16).iter().eq([false, false, true]));
/// ```
pub fn keep(copies: &[Date], terms: &[Term], asked: Date) -> Result<Kept, Refusal> {
    if copies.len() > MAX_COPIES || terms.len() > MAX_TERMS {
        return Err(Refusal::BadBuffer);
    }
    let mut dates = [0; MAX_COPIES];
    for (number, date) in dates.iter_mut().zip(copies) {
        *number = date.number();
    }
    let mut days = [0; 2 * MAX_TERMS];
    for (pair, term) in days.chunks_exact_mut(2).zip(terms) {
        pair.copy_from_slice(&[term.first.number(), term.last.number()]);
    }
    let mut kept = Kept { flags: [0; MAX_COPIES], copies: copies.len(), count: 0 };
    kept.count = ffi::keep(&dates[..copies.len()], &days[..2 * terms.len()], asked.number(), &mut kept.flags)?;
    Ok(kept)
}
