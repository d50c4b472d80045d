//! Which copies to keep, beside the rule read literally: every sentence by itself, pair by pair, over a
//! calendar that is counted day by day.
use honecerise::*;

/// All dates from 2000-01-01 to 2049-12-31, one after the other: the place of each is its day.
fn calendar() -> Vec<Date> {
    let mut days = vec![];
    for year in 2000u16..2050 {
        let leap = year % 4 == 0 && (year % 100 != 0 || year % 400 == 0);
        let february = if leap { 29 } else { 28 };
        for (month, length) in (1u8..).zip([31, february, 31, 30, 31, 30, 31, 31, 30, 31, 30, 31]) {
            days.extend((1..=length).map(|day| Date::new(year, month, day)));
        }
    }
    days
}

/// A question, in days.
#[derive(Clone, Debug)]
struct Question {
    copies: Vec<usize>,
    terms: Vec<(usize, usize)>,
    asked: usize,
}

impl Question {
    fn ask(&self, calendar: &[Date]) -> Result<Kept, Refusal> {
        let copies: Vec<Date> = self.copies.iter().map(|&d| calendar[d]).collect();
        let terms: Vec<Term> =
            self.terms.iter().map(|&(first, last)| Term { first: calendar[first], last: calendar[last] }).collect();
        keep(&copies, &terms, calendar[self.asked])
    }

    /// Of several on one date only the last in the list is looked at.
    fn looked_at(&self, i: usize) -> bool {
        !self.copies[i + 1..].contains(&self.copies[i])
    }

    /// Those that are looked at, lie in the term, and are later than copy i.
    fn later(&self, (first, last): (usize, usize), i: usize) -> impl Iterator<Item = usize> + '_ {
        (0..self.copies.len())
            .filter(move |&j| self.looked_at(j) && first <= self.copies[j] && self.copies[j] <= last)
            .map(|j| self.copies[j])
            .filter(move |&d| self.copies[i] < d)
    }

    fn keeps(&self, i: usize) -> bool {
        let day = self.copies[i];
        // day 0 was a Saturday
        let monday = |d: usize| (d + 5) / 7;
        let by_term = |&(first, last): &(usize, usize)| {
            let last_of_week = self.later((first, last), i).all(|d| monday(d) != monday(day));
            let last_of_term = self.later((first, last), i).next().is_none();
            first <= day && day <= last && (last_of_week && self.asked <= last + 56 || last_of_term)
        };
        self.looked_at(i) && (self.asked - day <= 13 || self.terms.iter().any(by_term))
    }

    fn refusal(&self) -> Option<Refusal> {
        let wrong = |t: usize| {
            let (first, last) = self.terms[t];
            last < first || self.terms[..t].iter().any(|&(f, l)| f.max(first) <= l.min(last) || first < f)
        };
        if self.copies.len() > MAX_COPIES || self.terms.len() > MAX_TERMS {
            Some(Refusal::BadBuffer)
        } else if (0..self.terms.len()).any(wrong) {
            Some(Refusal::BadTerms)
        } else if self.copies.iter().any(|&d| self.asked < d) {
            Some(Refusal::AfterAsked)
        } else {
            None
        }
    }
}

/// Numbers at random, the same in every run.
struct Random(u64);

impl Random {
    fn next(&mut self, below: usize) -> usize {
        self.0 ^= self.0 << 13;
        self.0 ^= self.0 >> 7;
        self.0 ^= self.0 << 17;
        (self.0 % below as u64) as usize
    }

    /// Terms that mostly are in order, and copies around them.
    fn question(&mut self, most: usize) -> Question {
        let start = self.next(18_000);
        let mut at = start;
        let mut terms = vec![];
        for _ in 0..self.next(5) {
            let first = at + self.next(15);
            at = first + self.next(60);
            terms.push((first.min(18_262), at.min(18_262)));
            at += (self.next(20) > 0) as usize;
        }
        let asked = (start + self.next(260)).min(18_262);
        let copies =
            (0..self.next(most + 1)).map(|_| (start + self.next(200)).min(asked + (self.next(300) == 0) as usize).min(18_262));
        Question { copies: copies.collect(), terms, asked }
    }
}

#[test]
fn as_the_rule_reads() {
    let calendar = calendar();
    assert_eq!(calendar.len(), 18_263);
    let mut random = Random(0x9e37_79b9_7f4a_7c15);
    let (mut kept, mut gone, mut refused) = (0, 0, 0);
    for round in 0..40_000 {
        let question = random.question(if round % 100 == 0 { 256 } else { 20 });
        match (question.ask(&calendar), question.refusal()) {
            (Ok(answer), None) => {
                let flags: Vec<bool> = (0..question.copies.len()).map(|i| question.keeps(i)).collect();
                assert!(answer.iter().eq(flags.iter().copied()), "{question:?}");
                assert_eq!(answer.count(), flags.iter().filter(|&&k| k).count());
                assert_eq!(answer.get(question.copies.len()), None);
                kept += answer.count();
                gone += flags.len() - answer.count();
            }
            (answer, expected) => {
                assert_eq!(answer.err(), expected, "{question:?}");
                refused += 1;
            }
        }
    }
    assert!(kept > 50_000 && gone > 50_000 && refused > 500, "{kept} {gone} {refused}");
}

#[test]
fn deleting_each_day_what_goes() {
    let calendar = calendar();
    let mut random = Random(0x2545_f491_4f6c_dd1d);
    for _ in 0..300 {
        let mut question = random.question(20);
        question.asked = (question.copies.iter().max().unwrap_or(&0) + 1).min(18_100);
        if question.refusal().is_some() {
            continue;
        }
        let mut left = question.clone();
        for day in question.asked..question.asked + 150 {
            (left.asked, question.asked) = (day, day);
            for q in [&mut left, &mut question.clone()] {
                let answer = q.ask(&calendar).unwrap();
                q.copies = q.copies.iter().zip(answer.iter()).filter(|(_, k)| *k).map(|(d, _)| *d).collect();
            }
            let whole = question.ask(&calendar).unwrap();
            let once: Vec<usize> = question.copies.iter().zip(whole.iter()).filter(|(_, k)| *k).map(|(d, _)| *d).collect();
            assert_eq!(left.copies, once);
        }
    }
}

#[test]
fn dates_that_are_none() {
    let good = Date::new(2024, 2, 29);
    let term = |first, last| Term { first, last };
    assert_eq!(keep(&[good], &[], good).unwrap().count(), 1);
    let bad = [(2023, 2, 29), (2000, 2, 30), (1999, 12, 31), (2050, 1, 1), (2024, 0, 1), (2024, 13, 1), (2024, 1, 0)];
    let digits = [(2024, 1, 129), (2023, 102, 29), (2022, 200, 129), (2024, 4, 31), (u16::MAX, 255, 255), (0, 0, 0)];
    for (year, month, day) in bad.into_iter().chain(digits) {
        let none = Date::new(year, month, day);
        assert_eq!(keep(&[none], &[], good), Err(Refusal::NoDate), "{none:?}");
        assert_eq!(keep(&[], &[term(none, good)], good), Err(Refusal::NoDate));
        assert_eq!(keep(&[], &[term(good, none)], good), Err(Refusal::NoDate));
        assert_eq!(keep(&[good], &[], none), Err(Refusal::NoDate));
    }
}

#[test]
fn the_order_of_refusals() {
    let (day, next, none) = (Date::new(2024, 1, 1), Date::new(2024, 1, 2), Date::new(2024, 1, 32));
    let back = Term { first: next, last: day };
    assert_eq!(keep(&[none; 257], &[back; 13], none), Err(Refusal::BadBuffer));
    assert_eq!(keep(&[], &[back; 13], day), Err(Refusal::BadBuffer));
    assert_eq!(keep(&[none], &[back], day), Err(Refusal::NoDate));
    assert_eq!(keep(&[next], &[back], day), Err(Refusal::BadTerms));
    assert_eq!(keep(&[next], &[], day), Err(Refusal::AfterAsked));
    assert_eq!(keep(&[day; 256], &[], day).unwrap().count(), 1);
}
