//! A sheet in the making: terms and entries, laid out by document 01's tables at the end.

use super::Random;
use crate::sheet::MOST;

/// The number of a term.
#[derive(Clone, Copy, Debug, PartialEq, Eq)]
pub struct Term(pub u8);

#[derive(Clone, Copy, Debug, PartialEq, Eq)]
pub enum TermRecord {
    Unknown,
    Number(i64),
    Shift(Term, i64),
    One(u8, Term),
    Two(u8, Term, Term),
}

use TermRecord::{Number, One, Shift, Two, Unknown};

/// How an entry compares its two sides. The order is that of the kinds' numbers.
#[derive(Clone, Copy, Debug, PartialEq, Eq)]
pub enum Kind {
    Equal,
    Unequal,
    AtMost,
    Under,
}

use Kind::{AtMost, Equal, Under, Unequal};

/// Term a compared with (term b plus c).
#[derive(Clone, Copy, Debug, PartialEq, Eq)]
pub struct Entry {
    pub kind: Kind,
    pub a: Term,
    pub b: Term,
    pub c: i64,
}

#[derive(Clone, Debug, Default)]
pub struct Sheet {
    pub terms: Vec<TermRecord>,
    pub entries: Vec<Entry>,
}

impl Sheet {
    pub fn new() -> Sheet {
        Sheet::default()
    }

    fn term(&mut self, record: TermRecord) -> Term {
        self.terms.push(record);
        Term((self.terms.len() - 1) as u8)
    }

    pub fn unknown(&mut self) -> Term {
        self.term(Unknown)
    }

    pub fn unknowns(&mut self, count: usize) -> Vec<Term> {
        (0..count).map(|_| self.unknown()).collect()
    }

    pub fn number(&mut self, c: i64) -> Term {
        self.term(Number(c))
    }

    pub fn shift(&mut self, a: Term, c: i64) -> Term {
        self.term(Shift(a, c))
    }

    pub fn one(&mut self, symbol: u8, a: Term) -> Term {
        self.term(One(symbol, a))
    }

    pub fn two(&mut self, symbol: u8, a: Term, b: Term) -> Term {
        self.term(Two(symbol, a, b))
    }

    pub fn enter(&mut self, kind: Kind, a: Term, b: Term, c: i64) {
        self.entries.push(Entry { kind, a, b, c });
    }

    pub fn equal(&mut self, a: Term, b: Term, c: i64) {
        self.enter(Equal, a, b, c);
    }

    pub fn unequal(&mut self, a: Term, b: Term, c: i64) {
        self.enter(Unequal, a, b, c);
    }

    pub fn at_most(&mut self, a: Term, b: Term, c: i64) {
        self.enter(AtMost, a, b, c);
    }

    pub fn under(&mut self, a: Term, b: Term, c: i64) {
        self.enter(Under, a, b, c);
    }

    pub fn any_term(&self, random: &mut Random) -> Term {
        Term(random.below(self.terms.len()) as u8)
    }

    /// Whether two terms are applications of one function, of different term numbers.
    pub fn alike(&self, a: Term, b: Term) -> bool {
        a != b
            && match (self.terms[usize::from(a.0)], self.terms[usize::from(b.0)]) {
                (One(symbol, _), One(other, _)) => symbol == other,
                (Two(symbol, ..), Two(other, ..)) => symbol == other,
                _ => false,
            }
    }

    pub fn terms_left(&self) -> usize {
        MOST - self.terms.len()
    }

    pub fn entries_left(&self) -> usize {
        MOST - self.entries.len()
    }

    /// Takes out one entry, whichever.
    pub fn leave_out(&mut self, random: &mut Random) {
        if !self.entries.is_empty() {
            self.entries.swap_remove(random.below(self.entries.len()));
        }
    }

    /// The same sheet with its terms and entries in another order. A term still comes after its
    /// arguments.
    pub fn shuffled(mut self, random: &mut Random) -> Sheet {
        let mut new_number = vec![None; self.terms.len()];
        let mut terms = Vec::new();
        while terms.len() < self.terms.len() {
            let at = random.below(self.terms.len());
            let moved = |a: Term| new_number[usize::from(a.0)];
            let record = match self.terms[at] {
                Unknown => Some(Unknown),
                Number(c) => Some(Number(c)),
                Shift(a, c) => moved(a).map(|a| Shift(a, c)),
                One(symbol, a) => moved(a).map(|a| One(symbol, a)),
                Two(symbol, a, b) => match (moved(a), moved(b)) {
                    (Some(a), Some(b)) => Some(Two(symbol, a, b)),
                    _ => None,
                },
            };
            if let (None, Some(record)) = (new_number[at], record) {
                new_number[at] = Some(Term(terms.len() as u8));
                terms.push(record);
            }
        }
        for entry in &mut self.entries {
            for side in [&mut entry.a, &mut entry.b] {
                *side = new_number[usize::from(side.0)].expect("every term was moved");
            }
        }
        random.shuffle(&mut self.entries);
        Sheet {
            terms,
            entries: self.entries,
        }
    }

    /// The sheet byte by byte.
    pub fn bytes(&self) -> Vec<u8> {
        assert!((1..=MOST).contains(&self.terms.len()) && self.entries.len() <= MOST);
        let mut bytes = vec![0, 0, 1, self.terms.len() as u8, self.entries.len() as u8, 0];
        for &term in &self.terms {
            let (kind, symbol, a, b, c) = match term {
                Unknown => (0, 0, 0, 0, 0),
                Number(c) => (1, 0, 0, 0, c),
                Shift(a, c) => (2, 0, a.0, 0, c),
                One(symbol, a) => (3, symbol, a.0, 0, 0),
                Two(symbol, a, b) => (4, symbol, a.0, b.0, 0),
            };
            bytes.extend([kind, symbol, a, b]);
            bytes.extend(field(c));
        }
        for entry in &self.entries {
            bytes.extend([entry.kind as u8, 0, entry.a.0, entry.b.0]);
            bytes.extend(field(entry.c));
        }
        state_length(&mut bytes);
        bytes
    }
}

fn field(c: i64) -> [u8; 2] {
    i16::try_from(c)
        .expect("c lies within its two bytes")
        .to_be_bytes()
}

/// Makes bytes 0-1 state the length.
pub fn state_length(bytes: &mut [u8]) {
    let length = bytes.len() as u16;
    bytes[..2].copy_from_slice(&length.to_be_bytes());
}

#[cfg(test)]
mod tests {
    use super::*;
    use crate::random::judged::{mix, rounds};
    use crate::sheet::ROOM;

    #[test]
    fn sheet_1_byte_by_byte() {
        let mut sheet = Sheet::new();
        let (x, y) = (sheet.unknown(), sheet.unknown());
        let (fx, fy) = (sheet.one(7, x), sheet.one(7, y));
        sheet.at_most(x, y, 0);
        sheet.at_most(y, x, 0);
        sheet.unequal(fx, fy, 0);
        assert_eq!(
            sheet.bytes(),
            [
                0x00, 0x30, 0x01, 0x04, 0x03, 0x00, 0x00, 0x00, 0x00, 0x00, 0x00, 0x00, 0x00, 0x00,
                0x00, 0x00, 0x00, 0x00, 0x03, 0x07, 0x00, 0x00, 0x00, 0x00, 0x03, 0x07, 0x01, 0x00,
                0x00, 0x00, 0x02, 0x00, 0x00, 0x01, 0x00, 0x00, 0x02, 0x00, 0x01, 0x00, 0x00, 0x00,
                0x01, 0x00, 0x02, 0x03, 0x00, 0x00,
            ]
        );
    }

    #[test]
    fn another_order_has_the_same_verdict() {
        let mut panel = crate::Panel::new();
        let mut verdict = |sheet: &Sheet| panel.judge(&sheet.bytes(), &mut [0; ROOM]).0;
        let random = &mut Random::of(1, "order", 0);
        for _ in 0..300 {
            for sheet in [mix(random, false), rounds(random, false)] {
                assert_eq!(verdict(&sheet), verdict(&sheet.clone().shuffled(random)));
            }
        }
    }
}
