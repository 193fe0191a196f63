//! Hidden levels of a sheet's terms, and entries made around them: met by the levels, so that the
//! sheet holds, or missed by one step.

use super::sheet::Kind::{AtMost, Equal, Under, Unequal};
use super::sheet::TermRecord::{Number, One, Shift, Two};
use super::sheet::{Entry, Kind, Sheet, Term};
use super::Random;

/// A level for each term that a sheet has so far, in parts of one.
pub struct Levels {
    parts: i64,
    of: Vec<i64>,
}

impl Levels {
    /// Levels that obey numbers, shifts and functions. The free ones lie within `reach` of zero.
    pub fn hidden(random: &mut Random, sheet: &Sheet, parts: i64, reach: i64) -> Levels {
        let mut of: Vec<i64> = Vec::new();
        let mut known = Vec::new();
        for &term in &sheet.terms {
            let at = |a: Term| of[usize::from(a.0)];
            let input = match term {
                One(symbol, a) => Some((symbol, at(a), None)),
                Two(symbol, a, b) => Some((symbol, at(a), Some(at(b)))),
                _ => None,
            };
            let earlier = known.iter().find(|&&(known, _)| Some(known) == input);
            let level = match (term, earlier) {
                (Number(c), _) => c * parts,
                (Shift(a, c), _) => at(a) + c * parts,
                (_, Some(&(_, level))) => level,
                _ => random.within(-reach * parts..=reach * parts),
            };
            known.extend(input.map(|input| (input, level)));
            of.push(level);
        }
        Levels { parts, of }
    }

    /// How far a lies over b.
    fn over(&self, a: Term, b: Term) -> i64 {
        self.of[usize::from(a.0)] - self.of[usize::from(b.0)]
    }

    /// The level of each term, where a part is one.
    pub fn whole(self) -> Vec<i64> {
        assert_eq!(self.parts, 1);
        self.of
    }

    pub fn meet(&self, entry: &Entry) -> bool {
        let over = self.over(entry.a, entry.b);
        let c = entry.c * self.parts;
        match entry.kind {
            Equal => over == c,
            Unequal => over != c,
            AtMost => over <= c,
            Under => over < c,
        }
    }

    /// The lowest c with which a bound is met. With it = is met, if = is met with any.
    fn closest(&self, kind: Kind, a: Term, b: Term) -> i64 {
        let over = self.over(a, b);
        match kind {
            Under => over.div_euclid(self.parts) + 1,
            _ => -(-over).div_euclid(self.parts),
        }
    }

    /// An entry on any two terms that is met, mostly only just.
    pub fn met(&self, random: &mut Random, kinds: &[Kind]) -> Entry {
        loop {
            let kind = random.pick(kinds);
            let mut any_term = || Term(random.below(self.of.len()) as u8);
            let (a, b) = (any_term(), any_term());
            let off = match kind {
                Equal => 0,
                Unequal => random.within(-1..=1),
                AtMost | Under => random.pick(&[0, 0, 0, 1]),
            };
            let c = self.closest(kind, a, b) + off;
            let entry = Entry { kind, a, b, c };
            if self.meet(&entry) {
                return entry;
            }
        }
    }

    /// The entry moved to where it is missed by one step. (A ≠ is still met where the terms aren't
    /// a whole number apart.)
    pub fn missed(&self, random: &mut Random, entry: Entry) -> Entry {
        let off = match entry.kind {
            Equal => random.pick(&[-1, 1]),
            Unequal => 0,
            AtMost | Under => -1,
        };
        let c = self.closest(entry.kind, entry.a, entry.b) + off;
        Entry { c, ..entry }
    }

    /// Enters `count` entries, all met but up to `missed` of them.
    pub fn fill(
        &self,
        random: &mut Random,
        sheet: &mut Sheet,
        kinds: &[Kind],
        count: usize,
        missed: usize,
    ) {
        for i in 0..count {
            let entry = self.met(random, kinds);
            sheet.entries.push(if i < missed {
                self.missed(random, entry)
            } else {
                entry
            });
        }
    }
}

#[cfg(test)]
mod tests {
    use super::*;
    use crate::random::judged::mix;
    use crate::sheet::ROOM;

    #[test]
    fn what_levels_meet_holds() {
        let mut panel = crate::Panel::new();
        let random = &mut Random::of(1, "levels", 0);
        for parts in [1, 2, 60] {
            for _ in 0..100 {
                let mut sheet = mix(random, false);
                let levels = Levels::hidden(random, &sheet, parts, 2);
                sheet.entries.clear();
                levels.fill(random, &mut sheet, &[Equal, Unequal, AtMost, Under], 30, 0);
                assert_eq!(panel.judge(&sheet.bytes(), &mut [0; ROOM]).0, 0);
            }
        }
    }
}
