//! Random sheets, for the programs that test and time panels: `families` has the recipes, `sheet`
//! is what they are made in, and `words` shows one. Rests on document 01's tables, and not on the
//! panel beside it, but for the limit. Random texts, by `texts` and `typist`, rest on document 02
//! in the same way. Only `surveys`, reasons for a check, takes them from the writer beside it.

#![allow(missing_docs)]

pub mod families;
pub mod judged;
mod levels;
mod reasons;
pub mod sheet;
pub mod surveys;
pub mod texts;
mod typist;
pub mod words;
mod wrong;

use std::ops::RangeInclusive;

/// Random numbers: splitmix64, so that a sheet is the same on every machine.
pub struct Random(u64);

impl Random {
    /// The numbers that one sheet is made of. They rest on nothing but these three, so that the
    /// sheet can be made again by itself.
    pub fn of(seed: u64, family: &str, number: u64) -> Random {
        let mut random = Random(seed);
        for part in family.bytes().map(u64::from).chain([number]) {
            random.0 = random.next() ^ part;
        }
        random
    }

    fn next(&mut self) -> u64 {
        self.0 = self.0.wrapping_add(0x9E37_79B9_7F4A_7C15);
        let mut mixed = self.0;
        mixed = (mixed ^ (mixed >> 30)).wrapping_mul(0xBF58_476D_1CE4_E5B9);
        mixed = (mixed ^ (mixed >> 27)).wrapping_mul(0x94D0_49BB_1331_11EB);
        mixed ^ (mixed >> 31)
    }

    pub fn within(&mut self, range: RangeInclusive<i64>) -> i64 {
        let count = range.end() - range.start() + 1;
        range.start() + (self.next() % count as u64) as i64
    }

    /// A whole number from 0, under `end`.
    pub fn below(&mut self, end: usize) -> usize {
        (self.next() % end as u64) as usize
    }

    /// As many as a list should have.
    pub fn count(&mut self, range: RangeInclusive<usize>) -> usize {
        range.start() + self.below(range.end() - range.start() + 1)
    }

    /// As many as a small sheet should have; in a large one more than that, and often the most.
    pub fn size(&mut self, large: bool, few: RangeInclusive<usize>, most: usize) -> usize {
        match large {
            false => self.count(few),
            true if self.one_in(3) => most,
            true => self.count(*few.end()..=most),
        }
    }

    pub fn coin(&mut self) -> bool {
        self.one_in(2)
    }

    pub fn one_in(&mut self, many: usize) -> bool {
        self.below(many) == 0
    }

    pub fn pick<T: Copy>(&mut self, list: &[T]) -> T {
        list[self.below(list.len())]
    }

    pub fn shuffle<T>(&mut self, list: &mut [T]) {
        for end in (1..list.len()).rev() {
            list.swap(end, self.below(end + 1));
        }
    }
}
