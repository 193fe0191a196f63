//! Sets of entries, and lists of them, for sheets of any limit.

use crate::sheet::MOST;

/// A set of entries: for each, whether it is a member.
pub type Set = [bool; MOST];

/// Some of a sheet's entries, in any order.
pub struct List {
    entries: [u8; MOST],
    count: usize,
}

impl List {
    pub fn new() -> List {
        List {
            entries: [0; MOST],
            count: 0,
        }
    }

    pub fn clear(&mut self) {
        self.count = 0;
    }

    pub fn add(&mut self, entry: usize) {
        self.entries[self.count] = entry as u8;
        self.count += 1;
    }

    /// All of them; the remainder tells the compiler what is true of every entry.
    pub fn each(&self) -> impl DoubleEndedIterator<Item = usize> + '_ {
        let entries = self.entries[..self.count].iter();
        entries.map(|&entry| usize::from(entry) % MOST)
    }

    /// Those that are members of a set.
    pub fn of<'a>(&'a self, set: &'a Set) -> impl Iterator<Item = usize> + 'a {
        self.each().filter(|&entry| set[entry])
    }
}
