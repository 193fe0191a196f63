//! The order in which bounds are taken. Every order gives the same verdict; a good one gives it in
//! few passes. The first pass goes from last to first, so a good one has each bound before those
//! that may lower its b, as far as cycles allow.

use crate::entries::{List, Set};
use crate::groups::{at, Spot, POINTS};
use crate::sheet::MOST;

/// Beyond every way.
const NONE: u16 = u16::MAX;

pub struct Order {
    bounds: List,
    sorted: bool,
}

impl Order {
    pub fn new() -> Order {
        Order {
            bounds: List::new(),
            sorted: false,
        }
    }

    pub fn clear(&mut self) {
        self.bounds.clear();
        self.sorted = false;
    }

    /// Adds an entry that is a bound.
    pub fn add(&mut self, entry: usize) {
        self.bounds.add(entry);
    }

    /// The bounds, in their order.
    pub fn each(&self) -> impl Iterator<Item = usize> + '_ {
        self.bounds.each()
    }

    /// The bounds in a set of entries.
    pub fn of<'a>(&'a self, set: &'a Set) -> impl Iterator<Item = usize> + 'a {
        self.bounds.of(set)
    }

    pub fn sorted(&self) -> bool {
        self.sorted
    }

    /// Sorts the bounds, by walks from point to point: from b to a, for a bound or an = entry, and
    /// for an = entry also from a to b. A point's bounds are added when the walks from it are done.
    pub fn sort(&mut self, points: u8, entries: &[(Spot, Spot); MOST], equal: &List) {
        let mut walk = Walk {
            last: [NONE; POINTS],
            before: [NONE; 3 * MOST],
            to: [0; 3 * MOST],
            seen: [false; POINTS],
        };
        for entry in equal.each() {
            let (a, b) = entries[entry];
            walk.add(MOST + entry, b, a);
            walk.add(2 * MOST + entry, a, b);
        }
        for entry in self.bounds.each().rev() {
            let (a, b) = entries[entry];
            walk.add(entry, b, a);
        }
        self.bounds.clear();
        for point in 0..points {
            if !walk.seen[at(point)] {
                walk.from(point, &mut self.bounds);
            }
        }
        self.sorted = true;
    }
}

/// Ways from point to point. Those that leave a point form a list: the point knows the last of
/// them, and each knows the one before it. The way of a bound has the number of its entry, and
/// others have higher ones.
struct Walk {
    last: [u16; POINTS],
    before: [u16; 3 * MOST],
    to: [u8; 3 * MOST],
    seen: [bool; POINTS],
}

impl Walk {
    fn add(&mut self, way: usize, from: Spot, to: Spot) {
        let last = &mut self.last[at(from.point())];
        self.to[way] = to.point();
        self.before[way] = *last;
        *last = way as u16;
    }

    fn from(&mut self, point: u8, order: &mut List) {
        self.seen[at(point)] = true;
        let last = usize::from(self.last[at(point)]);
        let mut way = last;
        while way < 3 * MOST {
            let to = self.to[way];
            if !self.seen[at(to)] {
                self.from(to, order);
            }
            way = usize::from(self.before[way]);
        }
        // Bounds were added behind all others, the first of them last.
        way = last;
        while way < MOST {
            order.add(way);
            way = usize::from(self.before[way]);
        }
    }
}
