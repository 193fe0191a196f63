//! Points in groups: which are tied to each other, and how far apart.
//!
//! Rests on "What a written reason may say": at first each point is a group of its own, and gaps
//! add up along ties. Each point knows where it lies above the first point of its group, so asking
//! takes one look; joining two groups tells the members of the smaller one.

use crate::sheet::MOST;

/// The most points, as each is a term; a power of two.
pub const POINTS: usize = MOST.next_power_of_two();

/// The index of a point; the remainder tells the compiler what is true of every point.
pub fn at(point: u8) -> usize {
    usize::from(point) % POINTS
}

/// A point plus some parts, as one number: `POINTS` for each part, plus the point.
#[derive(Clone, Copy, Default, PartialEq, Eq)]
pub struct Spot(i64);

impl Spot {
    pub fn new(point: u8) -> Spot {
        Spot(i64::from(point))
    }

    pub fn plus(self, parts: i64) -> Spot {
        Spot(self.0 + parts * POINTS as i64)
    }

    pub fn point(self) -> u8 {
        (self.0 as u64 % POINTS as u64) as u8
    }

    /// The parts above the point.
    pub fn above(self) -> i64 {
        self.0.div_euclid(POINTS as i64)
    }

    pub fn number(self) -> i64 {
        self.0
    }
}

/// What came of tying two spots.
#[derive(Clone, Copy, PartialEq, Eq)]
pub enum Tie {
    Known,
    New,
    Clash,
}

#[derive(Clone, Copy)]
pub struct Groups {
    /// Each point, seen from the first of its group.
    seen: [Spot; POINTS],
    /// The members of a group form a ring.
    next: [u8; POINTS],
    /// How many they are, kept for the first.
    size: [u8; POINTS],
    tied: bool,
}

/// Each point is a group of its own.
static APART: Groups = {
    let mut groups = Groups {
        seen: [Spot(0); POINTS],
        next: [0; POINTS],
        size: [1; POINTS],
        tied: false,
    };
    let mut point = 0;
    while point < POINTS {
        groups.seen[point] = Spot(point as i64);
        groups.next[point] = point as u8;
        point += 1;
    }
    groups
};

impl Groups {
    pub fn new() -> Groups {
        APART
    }

    /// Makes each of so many points a group of its own.
    pub fn part(&mut self, points: u8) {
        let points = ..usize::from(points);
        self.seen[points].copy_from_slice(&APART.seen[points]);
        self.next[points].copy_from_slice(&APART.next[points]);
        self.size[points].copy_from_slice(&APART.size[points]);
        self.tied = false;
    }

    /// Whether any points are tied.
    pub fn any_tied(&self) -> bool {
        self.tied
    }

    /// Whether a point is tied to another.
    pub fn is_tied(&self, point: u8) -> bool {
        self.next[at(point)] != point
    }

    /// A spot, seen from the first point of its group. Two spots of a group are equal exactly if
    /// they are then the same.
    pub fn find(&self, spot: Spot) -> Spot {
        let point = spot.point();
        Spot(self.seen[at(point)].0 + (spot.0 - i64::from(point)))
    }

    /// Ties two spots.
    pub fn tie(&mut self, a: Spot, b: Spot) -> Tie {
        let (seen_a, seen_b) = (self.find(a), self.find(b));
        let (first_a, first_b) = (at(seen_a.point()), at(seen_b.point()));
        if first_a == first_b {
            return if seen_a == seen_b {
                Tie::Known
            } else {
                Tie::Clash
            };
        }
        // What the smaller group sees is shifted to what the larger one sees.
        let (small, large, shift) = if self.size[first_a] <= self.size[first_b] {
            (first_a, first_b, seen_b.0 - seen_a.0)
        } else {
            (first_b, first_a, seen_a.0 - seen_b.0)
        };
        let mut member = small;
        loop {
            self.seen[member].0 += shift;
            member = at(self.next[member]);
            if member == small {
                break;
            }
        }
        // A swap makes one ring of two.
        self.next.swap(small, large);
        self.size[large] += self.size[small];
        self.tied = true;
        Tie::New
    }
}
