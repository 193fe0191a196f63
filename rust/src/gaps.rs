//! The bounds between groups: levels that meet them, and what they tie.
//!
//! Rests on "Where the rules come from" and "What a written reason may say". Gaps are counted in
//! parts, `PARTS` to one, and a strict bound is a part less. A cycle that meets no point twice has
//! at most `POINTS` bounds, fewer than `PARTS`. So it clashes exactly when its total in parts is
//! below zero; and at zero it has no strict bound, and ties its points.

use crate::groups::{at, Groups, Spot, POINTS};
use crate::knots::Knots;
use crate::sheet::MOST;

/// Parts to one: two for each bound of a cycle.
pub const PARTS: i64 = 2 * POINTS as i64;

/// The most bounds: an entry each, and two for each number or shift where a shortcut keeps them.
const BOUNDS: usize = 3 * MOST;

/// Beyond every bound.
const NONE: u16 = u16::MAX;

/// The bound a ≤ b + gap, between the first points of two groups.
#[derive(Clone, Copy, Default)]
struct Bound {
    a: u8,
    b: u8,
    gap: i64,
}

/// What came of settling.
#[derive(Clone, Copy, PartialEq, Eq)]
pub enum Settled {
    /// The levels meet every bound.
    Met,
    /// They can't: a cycle clashes.
    Clash,
    /// They can't with bounds as tight as they were taken: a cycle ties.
    Tie,
}

pub struct Gaps {
    bounds: [Bound; BOUNDS],
    count: usize,
    tighter: i64,
    level: [i64; POINTS],
    /// The bound that last lowered a point, if one has.
    by: [u16; POINTS],
    /// For few points, and for many: one word is quicker than two.
    narrow: Knots<u64>,
    wide: Knots<u128>,
}

impl Gaps {
    pub fn new() -> Gaps {
        Gaps {
            bounds: [Bound::default(); BOUNDS],
            count: 0,
            tighter: 0,
            level: [0; POINTS],
            by: [NONE; POINTS],
            narrow: Knots::new(),
            wide: Knots::new(),
        }
    }

    /// Puts so many points on one level.
    pub fn clear(&mut self, points: u8) {
        self.level[..usize::from(points)].fill(0);
    }

    /// How high a point is.
    pub fn level(&self, point: u8) -> i64 {
        self.level[at(point)]
    }

    /// Takes bounds, in which one spot is at most another, each so many parts tighter. False if
    /// one of them clashes with the ties.
    pub fn take(
        &mut self,
        mut bounds: impl Iterator<Item = (Spot, Spot)>,
        tighter: i64,
        groups: &Groups,
    ) -> bool {
        let mut count = 0;
        let met = bounds.all(|(a, b)| {
            let (a, b) = (groups.find(a), groups.find(b));
            let gap = b.above() - a.above();
            if a.point() == b.point() {
                return gap >= 0;
            }
            self.bounds[count] = Bound {
                a: a.point(),
                b: b.point(),
                gap: gap - tighter,
            };
            count += 1;
            true
        });
        self.count = count;
        self.tighter = tighter;
        met
    }

    /// Lowers points until the levels meet every bound, or can't; too few passes may not tell.
    ///
    /// After n passes no point is higher than a walk of n bounds allows. So if the last of `POINTS`
    /// passes still lowers a point, the walk back from it has no end: it runs into a cycle.
    pub fn settle(&mut self, passes: usize) -> Option<Settled> {
        self.by = [NONE; POINTS];
        for pass in 1..=passes {
            let last = match self.pass(pass % 2 == 1) {
                Some(last) => last,
                None => return Some(Settled::Met),
            };
            // Walking back can take as long as a pass, so it is done ever less often.
            if pass > 1 && pass.is_power_of_two() {
                if let Some(total) = self.cycle(last) {
                    return Some(if total < 0 {
                        Settled::Clash
                    } else {
                        Settled::Tie
                    });
                }
            }
        }
        None
    }

    /// Meets each bound in turn by lowering its a, and answers the last point lowered. Passes go
    /// either way, since chains are written either way.
    fn pass(&mut self, backward: bool) -> Option<u8> {
        let Gaps {
            bounds, level, by, ..
        } = self;
        let mut last = None;
        let mut meet = |(own, bound): (usize, &Bound)| {
            let most = level[at(bound.b)] + bound.gap;
            if most < level[at(bound.a)] {
                level[at(bound.a)] = most;
                by[at(bound.a)] = own as u16;
                last = Some(bound.a);
            }
        };
        let bounds = bounds[..self.count].iter().enumerate();
        if backward {
            bounds.rev().for_each(&mut meet);
        } else {
            bounds.for_each(&mut meet);
        }
        last
    }

    /// Walks back from a point over what lowered it. If that runs into a cycle, the answer is the
    /// total of the cycle, with its bounds no tighter than they are.
    ///
    /// As they were taken it is below zero, since the points lowered each other. If the whole gaps
    /// on it added up to 1, it would be at least `PARTS` - 2 · `POINTS` = 0 even with every bound
    /// strict and a part tighter. So they add up to 0 or less: the cycle clashes below zero, and
    /// ties at zero.
    ///
    /// The walk sets a mark ever more rarely. Once it is on the cycle with time enough to go round,
    /// it comes back to the mark, and has then gone round once.
    fn cycle(&self, start: u8) -> Option<i64> {
        let mut point = start;
        let (mut mark, mut total) = (start, 0);
        let mut steps = 0u32;
        loop {
            let bound = self.bounds.get(usize::from(self.by[at(point)]))?;
            total += bound.gap + self.tighter;
            point = bound.b;
            if point == mark {
                return Some(total);
            }
            steps += 1;
            if steps.is_power_of_two() {
                (mark, total) = (point, 0);
            }
        }
    }

    /// Ties all of so many points that the bounds tie, given levels that meet them.
    ///
    /// A cycle at zero goes over bounds that the levels meet exactly. So points are tied exactly
    /// when such bounds lead from each to the other.
    pub fn tie(&mut self, points: u8, groups: &mut Groups) {
        let level = &self.level;
        let exactly = |bound: &&Bound| level[at(bound.a)] == level[at(bound.b)] + bound.gap;
        let met = self.bounds[..self.count].iter().filter(exactly);
        let steps = met.map(|bound| (bound.b, bound.a));
        let tie = |first: u8, other: u8| {
            let above = level[at(other)] - level[at(first)];
            groups.tie(Spot::new(other), Spot::new(first).plus(above));
        };
        if u32::from(points) <= u64::BITS {
            self.narrow.find(points, steps, tie);
        } else {
            self.wide.find(points, steps, tie);
        }
    }
}
