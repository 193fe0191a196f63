//! The points and their ties. Ties join different groups, so they form a forest, and between two
//! tied points there is one path of ties.

use std::collections::VecDeque;

/// A tie seen from one of its points: that point is `to` plus the gap.
#[derive(Clone, Copy)]
struct Branch {
    to: u8,
    gap: i64,
    step: usize,
}

/// The ties between two points of a group, and the gap that adds up along them.
#[derive(Debug, Default, PartialEq, Eq)]
pub struct Path {
    pub gap: i64,
    pub ties: Vec<usize>,
}

pub struct Forest {
    branches: Vec<Vec<Branch>>,
    /// For each point one that stands for its group.
    group: Vec<u8>,
}

impl Forest {
    /// Each of so many points is a group of its own.
    pub fn new(points: usize) -> Forest {
        let branches = vec![Vec::new(); points];
        let group = (0..points as u8).collect();
        Forest { branches, group }
    }

    /// The step of this number ties a = b + c, two points of different groups.
    pub fn tie(&mut self, step: usize, a: u8, b: u8, c: i64) {
        for (from, to, gap) in [(a, b, c), (b, a, -c)] {
            self.branches[usize::from(from)].push(Branch { to, gap, step });
        }
        let (joined, left) = (self.group[usize::from(a)], self.group[usize::from(b)]);
        for group in self.group.iter_mut().filter(|group| **group == left) {
            *group = joined;
        }
    }

    /// The path from one point to another; none if they aren't tied. A point is tied to itself.
    pub fn path(&self, a: u8, b: u8) -> Option<Path> {
        // For each point that is tied to b: the first branch on its way there.
        let mut onward: Vec<Option<Branch>> = vec![None; self.branches.len()];
        let mut open = VecDeque::from([b]);
        while let Some(point) = open.pop_front() {
            for branch in &self.branches[usize::from(point)] {
                let Branch { to, gap, step } = *branch;
                let known = &mut onward[usize::from(to)];
                if to != b && known.is_none() {
                    let gap = -gap;
                    *known = Some(Branch {
                        to: point,
                        gap,
                        step,
                    });
                    open.push_back(to);
                }
            }
        }
        let (mut gap, mut ties) = (0, Vec::new());
        let mut point = a;
        while point != b {
            let branch = onward[usize::from(point)]?;
            gap += branch.gap;
            ties.push(branch.step);
            point = branch.to;
        }
        Some(Path { gap, ties })
    }

    /// Whether two points are of one group.
    pub fn tied(&self, a: u8, b: u8) -> bool {
        self.group[usize::from(a)] == self.group[usize::from(b)]
    }

    /// The ties from one point to that which stands for its group, and from there to the other.
    pub fn detour(&self, a: u8, b: u8) -> Vec<usize> {
        let middle = self.group[usize::from(a)];
        let half = |a, b| self.path(a, b).map_or(Vec::new(), |path| path.ties);
        [half(a, middle), half(middle, b)].concat()
    }

    /// All ties of a point's group.
    pub fn ties_of_group(&self, a: u8) -> Vec<usize> {
        let points = (0..self.branches.len()).filter(|&point| self.tied(a, point as u8));
        let branches = points.flat_map(|point| &self.branches[point]);
        branches.map(|branch| branch.step).collect()
    }
}

#[cfg(test)]
mod tests {
    use super::*;

    #[test]
    fn gaps_add_up_along_the_one_path() {
        let mut forest = Forest::new(6);
        forest.tie(0, 1, 2, 5);
        forest.tie(1, 4, 3, -2);
        forest.tie(2, 3, 2, 7);
        assert_eq!(forest.path(1, 1).map(|path| path.gap), Some(0));
        let path = |gap, ties: &[usize]| {
            let ties = ties.to_vec();
            Some(Path { gap, ties })
        };
        assert_eq!(forest.path(1, 4), path(0, &[0, 2, 1]));
        assert_eq!(forest.path(4, 2), path(5, &[1, 2]));
        assert_eq!(forest.path(2, 1), path(-5, &[0]));
        assert_eq!(forest.path(0, 1), None);
        for a in 0..6 {
            for b in 0..6 {
                assert_eq!(forest.tied(a, b), forest.path(a, b).is_some(), "{a}, {b}");
            }
        }
    }
}
