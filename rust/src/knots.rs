//! Knots: points that steps lead between, to and fro.

use crate::groups::{at, POINTS};
use std::ops::{BitAnd, BitAndAssign, BitOr, BitOrAssign, Not};

/// A set of points: a bit for each, in one word or in two.
pub trait Points:
    Copy
    + Default
    + Eq
    + Not<Output = Self>
    + BitAnd<Output = Self>
    + BitOr<Output = Self>
    + BitAndAssign
    + BitOrAssign
{
    fn only(point: u8) -> Self;
    fn lowest(self) -> u8;
}

macro_rules! points {
    ($word:ty) => {
        impl Points for $word {
            fn only(point: u8) -> $word {
                1 << (u32::from(point) % <$word>::BITS)
            }

            fn lowest(self) -> u8 {
                self.trailing_zeros() as u8
            }
        }
    };
}

points!(u64);
points!(u128);

const _: () = assert!(POINTS <= u128::BITS as usize);

/// Points that steps lead between, and those that lie one step on.
#[derive(Clone, Copy, Default)]
struct Knot<P> {
    points: P,
    onward: P,
}

/// The work space to find knots in.
pub struct Knots<P> {
    onward: [P; POINTS],
    path: [Knot<P>; POINTS],
}

impl<P: Points> Knots<P> {
    pub fn new() -> Knots<P> {
        Knots {
            onward: [P::default(); POINTS],
            path: [Knot::default(); POINTS],
        }
    }

    /// Finds the knots that steps make among so many points, and hands on the lowest point of each
    /// with each other point of it.
    ///
    /// A path over the steps finds them: where it comes back to itself, all between is one knot.
    pub fn find(
        &mut self,
        points: u8,
        steps: impl Iterator<Item = (u8, u8)>,
        mut tied: impl FnMut(u8, u8),
    ) {
        let none = P::default();
        let (mut left, mut entered) = (none, none);
        self.onward[..usize::from(points)].fill(none);
        for (from, to) in steps {
            self.onward[at(from)] |= P::only(to);
            left |= P::only(from);
            entered |= P::only(to);
        }
        let mut open = left & entered;
        while open != none {
            let start = open.lowest();
            let mut on_path = P::only(start);
            let mut end = 0;
            self.path[end] = self.alone(start);
            loop {
                let knot = self.path[end];
                let next = knot.onward & open & !knot.points;
                if next & on_path != none {
                    end -= 1;
                    self.path[end].points |= knot.points;
                    self.path[end].onward |= knot.onward;
                } else if next != none {
                    let point = next.lowest();
                    end += 1;
                    on_path |= P::only(point);
                    self.path[end] = self.alone(point);
                } else {
                    let first = knot.points.lowest();
                    let mut others = knot.points & !P::only(first);
                    while others != none {
                        let other = others.lowest();
                        others &= !P::only(other);
                        tied(first, other);
                    }
                    open &= !knot.points;
                    on_path &= !knot.points;
                    if end == 0 {
                        break;
                    }
                    end -= 1;
                }
            }
        }
    }

    fn alone(&self, point: u8) -> Knot<P> {
        Knot {
            points: P::only(point),
            onward: self.onward[at(point)],
        }
    }
}
