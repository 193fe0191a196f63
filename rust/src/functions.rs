//! The functions: applications that are equal because their terms are.
//!
//! Rests on the second rule of "What it means to hold".

use crate::groups::{at, Groups, Spot, Tie, POINTS};
use crate::sheet::MOST;

/// As many as there may be applications, so that few share one; a power of two.
const BUCKETS: usize = POINTS;
const NONE: u8 = u8::MAX;

/// A function of two spots. Kind and symbol make the function; one of one term takes it twice.
#[derive(Clone, Copy, Default, PartialEq, Eq)]
pub struct Application {
    pub function: u16,
    pub a: Spot,
    pub b: Spot,
}

/// The applications of a sheet, and where they meet if they are equal.
pub struct Functions {
    applications: [Application; MOST],
    points: [u8; MOST],
    count: usize,
    /// The applications that have come, of spots as they are seen now. A bucket knows the one that
    /// came last, and each knows the one that came before it.
    come: [Application; MOST],
    last: [u8; BUCKETS],
    before: [u8; MOST],
}

impl Functions {
    pub fn new() -> Functions {
        Functions {
            applications: [Application::default(); MOST],
            points: [0; MOST],
            count: 0,
            come: [Application::default(); MOST],
            last: [NONE; BUCKETS],
            before: [NONE; MOST],
        }
    }

    pub fn clear(&mut self) {
        self.count = 0;
        self.last = [NONE; BUCKETS];
    }

    /// Whether there are two that could be equal.
    pub fn matter(&self) -> bool {
        self.count > 1
    }

    /// The point of an application that is read: that of one just like it, or else a new one.
    pub fn point(&mut self, application: Application, new: u8) -> u8 {
        match self.meet(self.count, application) {
            Some(point) => point,
            None => {
                self.applications[self.count] = application;
                self.points[self.count] = new;
                self.count += 1;
                new
            }
        }
    }

    /// Ties applications of one function to equal spots, until there are no more.
    ///
    /// An application of untied terms needn't come: one that it could meet would have its point. A
    /// new tie calls for another turn only if it joins terms of applications that were done.
    pub fn tie(&mut self, groups: &mut Groups) -> Tie {
        let mut answer = Tie::Known;
        let mut again = groups.any_tied();
        while again {
            again = false;
            let mut done = [false; POINTS];
            self.last = [NONE; BUCKETS];
            for own in 0..self.count {
                let Application { function, a, b } = self.applications[own];
                if !groups.is_tied(a.point()) && !groups.is_tied(b.point()) {
                    done[at(a.point())] = true;
                    done[at(b.point())] = true;
                    continue;
                }
                let (a, b) = (groups.find(a), groups.find(b));
                done[at(a.point())] = true;
                done[at(b.point())] = true;
                if let Some(other) = self.meet(own, Application { function, a, b }) {
                    let (one, other) = (Spot::new(self.points[own]), Spot::new(other));
                    let was_done = |spot| done[at(groups.find(spot).point())];
                    let joins_done = was_done(one) || was_done(other);
                    match groups.tie(one, other) {
                        Tie::Known => {}
                        Tie::Clash => return Tie::Clash,
                        Tie::New => {
                            answer = Tie::New;
                            again |= joins_done;
                        }
                    }
                }
            }
        }
        answer
    }

    /// The point of one just like it that has come; if none has, this one comes.
    fn meet(&mut self, own: usize, application: Application) -> Option<u8> {
        let Application { function, a, b } = application;
        let mixed = a.number() + 3 * b.number() + 5 * i64::from(function);
        let mixed = (mixed as u64).wrapping_mul(0x9E37_79B9_7F4A_7C15);
        let bucket = (mixed >> (u64::BITS - BUCKETS.trailing_zeros())) as usize;
        let mut other = self.last[bucket];
        while other != NONE {
            if self.come[at(other)] == application {
                return Some(self.points[at(other)]);
            }
            other = self.before[at(other)];
        }
        self.come[own] = application;
        self.before[own] = self.last[bucket];
        self.last[bucket] = own as u8;
        None
    }
}
