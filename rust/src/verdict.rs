//! The verdict on a set of entries, judged from scratch each time.
//!
//! Rests on "What it means to hold". The gaps and the functions pass each other ties until neither
//! has a new one. Over the rationals that is enough: there are then values in which only tied terms
//! are equal (see `values`), so each ≠ entry may be judged by itself.

use crate::entries::{List, Set};
use crate::functions::{Application, Functions};
use crate::gaps::{Gaps, Settled, PARTS};
use crate::groups::{Groups, Spot, Tie, POINTS};
use crate::order::Order;
use crate::sheet::{Record, MOST};
use crate::shortcut::Shortcut;

const EQUAL: u8 = 0;
const UNEQUAL: u8 = 1;
const UNDER: u8 = 3;

/// A part is worth `POINTS`: 256 · 128 = 2^15.
const D: u16 = PARTS as u16 * POINTS as u16;

// What values rest on: each n lies within 2^40.
const _: () = assert!((4 * MOST as i64 + 4) << 15 <= (1 << 40) / D as i64);

/// Passes after which bounds are worth sorting.
const SOON: usize = 4;

/// A sheet as it was read, and the work space to judge it in.
///
/// Each term is a spot. The points are the unknowns, the applications and the first number, which
/// stands for the zero level; other numbers and shifts lie above or below those.
pub struct Judge {
    shortcut: Option<Shortcut>,
    terms: usize,
    spots: [Spot; MOST],
    points: u8,
    zero: Option<Spot>,
    /// An entry compares one spot with another; where it is strict, with a part less.
    entries: [(Spot, Spot); MOST],
    equal: List,
    unequal: List,
    bounds: Order,
    /// Bounds that keep numbers and shifts in place, where a shortcut makes them points.
    links: [(Spot, Spot); 2 * MOST],
    linked: usize,
    groups: Groups,
    functions: Functions,
    gaps: Gaps,
}

impl Judge {
    pub fn new(shortcut: Option<Shortcut>) -> Judge {
        Judge {
            shortcut,
            terms: 0,
            spots: [Spot::default(); MOST],
            points: 0,
            zero: None,
            entries: [Default::default(); MOST],
            equal: List::new(),
            unequal: List::new(),
            bounds: Order::new(),
            links: [Default::default(); 2 * MOST],
            linked: 0,
            groups: Groups::new(),
            functions: Functions::new(),
            gaps: Gaps::new(),
        }
    }

    /// Forgets the last sheet.
    pub fn clear(&mut self) {
        self.points = 0;
        self.zero = None;
        self.equal.clear();
        self.unequal.clear();
        self.bounds.clear();
        self.linked = 0;
        self.functions.clear();
    }

    /// Reads the next term.
    pub fn term(&mut self, own: usize, term: Record) {
        let gap = i64::from(term.c) * PARTS;
        let spot = match term.kind {
            0 => self.new_point(),
            1 => match self.zero {
                Some(zero) => self.keep(zero.plus(gap)),
                None => {
                    let first = self.new_point();
                    self.zero = Some(first.plus(-gap));
                    first
                }
            },
            2 => self.keep(self.spots[usize::from(term.a)].plus(gap)),
            _ => self.application(term),
        };
        self.spots[own] = spot;
        self.terms = own + 1;
    }

    /// Reads the next entry.
    pub fn entry(&mut self, own: usize, entry: Record) {
        let a = self.spots[usize::from(entry.a)];
        let b = self.spots[usize::from(entry.b)].plus(i64::from(entry.c) * PARTS);
        let under = match self.shortcut {
            _ if entry.kind != UNDER => 0,
            Some(Shortcut::MinusOne) => PARTS,
            _ => 1,
        };
        self.entries[own] = (a, b.plus(-under));
        match entry.kind {
            EQUAL => self.equal.add(own),
            UNEQUAL => self.unequal.add(own),
            _ => self.bounds.add(own),
        }
    }

    fn new_point(&mut self) -> Spot {
        self.points += 1;
        Spot::new(self.points - 1)
    }

    /// The spot itself; or where only = entries tie, a new point that two bounds keep there.
    fn keep(&mut self, spot: Spot) -> Spot {
        if self.shortcut != Some(Shortcut::OnlyEqual) {
            return spot;
        }
        let own = self.new_point();
        self.links[self.linked] = (own, spot);
        self.links[self.linked + 1] = (spot, own);
        self.linked += 2;
        own
    }

    fn application(&mut self, term: Record) -> Spot {
        let a = self.spots[usize::from(term.a)];
        let b = if term.kind == 4 {
            self.spots[usize::from(term.b)]
        } else {
            a
        };
        let symbol = match self.shortcut {
            Some(Shortcut::AnySymbol) => 0,
            _ => term.symbol,
        };
        let function = u16::from_be_bytes([term.kind, symbol]);
        let point = self
            .functions
            .point(Application { function, a, b }, self.points);
        if point == self.points {
            self.points += 1;
        }
        Spot::new(point)
    }

    /// Whether a set of entries clashes. Where `values` are asked for, they are there if it doesn't.
    pub fn clashes(&mut self, set: &Set, values: bool) -> bool {
        if self.shortcut == Some(Shortcut::Apart) {
            let mut no_bounds = *set;
            for bound in self.bounds.each() {
                no_bounds[bound] = false;
            }
            return self.clash(&no_bounds, true, false) || self.clash(set, false, values);
        }
        self.clash(set, self.functions.matter(), values)
    }

    fn clash(&mut self, set: &Set, mut functions: bool, values: bool) -> bool {
        self.groups.part(self.points);
        self.gaps.clear(self.points);
        for entry in self.equal.of(set) {
            let (a, b) = self.entries[entry];
            if self.groups.tie(a, b) == Tie::Clash {
                return true;
            }
        }
        if functions && self.functions.tie(&mut self.groups) == Tie::Clash {
            return true;
        }
        if self.breaks(set) {
            return true;
        }
        let mut unequal = self.unequal.of(set).next().is_some();
        match self.shortcut {
            Some(Shortcut::OneHalf) => functions = false,
            Some(Shortcut::OnlyEqual) => (functions, unequal) = (false, false),
            _ => {}
        }
        // Values need levels that meet each bound with a part to spare. Where there are such levels
        // the bounds tie nothing, so they are tried first.
        let mut tighter = i64::from(values);
        loop {
            if !self.take(set, tighter) {
                return true;
            }
            match self.settle(set, tighter) {
                Settled::Clash => return true,
                Settled::Met if tighter == 1 => return false,
                Settled::Met => {}
                Settled::Tie => {
                    tighter = 0;
                    continue;
                }
            }
            if !values && !functions && !unequal {
                return false;
            }
            self.gaps.tie(self.points, &mut self.groups);
            let more = if functions {
                self.functions.tie(&mut self.groups)
            } else {
                Tie::Known
            };
            if more == Tie::Clash || unequal && self.breaks(set) {
                return true;
            }
            if more == Tie::Known {
                if !values {
                    return false;
                }
                tighter = 1;
            }
            functions &= self.shortcut != Some(Shortcut::Once);
        }
    }

    /// Whether spots are tied that a ≠ entry of a set keeps apart.
    fn breaks(&self, set: &Set) -> bool {
        self.unequal.of(set).any(|entry| {
            let (a, b) = self.entries[entry];
            self.groups.find(a) == self.groups.find(b)
        })
    }

    fn take(&mut self, set: &Set, tighter: i64) -> bool {
        let links = self.links[..self.linked].iter().copied();
        let bounds = self.bounds.of(set).map(|entry| self.entries[entry]);
        self.gaps.take(links.chain(bounds), tighter, &self.groups)
    }

    /// Settles the bounds that were taken; if they don't settle soon, they are sorted first.
    fn settle(&mut self, set: &Set, tighter: i64) -> Settled {
        if !self.bounds.sorted() {
            if let Some(settled) = self.gaps.settle(SOON) {
                return settled;
            }
            self.bounds.sort(self.points, &self.entries, &self.equal);
            self.take(set, tighter);
        }
        self.gaps
            .settle(POINTS)
            .expect("a pass for each point tells")
    }

    /// Values of the terms, after the verdict that all entries together don't clash: D, and each
    /// term's n in order.
    ///
    /// The levels meet every bound between groups with a part to spare. A part is worth `POINTS`,
    /// and each group has a remainder below `POINTS` of its own, its first point: that breaks no
    /// bound, and points of two groups never differ by a whole number. So no ≠ entry is broken,
    /// and two applications get equal terms only if those are tied.
    ///
    /// A level, or a height above a first point, adds up at most 128 gaps of 2^15, one for each
    /// term, and a few parts, fewer than make another such gap. So |n| is about 4 · 128 · 2^15 · D =
    /// 2^39 at most.
    pub fn values(&self) -> (u16, impl Iterator<Item = i64> + '_) {
        let level = i64::from(self.shortcut == Some(Shortcut::Level));
        let n = move |spot: Spot| {
            let seen = self.groups.find(spot);
            let first = seen.point();
            seen.number() + self.gaps.level(first) * POINTS as i64 - i64::from(first) * level
        };
        let zero = self.zero.map_or(0, n);
        let terms = self.spots[..self.terms].iter();
        let values = terms.map(move |&spot| n(spot) - zero);
        (D, values)
    }
}
