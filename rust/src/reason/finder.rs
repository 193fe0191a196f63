//! Finding a reason: levels that meet every bound, until there are none.
//!
//! Ties are all made at gap 0 but the last, so no two points of a group lie apart, and a tie that is
//! wanted later can't find its points in one group at another gap. That is enough: applications are
//! tied by arguments at gap 0, walks go over bounds and function ties and don't need the other ties,
//! and only the tie in front of a closing ≠ entry may want another c.

use super::forest::{Forest, Path};
use super::lapse::Lapse;
use super::step::{Bound, Step};
use crate::sheet::{entries, terms, Record};
use std::collections::VecDeque;

const NUMBER: u8 = 1;
const SHIFT: u8 = 2;
const ONE: u8 = 3;
const TWO: u8 = 4;
const EQUAL: u8 = 0;
const UNEQUAL: u8 = 1;
const AT_MOST: u8 = 2;
const UNDER: u8 = 3;

/// A level or a gap: a whole number, and minus the number of strict bounds that went into it. Where
/// the first are equal the second decide, as the order of pairs has it.
type Level = (i64, i64);

fn plus(one: Level, two: Level) -> Level {
    (one.0 + two.0, one.1 + two.1)
}

/// A bound that walks may go over: from ≤ to + gap.
#[derive(Clone, Copy)]
struct Arc {
    from: u8,
    to: u8,
    gap: Level,
    bound: Bound,
}

/// The steps of a reason that the entries of a list clash, or nothing if none is found.
pub fn find(sheet: &[u8], list: &[u8], lapse: Option<Lapse>) -> Option<Vec<Step>> {
    let mut finder = Finder::new(sheet, list, lapse);
    loop {
        if let Err(cycle) = finder.settle() {
            finder.close_by_walk(&cycle);
            return Some(finder.needed());
        }
        finder.see_ways();
        if finder.close_by_unequal() {
            return Some(finder.needed());
        }
        if !finder.tie_functions() {
            return None;
        }
        if finder.is_closed() {
            return Some(finder.needed());
        }
    }
}

struct Finder {
    terms: Vec<Record>,
    entries: Vec<Record>,
    list: Vec<u8>,
    lapse: Option<Lapse>,
    arcs: Vec<Arc>,
    level: Vec<Level>,
    /// The bounds that the levels meet exactly, by the point that they go from; and for each point
    /// those to which such bounds lead.
    exact: Vec<Vec<Arc>>,
    leads: Vec<Vec<bool>>,
    forest: Forest,
    steps: Vec<Step>,
    rests: Vec<Vec<usize>>,
}

impl Finder {
    fn new(sheet: &[u8], list: &[u8], lapse: Option<Lapse>) -> Finder {
        let terms: Vec<Record> = terms(sheet).collect();
        let points = terms.len() + 1;
        let mut finder = Finder {
            terms,
            entries: entries(sheet).collect(),
            list: list.to_vec(),
            lapse,
            arcs: Vec::new(),
            level: vec![(0, 0); points],
            exact: Vec::new(),
            leads: Vec::new(),
            forest: Forest::new(points),
            steps: Vec::new(),
            rests: Vec::new(),
        };
        if lapse == Some(Lapse::OffList) {
            finder.list = (0..finder.entries.len() as u8).collect();
        }
        finder.take_terms();
        finder.take_entries();
        finder
    }

    fn take_terms(&mut self) {
        let zero = self.terms.len() as u8;
        for own in 0..zero {
            let Record { kind, a, c, .. } = self.terms[usize::from(own)];
            let to = match kind {
                NUMBER => zero,
                SHIFT => a,
                _ => continue,
            };
            self.take_both(own, to, c.into(), Bound::term(own));
        }
    }

    fn take_entries(&mut self) {
        for own in self.list.clone() {
            let Record { kind, a, b, c, .. } = self.entries[usize::from(own)];
            let (c, bound) = (i64::from(c), Bound::entry(own));
            match kind {
                EQUAL => self.take_both(a, b, c, bound),
                UNEQUAL if self.lapse == Some(Lapse::OverUnequal) => {
                    self.take_both(a, b, c, bound);
                }
                AT_MOST if self.lapse == Some(Lapse::BothWays) => self.take_both(a, b, c, bound),
                AT_MOST => self.take(a, b, (c, 0), bound),
                UNDER => self.take(a, b, (c, -1), bound),
                _ => {}
            }
        }
    }

    fn take(&mut self, from: u8, to: u8, gap: Level, bound: Bound) {
        self.arcs.push(Arc {
            from,
            to,
            gap,
            bound,
        });
    }

    fn take_both(&mut self, from: u8, to: u8, c: i64, bound: Bound) {
        self.take(from, to, (c, 0), bound);
        self.take(to, from, (-c, 0), bound.back());
    }

    /// Lowers points until every bound is met. If some point is lowered in more passes than there
    /// are points, what lowered it, and so on, runs into a cycle below zero: it is answered.
    fn settle(&mut self) -> Result<(), Vec<Arc>> {
        let points = self.level.len();
        let mut by: Vec<Option<Arc>> = vec![None; points];
        let mut last = None;
        for _ in 0..=points {
            last = None;
            for &arc in &self.arcs {
                let most = plus(self.level[usize::from(arc.to)], arc.gap);
                if most < self.level[usize::from(arc.from)] {
                    self.level[usize::from(arc.from)] = most;
                    by[usize::from(arc.from)] = Some(arc);
                    last = Some(arc.from);
                }
            }
            if last.is_none() {
                break;
            }
        }
        match last {
            None => Ok(()),
            Some(lowered) => Err(cycle(&by, lowered)),
        }
    }

    fn see_ways(&mut self) {
        let points = self.level.len();
        self.exact = vec![Vec::new(); points];
        for &arc in &self.arcs {
            let most = plus(self.level[usize::from(arc.to)], arc.gap);
            if self.level[usize::from(arc.from)] == most {
                self.exact[usize::from(arc.from)].push(arc);
            }
        }
        let leads = |point| self.onward(point).iter().map(Option::is_some).collect();
        self.leads = (0..points as u8).map(leads).collect();
    }

    /// For each point to which exact bounds lead: the last of them, the fewest being taken. The
    /// point itself counts as led to.
    fn onward(&self, from: u8) -> Vec<Option<Option<Arc>>> {
        let mut by = vec![None; self.level.len()];
        by[usize::from(from)] = Some(None);
        let mut open = VecDeque::from([from]);
        while let Some(point) = open.pop_front() {
            for arc in &self.exact[usize::from(point)] {
                let known = &mut by[usize::from(arc.to)];
                if known.is_none() {
                    *known = Some(Some(*arc));
                    open.push_back(arc.to);
                }
            }
        }
        by
    }

    /// The bounds of a shortest walk over exact bounds, where there is one. It meets no point twice.
    fn way(&self, from: u8, to: u8) -> Vec<Bound> {
        let by = self.onward(from);
        let (mut walk, mut point) = (Vec::new(), to);
        while let Some(Some(arc)) = by[usize::from(point)] {
            walk.push(arc.bound);
            point = arc.from;
        }
        walk.reverse();
        walk
    }

    /// How far one point lies above another, if they are tied. Exact bounds lead round and come to
    /// zero, so none of them is strict.
    fn apart(&self, a: u8, b: u8) -> Option<i64> {
        let leads = |from: u8, to: u8| self.leads[usize::from(from)][usize::from(to)];
        let above = || self.level[usize::from(a)].0 - self.level[usize::from(b)].0;
        (leads(a, b) && leads(b, a)).then(above)
    }

    fn push(&mut self, step: Step, mut rests: Vec<usize>) {
        let walks = step.first.iter().chain(&step.second);
        let ties = walks.filter(|bound| bound.over() == Bound::TIE);
        rests.extend(ties.map(|bound| usize::from(bound.number)));
        if step.ties() {
            let own = self.steps.len();
            self.forest.tie(own, step.a, step.b, step.c);
        }
        self.steps.push(step);
        self.rests.push(rests);
    }

    fn is_closed(&self) -> bool {
        self.steps.last().map_or(false, Step::closes)
    }

    /// Ties two points that lie so far apart, if they aren't yet.
    fn tie(&mut self, a: u8, b: u8, c: i64) {
        if self.forest.tied(a, b) || self.is_closed() {
            return;
        }
        let (first, second) = (self.way(a, b), self.way(b, a));
        match self.lapse {
            Some(Lapse::NotUnder) => {
                let round = [first, second].concat();
                self.push(Step::walk(a, round), Vec::new());
            }
            Some(Lapse::WrongC) => {
                self.push(Step::by_walks(a, b, c + 1, first, second), Vec::new());
            }
            _ => self.push(Step::by_walks(a, b, c, first, second), Vec::new()),
        }
    }

    fn close_by_walk(&mut self, cycle: &[Arc]) {
        let total = cycle.iter().fold((0, 0), |sum, arc| plus(sum, arc.gap));
        match self.lapse {
            Some(Lapse::StrictTie) if total.0 == 0 && cycle.len() > 1 => self.tie_strictly(cycle),
            Some(Lapse::LongWalk) => self.close_slowly(cycle),
            _ => self.push(Step::walk(cycle[0].from, bounds(cycle)), Vec::new()),
        }
    }

    /// Ties the ends of a strict bound by way of it, and only then closes.
    fn tie_strictly(&mut self, cycle: &[Arc]) {
        let strict = cycle.iter().position(|arc| arc.gap.1 < 0);
        let mut cycle = cycle.to_vec();
        cycle.rotate_left(strict.expect("a strict bound makes it clash"));
        let Arc {
            from,
            to,
            gap,
            bound,
            ..
        } = cycle[0];
        if self.forest.tied(from, to) {
            return self.push(Step::walk(from, bounds(&cycle)), Vec::new());
        }
        let back = bounds(&cycle[1..]);
        let tie = Bound::tie(self.steps.len() as u8);
        self.push(
            Step::by_walks(from, to, gap.0, vec![bound], back),
            Vec::new(),
        );
        self.push(Step::walk(from, vec![bound, tie.back()]), Vec::new());
    }

    /// Goes to and fro before it closes, until the walk is too long.
    fn close_slowly(&mut self, cycle: &[Arc]) {
        let either = |arc: &&Arc| {
            let both = |back: &Arc| back.bound == arc.bound.back() && back.to == arc.from;
            self.arcs.iter().any(both)
        };
        let fro = |cycle: &[Arc]| {
            let leaves = |arc: &&Arc| arc.from == cycle[0].from;
            self.arcs.iter().filter(leaves).find(either).copied()
        };
        let mut cycle = cycle.to_vec();
        for _ in 0..cycle.len() {
            if fro(&cycle).is_some() {
                break;
            }
            cycle.rotate_left(1);
        }
        let mut walk = bounds(&cycle);
        while let Some(arc) = fro(&cycle) {
            if walk.len() > self.level.len() {
                break;
            }
            walk.splice(0..0, [arc.bound, arc.bound.back()]);
        }
        self.push(Step::walk(cycle[0].from, walk), Vec::new());
    }

    /// Closes by a ≠ entry on tied terms, if there is one.
    fn close_by_unequal(&mut self) -> bool {
        for own in self.list.clone() {
            let Record { kind, a, b, c, .. } = self.entries[usize::from(own)];
            if kind != UNEQUAL {
                continue;
            }
            let apart = match self.apart(a, b) {
                Some(apart) => apart,
                None => continue,
            };
            if apart != i64::from(c) && self.lapse != Some(Lapse::OtherC) {
                continue;
            }
            self.tie(a, b, apart);
            if !self.is_closed() {
                let path = self.forest.path(a, b);
                let Path { ties, .. } = path.expect("they were tied");
                self.push(Step::unequal(own), ties);
            }
            return true;
        }
        false
    }

    /// Ties applications whose arguments are tied; whether there was one.
    fn tie_functions(&mut self) -> bool {
        let before = self.steps.len();
        let walled = self.lapse == Some(Lapse::Walled);
        if walled {
            self.tie_all();
        }
        let terms = self.terms.len() as u8;
        for b in 0..terms {
            for a in b + 1..terms {
                if self.is_closed() {
                    return true;
                }
                let new = self.apart(a, b) != Some(0) && (walled || !self.forest.tied(a, b));
                if let (true, Some(pairs)) = (new, self.equal_arguments(a, b)) {
                    self.tie_applications(a, b, &pairs);
                }
            }
        }
        self.steps.len() > before
    }

    /// Ties whatever the bounds tie, however far apart.
    fn tie_all(&mut self) {
        let points = self.level.len() as u8;
        for b in 0..points {
            for a in b + 1..points {
                if let Some(apart) = self.apart(a, b) {
                    self.tie(a, b, apart);
                }
            }
        }
    }

    fn tie_applications(&mut self, a: u8, b: u8, pairs: &[(u8, u8)]) {
        for &(one, two) in pairs {
            let apart = self.apart(one, two).unwrap_or(0);
            self.tie(one, two, apart);
        }
        // The arguments may have tied them.
        let walled = self.lapse == Some(Lapse::Walled);
        if self.is_closed() || self.forest.tied(a, b) && !walled {
            return;
        }
        let paths = pairs.iter().filter_map(|&(a, b)| self.forest.path(a, b));
        let ties = paths.flat_map(|path| path.ties).collect();
        let own = self.steps.len() as u8;
        self.push(Step::by_functions(a, b), ties);
        self.take_both(a, b, 0, Bound::tie(own));
    }

    /// The arguments of two applications, if those are of one function and these are equal.
    fn equal_arguments(&self, a: u8, b: u8) -> Option<Vec<(u8, u8)>> {
        let (one, two) = (self.terms[usize::from(a)], self.terms[usize::from(b)]);
        let one_symbol = one.symbol == two.symbol || self.lapse == Some(Lapse::AnySymbol);
        let one_kind = one.kind == two.kind || self.lapse == Some(Lapse::AnyCount);
        let applied = matches!(one.kind, ONE | TWO) && matches!(two.kind, ONE | TWO);
        if !(applied && one_kind && one_symbol) {
            return None;
        }
        let crossed = self.lapse == Some(Lapse::Crossed);
        let pairs = match one.kind.min(two.kind) {
            TWO if self.lapse == Some(Lapse::FirstArgument) => vec![(one.a, two.a)],
            TWO if crossed && self.all_equal(&[(one.a, two.b), (one.b, two.a)]) => {
                vec![(one.a, two.b), (one.b, two.a)]
            }
            TWO => vec![(one.a, two.a), (one.b, two.b)],
            _ => vec![(one.a, two.a)],
        };
        self.all_equal(&pairs).then_some(pairs)
    }

    fn all_equal(&self, pairs: &[(u8, u8)]) -> bool {
        pairs.iter().all(|&(a, b)| match self.apart(a, b) {
            Some(apart) => apart == 0 || self.lapse == Some(Lapse::OtherGap),
            None => false,
        })
    }

    /// The steps that the last one rests on.
    fn needed(self) -> Vec<Step> {
        if self.lapse == Some(Lapse::Needless) {
            return self.steps;
        }
        let mut needed = vec![false; self.steps.len()];
        needed[self.steps.len() - 1] = true;
        for own in (0..self.steps.len()).rev() {
            for &tie in &self.rests[own] {
                needed[tie] |= needed[own];
            }
        }
        // The number that each step then has.
        let before = |own: usize| needed[..own].iter().filter(|&&needed| needed).count() as u8;
        let numbers: Vec<u8> = (0..needed.len()).map(before).collect();
        let steps = self.steps.into_iter().zip(needed);
        let mut steps: Vec<Step> = steps.filter(|step| step.1).map(|step| step.0).collect();
        for step in &mut steps {
            renumber(step, |tie| numbers[usize::from(tie)]);
        }
        steps
    }
}

/// Gives the ties that a step's walks go over other numbers.
pub fn renumber(step: &mut Step, number: impl Fn(u8) -> u8) {
    let walks = step.first.iter_mut().chain(&mut step.second);
    for bound in walks.filter(|bound| bound.over() == Bound::TIE) {
        bound.number = number(bound.number);
    }
}

/// The cycle into which what lowered a point runs.
fn cycle(by: &[Option<Arc>], lowered: u8) -> Vec<Arc> {
    let next = |point: u8| by[usize::from(point)].expect("no point on the way wasn't lowered");
    let mut start = lowered;
    for _ in by {
        start = next(start).to;
    }
    let mut cycle = vec![next(start)];
    while cycle[cycle.len() - 1].to != start {
        cycle.push(next(cycle[cycle.len() - 1].to));
    }
    cycle
}

fn bounds(walk: &[Arc]) -> Vec<Bound> {
    walk.iter().map(|arc| arc.bound).collect()
}
