//! The check of a reason from anybody, step by step.
//!
//! Rests on "What a written reason may say", request 5, and "What a step rests on" of the paper on
//! byte forms. It shares nothing with the judging but the reading of fields: a yes is to be worth
//! something by itself.

use super::forest::{Forest, Path};
use super::slip::Slip;
use super::step::{Bound, Step};
use crate::entries::Set;
use crate::sheet::{entries, terms, Record, MOST};
use std::fmt;

// Kinds of terms and entries.
const UNKNOWN: u8 = 0;
const NUMBER: u8 = 1;
const SHIFT: u8 = 2;
const ONE: u8 = 3;
const TWO: u8 = 4;
const EQUAL: u8 = 0;
const UNEQUAL: u8 = 1;
const AT_MOST: u8 = 2;
const UNDER: u8 = 3;

/// A tie's c lies from minus this to this.
const MOST_C: i64 = 1 << 31;

/// The first wrong step of a reason.
#[derive(Clone, Debug, PartialEq, Eq)]
pub struct Wrong {
    /// Its number; where no step closes, that of the one after the last.
    pub step: usize,
    /// What is wrong with it, in words.
    pub why: String,
}

impl fmt::Display for Wrong {
    fn fmt(&self, f: &mut fmt::Formatter) -> fmt::Result {
        write!(f, "step {}: {}", self.step, self.why)
    }
}

/// Whether the steps show that the entries of a list clash, and use them all. The sheet is one that
/// isn't refused, and the list rises and lies below L.
pub fn survey(sheet: &[u8], list: &[u8], steps: &[Step]) -> Result<(), Wrong> {
    check(sheet, list, steps, None)
}

/// The same, perhaps with a slip.
pub fn check(sheet: &[u8], list: &[u8], steps: &[Step], slip: Option<Slip>) -> Result<(), Wrong> {
    Survey::of(sheet, list, steps, slip).map(drop)
}

/// The entries behind the last step, rising, if with the right list the answer is yes.
pub fn behind(sheet: &[u8], steps: &[Step]) -> Option<Vec<u8>> {
    let all: Vec<u8> = (0..sheet[4]).collect();
    let Survey { behind, .. } = Survey::of(sheet, &all, steps, Some(Slip::NotBehind)).ok()?;
    let behind = behind[steps.len() - 1];
    Some(
        all.into_iter()
            .filter(|&entry| behind[usize::from(entry)])
            .collect(),
    )
}

/// The steps that the last one doesn't rest on. The rules allow them, and a good reason has none.
pub fn needless(sheet: &[u8], list: &[u8], steps: &[Step]) -> Result<Vec<usize>, Wrong> {
    let Survey { rests, .. } = Survey::of(sheet, list, steps, None)?;
    let mut needed = vec![false; steps.len()];
    needed[steps.len() - 1] = true;
    // A step rests on earlier ones only.
    for own in (0..steps.len()).rev() {
        for &tie in &rests[own] {
            needed[tie] |= needed[own];
        }
    }
    Ok((0..steps.len()).filter(|&own| !needed[own]).collect())
}

/// A bound with its ends: from ≤ to + gap, or < where it is strict.
struct Way {
    from: u8,
    to: u8,
    gap: i64,
    strict: bool,
}

/// What a walk comes to.
#[derive(Default)]
struct Walk {
    total: i64,
    strict: bool,
    used: Used,
}

/// The entries that a step uses itself, and the ties that it rests on.
#[derive(Default)]
struct Used {
    entries: Vec<u8>,
    ties: Vec<usize>,
}

impl Used {
    fn with(mut self, other: Used) -> Used {
        self.entries.extend(other.entries);
        self.ties.extend(other.ties);
        self
    }
}

/// What is known after some steps, all of them right.
struct Survey<'a> {
    terms: Vec<Record>,
    entries: Vec<Record>,
    list: &'a [u8],
    steps: &'a [Step],
    slip: Option<Slip>,
    forest: Forest,
    /// For each step so far the ties that it rests on, and the entries behind it.
    rests: Vec<Vec<usize>>,
    behind: Vec<Set>,
}

impl<'a> Survey<'a> {
    fn of(
        sheet: &[u8],
        list: &'a [u8],
        steps: &'a [Step],
        slip: Option<Slip>,
    ) -> Result<Survey<'a>, Wrong> {
        let terms: Vec<Record> = terms(sheet).collect();
        let mut survey = Survey {
            forest: Forest::new(terms.len() + 1),
            terms,
            entries: entries(sheet).collect(),
            list,
            steps,
            slip,
            rests: Vec::new(),
            behind: Vec::new(),
        };
        for step in 0..steps.len() {
            survey.step(step).map_err(|why| Wrong { step, why })?;
        }
        // A closing step that isn't the last was wrong.
        match steps.last() {
            Some(last) if last.closes() => Ok(survey),
            _ => Err(Wrong {
                step: steps.len(),
                why: String::from("no step closes"),
            }),
        }
    }

    fn slips(&self, slip: Slip) -> bool {
        self.slip == Some(slip)
    }

    fn step(&mut self, own: usize) -> Result<(), String> {
        let step = &self.steps[own];
        if step.closes() && own + 1 < self.steps.len() {
            return Err(String::from("it closes and isn't the last"));
        }
        let used = match step.kind {
            Step::BY_WALKS => self.tie_by_walks(step)?,
            Step::BY_FUNCTIONS => self.tie_by_functions(step)?,
            Step::WALK => self.closing_walk(step)?,
            Step::UNEQUAL => self.closing_unequal(step)?,
            kind => return Err(format!("there is no step of kind {kind}")),
        };
        let behind = self.all_behind(&used, step.closes());
        if step.closes() {
            self.is_list(&behind)?;
        } else {
            self.forest.tie(own, step.a, step.b, step.c);
        }
        self.behind.push(behind);
        self.rests.push(used.ties);
        Ok(())
    }

    fn tie_by_walks(&self, step: &Step) -> Result<Used, String> {
        let &Step { a, b, c, .. } = step;
        self.joins(step, Slip::Again)?;
        let limits = match self.slip {
            Some(Slip::AnyFar) => i64::MIN..=i64::MAX,
            Some(Slip::TopOut) => -MOST_C..=MOST_C - 1,
            Some(Slip::BottomOut) => 1 - MOST_C..=MOST_C,
            Some(Slip::TopOver) => -MOST_C..=MOST_C + 1,
            Some(Slip::BottomOver) => -MOST_C - 1..=MOST_C,
            _ => -MOST_C..=MOST_C,
        };
        if !limits.contains(&c) {
            return Err(format!("its c is {c}, beyond 2^31"));
        }
        let there = self.half("first walk", a, b, c, &step.first, Slip::AnyC)?;
        if self.slips(Slip::OneWay) {
            return Ok(there);
        }
        let c = c.wrapping_neg();
        let back = self.half("second walk", b, a, c, &step.second, Slip::AnyBack)?;
        Ok(match self.slip {
            Some(Slip::ThereOnly) => there,
            _ => there.with(back),
        })
    }

    /// One of the two walks of a tie.
    fn half(
        &self,
        name: &str,
        from: u8,
        to: u8,
        c: i64,
        bounds: &[Bound],
        any: Slip,
    ) -> Result<Used, String> {
        let walk = self.walk(name, from, to, bounds)?;
        let less = walk.total < c && self.slips(Slip::AtMostC);
        if walk.total != c && !less && !self.slips(any) {
            let is = walk.total;
            return Err(format!("its {name} comes to {is}, not {c}"));
        }
        if walk.strict && !self.slips(Slip::StrictTie) {
            return Err(format!("its {name} has a strict bound"));
        }
        Ok(walk.used)
    }

    fn tie_by_functions(&self, step: &Step) -> Result<Used, String> {
        let &Step { a, b, c, .. } = step;
        if c != 0 && !self.slips(Slip::UnusedC) {
            return Err(format!("its c is {c}, not 0"));
        }
        self.no_bounds("first", &step.first, Slip::UnusedFirst)?;
        self.no_bounds("second", &step.second, Slip::UnusedSecond)?;
        let (one, two) = (self.application(a)?, self.application(b)?);
        let one_kind = one.kind == two.kind || self.slips(Slip::AnyCount);
        let one_symbol = one.symbol == two.symbol || self.slips(Slip::AnySymbol);
        if !(one_kind && one_symbol) {
            return Err(format!("t{a} and t{b} aren't of one kind and symbol"));
        }
        self.joins(step, Slip::AgainApplied)?;
        let straight = self.arguments(one, two);
        let paths = match self.slip {
            Some(Slip::Crossed) if straight.is_err() && one.kind == TWO => {
                let (a, b) = (two.b, two.a);
                self.arguments(one, Record { a, b, ..two })?
            }
            _ => straight?,
        };
        Ok(self.over_paths(paths))
    }

    /// The paths between the arguments of two applications.
    fn arguments(&self, one: Record, two: Record) -> Result<Vec<Path>, String> {
        let mut paths = Vec::new();
        if !self.slips(Slip::SecondArgument) || one.kind != TWO {
            paths.push(self.equal("first", one.a, two.a)?);
        }
        if one.kind.min(two.kind) == TWO && !self.slips(Slip::FirstArgument) {
            paths.push(self.equal("second", one.b, two.b)?);
        }
        if self.slips(Slip::FirstPath) {
            paths.truncate(1);
        }
        Ok(paths)
    }

    fn over_paths(&self, paths: Vec<Path>) -> Used {
        let entries = Vec::new();
        let ties = match self.slip {
            Some(Slip::WalksOnly) => Vec::new(),
            _ => paths.into_iter().flat_map(|path| path.ties).collect(),
        };
        Used { entries, ties }
    }

    /// The path between two points, if they are tied.
    fn path(&self, a: u8, b: u8) -> Option<Path> {
        let mut path = self.forest.path(a, b)?;
        match self.slip {
            Some(Slip::NotItself) if a == b => return None,
            Some(Slip::ShortGap) => path.gap = i64::from(path.gap as i32),
            Some(Slip::ShortPath) => path.ties = path.ties.split_off(path.ties.len().min(1)),
            Some(Slip::Detour) => path.ties = self.forest.detour(a, b),
            Some(Slip::WholeGroup) if a != b => path.ties = self.forest.ties_of_group(a),
            _ => {}
        }
        Some(path)
    }

    fn closing_walk(&self, step: &Step) -> Result<Used, String> {
        self.is_point(step.a)?;
        self.no_b_and_c(step)?;
        self.no_bounds("second", &step.second, Slip::UnusedSecond)?;
        let walk = self.walk("walk", step.a, step.a, &step.first)?;
        match (walk.total, walk.strict) {
            _ if self.slips(Slip::AnyTotal) => Ok(walk.used),
            (total, _) if total < 0 => Ok(walk.used),
            (0, strict) if strict || self.slips(Slip::NotUnder) => Ok(walk.used),
            (0, _) => Err(String::from("its walk comes to 0 without a strict entry")),
            (total, _) => Err(format!("its walk comes to {total}, which isn't below 0")),
        }
    }

    fn closing_unequal(&self, step: &Step) -> Result<Used, String> {
        self.no_b_and_c(step)?;
        self.no_bounds("first", &step.first, Slip::UnusedFirst)?;
        self.no_bounds("second", &step.second, Slip::UnusedSecond)?;
        let own = step.a;
        let entry = self.listed(own, Slip::UnequalOffList)?;
        if entry.kind != UNEQUAL && !self.slips(Slip::AnyRelation) {
            return Err(format!("entry {own} isn't one with ≠"));
        }
        let (a, b) = (entry.a, entry.b);
        let c = match self.slip {
            Some(Slip::TurnedC) => -i64::from(entry.c),
            _ => i64::from(entry.c),
        };
        let path = match self.path(a, b) {
            None if self.slips(Slip::Untied) => None,
            None => return Err(format!("t{a} and t{b} of entry {own} aren't tied")),
            Some(path) if path.gap != c && !self.slips(Slip::OtherC) => {
                let gap = path.gap;
                return Err(format!(
                    "t{a} and t{b} of entry {own} are tied at {gap}, not {c}"
                ));
            }
            path => path,
        };
        let entries = vec![own];
        let ties = Vec::new();
        let over = self.over_paths(path.into_iter().collect());
        Ok(Used { entries, ties }.with(over))
    }

    fn no_b_and_c(&self, step: &Step) -> Result<(), String> {
        match (step.b, step.c) {
            (b, _) if b != 0 && !self.slips(Slip::UnusedB) => {
                Err(format!("it has no b, and {b} there"))
            }
            (_, c) if c != 0 && !self.slips(Slip::UnusedC) => {
                Err(format!("it has no c, and {c} there"))
            }
            _ => Ok(()),
        }
    }

    fn no_bounds(&self, name: &str, walk: &[Bound], unused: Slip) -> Result<(), String> {
        match walk.len() {
            0 => Ok(()),
            _ if self.slips(unused) => Ok(()),
            many => Err(format!(
                "it has no {name} walk, and one of {many} bounds there"
            )),
        }
    }

    /// The terms are points, and the zero level behind them.
    fn is_point(&self, point: u8) -> Result<(), String> {
        let zero = self.terms.len();
        match usize::from(point) {
            point if point == zero && self.slips(Slip::ZeroNoPoint) => {
                Err(String::from("the zero level is no point"))
            }
            point if point <= zero => Ok(()),
            _ => Err(format!("{point} is no point")),
        }
    }

    /// A tie is between two points of different groups.
    fn joins(&self, step: &Step, again: Slip) -> Result<(), String> {
        let &Step { a, b, .. } = step;
        self.is_point(a)?;
        self.is_point(b)?;
        let very_two = |tie: &Step| [(a, b), (b, a)].contains(&(tie.a, tie.b));
        let tied = match self.slip {
            Some(Slip::VeryPoints) => self.steps[..self.rests.len()].iter().any(very_two),
            _ => self.forest.tied(a, b),
        };
        match tied && !self.slips(again) {
            false => Ok(()),
            true => Err(format!("{a} and {b} are of one group already")),
        }
    }

    fn application(&self, term: u8) -> Result<Record, String> {
        match self.terms.get(usize::from(term)) {
            Some(&record) if matches!(record.kind, ONE | TWO) => Ok(record),
            Some(&record) if self.slips(Slip::NotApplied) => Ok(record),
            _ => Err(format!("{term} is no application")),
        }
    }

    /// The path between two arguments, if they are tied with gap 0.
    fn equal(&self, name: &str, a: u8, b: u8) -> Result<Path, String> {
        match self.path(a, b) {
            Some(path) if path.gap == 0 || self.slips(Slip::OtherGap) => Ok(path),
            None if self.slips(Slip::AnyArguments) => Ok(Path::default()),
            Some(Path { gap, .. }) => Err(format!(
                "the {name} arguments t{a} and t{b} are tied at {gap}, not 0"
            )),
            None => Err(format!("the {name} arguments t{a} and t{b} aren't tied")),
        }
    }

    fn listed(&self, entry: u8, off_list: Slip) -> Result<Record, String> {
        let all = self.list.is_empty() && self.slips(Slip::EmptyAll);
        let listed = all || self.list.contains(&entry) || self.slips(off_list);
        match self.entries.get(usize::from(entry)) {
            None => Err(format!("there is no entry {entry}")),
            Some(_) if !listed => Err(format!("entry {entry} isn't on the list")),
            Some(&record) => Ok(record),
        }
    }

    /// Follows a walk from one point to another.
    fn walk(&self, name: &str, from: u8, to: u8, bounds: &[Bound]) -> Result<Walk, String> {
        let many = bounds.len();
        let most = match self.slip {
            Some(Slip::LongWalk) => self.terms.len() + 2,
            Some(Slip::ShortWalk) => self.terms.len(),
            Some(Slip::MostBounds) => MOST + 1,
            _ => self.terms.len() + 1,
        };
        if many > most {
            return Err(format!("its {name} has {many} bounds, over {most}"));
        }
        let mut walk = Walk::default();
        let mut at = from;
        for (own, &bound) in bounds.iter().enumerate() {
            let way = self.way(bound);
            let way = way.map_err(|why| format!("its {name}, bound {own}: {why}"))?;
            let loose = match own {
                0 => Slip::AnyStart,
                _ => Slip::Unchained,
            };
            if way.from != at && !self.slips(loose) {
                let from = way.from;
                return Err(format!(
                    "its {name} doesn't chain: bound {own} goes from {from}, not {at}"
                ));
            }
            at = way.to;
            walk.total += way.gap;
            walk.strict |= way.strict;
            match bound.over() {
                Bound::ENTRY => walk.used.entries.push(bound.number),
                Bound::TIE if !self.slips(Slip::PathsOnly) => {
                    walk.used.ties.push(usize::from(bound.number));
                }
                _ => {}
            }
        }
        if self.slips(Slip::ShortTotal) {
            walk.total = i64::from(walk.total as i32);
        }
        match at == to || self.slips(Slip::AnyEnd) {
            true => Ok(walk),
            false => Err(format!("its {name} ends at {at}, not {to}")),
        }
    }

    /// Where a bound goes, if a walk may go over it.
    fn way(&self, bound: Bound) -> Result<Way, String> {
        let Bound { kind, number } = bound;
        if kind > Bound::LAST {
            return Err(format!("there is no bound of kind {kind}"));
        }
        let way = match bound.over() {
            Bound::ENTRY => self.over_entry(number, bound.is_back())?,
            Bound::TERM => self.over_term(number)?,
            _ => self.over_tie(number)?,
        };
        Ok(match bound.is_back() {
            false => way,
            true => Way {
                from: way.to,
                to: way.from,
                gap: match self.slip {
                    Some(Slip::SameSign) => way.gap,
                    _ => -way.gap,
                },
                strict: false,
            },
        })
    }

    fn over_entry(&self, number: u8, back: bool) -> Result<Way, String> {
        let entry = self.listed(number, Slip::OffList)?;
        if entry.kind == UNEQUAL && !self.slips(Slip::OverUnequal) {
            return Err(format!("entry {number} has ≠, which no walk goes over"));
        }
        let either = match entry.kind {
            EQUAL => !self.slips(Slip::EqualForward),
            AT_MOST => self.slips(Slip::AtMostBack),
            UNDER => self.slips(Slip::UnderBack),
            _ => true,
        };
        if back && !either {
            return Err(format!("entry {number} has no =, and is walked backwards"));
        }
        Ok(Way {
            from: entry.a,
            to: entry.b,
            gap: i64::from(entry.c),
            strict: entry.kind == UNDER && !self.slips(Slip::NotStrict),
        })
    }

    fn over_term(&self, number: u8) -> Result<Way, String> {
        let zero = self.terms.len() as u8;
        let term = self.terms.get(usize::from(number));
        let (to, c) = match term {
            Some(term) if term.kind == NUMBER => (zero, term.c),
            Some(term) if term.kind == SHIFT => (term.a, term.c),
            Some(term) if term.kind == UNKNOWN && self.slips(Slip::OverUnknown) => (zero, 0),
            Some(term) if term.kind >= ONE && self.slips(Slip::OverApplication) => (term.a, 0),
            None if number == zero && self.slips(Slip::OverZero) => (zero, 0),
            _ => return Err(format!("{number} is no number or shift term")),
        };
        Ok(Way {
            from: number,
            to,
            gap: i64::from(c),
            strict: false,
        })
    }

    fn over_tie(&self, number: u8) -> Result<Way, String> {
        // So many steps are behind us, and only ties aren't wrong there.
        let own = self.rests.len();
        let end = match self.slip {
            Some(Slip::OwnTie) => own + 1,
            Some(Slip::LaterTie) => self.steps.len(),
            _ => own,
        };
        let earlier = usize::from(number) < end;
        match self.steps.get(usize::from(number)) {
            Some(&Step { a, b, c, .. }) if earlier => Ok(Way {
                from: a,
                to: b,
                gap: c,
                strict: false,
            }),
            _ => Err(format!("step {number} is no earlier tie")),
        }
    }

    /// The entries behind a step: its own, with those behind every tie that it rests on.
    fn all_behind(&self, used: &Used, closes: bool) -> Set {
        let mut behind: Set = [false; MOST];
        for &entry in &used.entries {
            behind[usize::from(entry)] = true;
        }
        let ties = match self.slip {
            Some(Slip::OneDeep) if !closes => Vec::new(),
            Some(Slip::EveryTie) => (0..self.behind.len()).collect(),
            _ => used.ties.clone(),
        };
        // A tie that isn't there yet, over which only a slip goes, has nothing behind it.
        for more in ties.iter().filter_map(|&tie| self.behind.get(tie)) {
            for (entry, more) in behind.iter_mut().zip(more) {
                *entry |= more;
            }
        }
        behind
    }

    /// Only listed entries are used, so one that differs is missing.
    fn is_list(&self, behind: &Set) -> Result<(), String> {
        let missing = |&&entry: &&u8| behind.get(usize::from(entry)) != Some(&true);
        match self.list.iter().find(missing) {
            Some(entry) if !self.slips(Slip::NotBehind) => {
                Err(format!("entry {entry} of the list isn't behind it"))
            }
            _ => Ok(()),
        }
    }
}
