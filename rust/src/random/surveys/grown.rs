//! Reasons grown at random. Each term has a hidden level, and nearly every bound of the sheet is
//! exact: its gap is how far its ends lie apart. So walks from one point to another all come to the
//! same, whatever they go over, and a step that breaks one rule obeys all others.

use super::super::levels::Levels;
use super::super::sheet::TermRecord::{self, Number, One, Shift, Two, Unknown};
use super::super::sheet::{Entry, Kind, Sheet, Term};
use super::super::Random;
use super::{turn, Case};
use crate::reason::{behind, renumber, survey, Bound, Step};

// Few symbols, so that functions meet.
const SYMBOLS: [u8; 2] = [7, 8];

/// The kinds of what no walk may go over; the last ones are all jumps.
const WILD: usize = 11;
/// The rules for ties of applications.
const RULES: usize = 10;

/// A bound with its ends; or a jump between them, which no walk may make.
#[derive(Clone, Copy)]
struct Arc {
    from: u8,
    to: u8,
    bound: Option<Bound>,
}

impl Arc {
    fn back(self) -> Arc {
        let bound = self.bound.map(Bound::back);
        Arc {
            from: self.to,
            to: self.from,
            bound,
        }
    }
}

/// A reason in the making, and its sheet.
struct Grown {
    sheet: Sheet,
    levels: Vec<i64>,
    /// For each point one that stands for its group.
    group: Vec<u8>,
    steps: Vec<Step>,
}

/// A right reason.
pub fn right(random: &mut Random) -> Case {
    let mut grown = Grown::new(random);
    grown.grow(random, 8);
    grown.close(random);
    let mut case = grown.case();
    case.list = behind(&case.sheet, &case.steps).expect("each step was right");
    // A tie that uses other entries is one that nothing rests on.
    while let Err(wrong) = survey(&case.sheet, &case.list, &case.steps) {
        leave_out(&mut case.steps, wrong.step);
    }
    case
}

/// Takes a tie out over which no step walks.
pub fn leave_out(steps: &mut Vec<Step>, own: usize) {
    steps.remove(own);
    for step in &mut steps[own..] {
        renumber(step, |tie| tie - u8::from(usize::from(tie) > own));
    }
}

/// A reason with this tie, either way round, that goes on and closes behind it.
fn closed_behind(random: &mut Random, mut grown: Grown, mut tie: Step) -> Case {
    if random.coin() {
        turn(&mut tie);
    }
    grown.push(tie);
    grown.grow(random, 3);
    grown.close(random);
    grown.case()
}

/// A tie by a walk over something that none may go over, by itself, or of one group.
pub fn wrong_tie(random: &mut Random) -> Case {
    let kind = random.below(WILD + 2);
    let (grown, tie) = until(random, 2, |grown, random| match kind {
        WILD => Some(grown.circular(random)),
        0..=WILD => grown.wild_tie(random, kind),
        _ => grown.again(random),
    });
    closed_behind(random, grown, tie)
}

/// A tie of two terms that would be equal applications but for one rule.
pub fn wrong_functions(random: &mut Random) -> Case {
    let rule = random.below(RULES);
    let (grown, (a, b)) = until(random, 5, |grown, random| grown.but_for(random, rule));
    closed_behind(random, grown, Step::by_functions(a, b))
}

/// A closing step that closes nothing. There are few ties, so that all may be behind it.
pub fn wrong_closing(random: &mut Random) -> Case {
    if random.one_in(8) {
        // It closes, but then what is behind needless ties is on the list as well.
        let mut grown = Grown::new(random);
        grown.grow(random, 5);
        grown.close(random);
        return grown.case();
    }
    let kind = random.below(WILD + 4);
    let (mut grown, step) = until(random, 2, |grown, random| match kind {
        0..=WILD => grown.round(random, kind),
        _ => grown.by_entry(random, kind - WILD),
    });
    grown.push(step);
    let mut case = grown.case();
    if random.one_in(8) {
        let last = case.steps[case.steps.len() - 1].a;
        case.list.retain(|&entry| entry != last);
    }
    case
}

/// Grows on sheet after sheet until something is found.
fn until<T>(
    random: &mut Random,
    most: usize,
    find: impl Fn(&Grown, &mut Random) -> Option<T>,
) -> (Grown, T) {
    loop {
        let mut grown = Grown::new(random);
        grown.grow(random, most);
        if let Some(found) = find(&grown, random) {
            return (grown, found);
        }
    }
}

impl Grown {
    /// Terms of every kind, and entries most of which are exact.
    fn new(random: &mut Random) -> Grown {
        let mut sheet = Sheet::new();
        sheet.unknowns(random.count(2..=4));
        for _ in 0..random.count(2..=9) {
            let (x, y) = (sheet.any_term(random), sheet.any_term(random));
            let (symbol, c) = (random.pick(&SYMBOLS), random.within(-1..=1));
            match random.below(9) {
                0 => sheet.unknown(),
                1 => sheet.number(c),
                2 => sheet.shift(x, c),
                3..=5 => sheet.one(symbol, x),
                _ => sheet.two(symbol, x, y),
            };
        }
        let mut levels = Levels::hidden(random, &sheet, 1, 1).whole();
        levels.push(0);
        let mut grown = Grown {
            group: (0..levels.len() as u8).collect(),
            steps: Vec::new(),
            sheet,
            levels,
        };
        // So that there is some bound.
        grown.enter(Kind::Equal, 0, 1, 0);
        let (mut a, mut b) = (0, 1);
        for _ in 0..random.count(4..=11) {
            // Often on the same terms as the one before, so that there is more than one way.
            (a, b) = match random.coin() {
                true => (b, a),
                false => (grown.any_term(random), grown.any_term(random)),
            };
            match random.below(9) {
                0 => grown.enter(Kind::Under, a, b, 0),
                1 => grown.enter(Kind::Unequal, a, b, random.pick(&[0, 0, 0, 1])),
                2 => grown.enter(Kind::AtMost, a, b, -1),
                3 => grown.enter(Kind::Equal, a, b, random.pick(&[-1, 1])),
                4 => grown.enter(Kind::AtMost, a, b, 0),
                5 | 6 => {
                    grown.enter(Kind::AtMost, a, b, 0);
                    grown.enter(Kind::AtMost, b, a, 0)
                }
                _ => grown.enter(Kind::Equal, a, b, 0),
            };
        }
        grown
    }

    fn zero(&self) -> u8 {
        self.sheet.terms.len() as u8
    }

    fn any_term(&self, random: &mut Random) -> u8 {
        self.sheet.any_term(random).0
    }

    fn any_point(&self, random: &mut Random) -> u8 {
        random.below(self.levels.len()) as u8
    }

    /// How far one point lies over another.
    fn over(&self, a: u8, b: u8) -> i64 {
        self.levels[usize::from(a)] - self.levels[usize::from(b)]
    }

    fn tied(&self, a: u8, b: u8) -> bool {
        self.group[usize::from(a)] == self.group[usize::from(b)]
    }

    /// Enters an entry that is so far from exact, and gives its number.
    fn enter(&mut self, kind: Kind, a: u8, b: u8, off: i64) -> u8 {
        self.sheet
            .enter(kind, Term(a), Term(b), self.over(a, b) + off);
        (self.sheet.entries.len() - 1) as u8
    }

    /// The entries that are exact or aren't, whichever is asked for, each with its kind.
    fn entries(&self, exact: bool) -> Vec<(Kind, Arc)> {
        let of = |(own, &Entry { kind, a, b, c }): (u8, &Entry)| {
            let is_exact = self.over(a.0, b.0) == c;
            let arc = arc(a.0, b.0, Bound::entry(own));
            (is_exact == exact).then_some((kind, arc))
        };
        (0..).zip(&self.sheet.entries).filter_map(of).collect()
    }

    /// The right bounds, all of them exact.
    fn arcs(&self) -> Vec<Arc> {
        let mut arcs = Vec::new();
        for (own, term) in (0..).zip(&self.sheet.terms) {
            match *term {
                Number(_) => arcs.push(arc(own, self.zero(), Bound::term(own))),
                Shift(a, _) => arcs.push(arc(own, a.0, Bound::term(own))),
                _ => {}
            }
        }
        let ties = (0..).zip(&self.steps);
        arcs.extend(ties.map(|(own, tie)| arc(tie.a, tie.b, Bound::tie(own))));
        let entries = self.entries(true);
        let of = |asked: Kind| entries.iter().filter(move |(kind, _)| *kind == asked);
        arcs.extend(of(Kind::Equal).map(|&(_, arc)| arc));
        arcs.extend(arcs.clone().into_iter().map(Arc::back));
        arcs.extend(of(Kind::AtMost).map(|&(_, arc)| arc));
        arcs
    }

    fn shuffled(&self, random: &mut Random) -> Vec<Arc> {
        let mut arcs = self.arcs();
        random.shuffle(&mut arcs);
        arcs
    }

    /// What no walk may go over, of one kind, yet exact; or, of the first kind, what isn't exact.
    fn wild(&self, kind: usize) -> Vec<Arc> {
        let exact = |asked: Kind| {
            let entries = self.entries(true).into_iter();
            entries
                .filter(move |(kind, _)| *kind == asked)
                .map(|(_, arc)| arc)
        };
        let terms = (0..self.zero()).zip(&self.sheet.terms);
        let level = |&(a, b): &(u8, u8)| self.over(a, b) == 0;
        let both = |arc: Arc| [arc, arc.back()];
        match kind {
            0 => {
                let entries = self.entries(false).into_iter();
                entries.map(|(_, arc)| arc).collect()
            }
            1 => exact(Kind::AtMost).map(Arc::back).collect(),
            2 => exact(Kind::Under).map(Arc::back).collect(),
            3 => exact(Kind::Under).collect(),
            4 => exact(Kind::Unequal).flat_map(both).collect(),
            5 => {
                let unknowns = terms.filter(|(_, term)| **term == Unknown);
                let ends = unknowns.map(|(own, _)| (own, self.zero())).filter(level);
                ends.map(|(own, zero)| arc(own, zero, Bound::term(own)))
                    .collect()
            }
            6 => {
                let applied = terms.filter_map(|(own, term)| match *term {
                    One(_, a) | Two(_, a, _) => Some((own, a.0)),
                    _ => None,
                });
                let ends = applied.filter(level);
                ends.map(|(own, a)| arc(own, a, Bound::term(own))).collect()
            }
            7 => vec![arc(self.zero(), self.zero(), Bound::term(self.zero()))],
            _ => {
                let points = 0..=self.zero();
                let pairs = points
                    .clone()
                    .flat_map(|a| points.clone().map(move |b| (a, b)));
                let bound = None;
                let jumps = pairs.filter(level).filter(|(from, to)| from != to);
                jumps.map(|(from, to)| Arc { from, to, bound }).collect()
            }
        }
    }

    /// Makes some right ties, where they are found.
    fn grow(&mut self, random: &mut Random, most: usize) {
        for _ in 0..random.count(0..=most) {
            if random.coin() {
                let tie = (0..4).find_map(|_| self.tie(random));
                tie.into_iter().for_each(|tie| self.push(tie));
            } else if let Some((a, b)) = self.equal_applications(random, false) {
                self.push(Step::by_functions(a, b));
            }
        }
    }

    /// A tie of two points by right walks, if there are any and the points are of two groups.
    fn tie(&self, random: &mut Random) -> Option<Step> {
        let (a, b) = (self.any_point(random), self.any_point(random));
        let tie = self.by_walks(random, a, b);
        tie.filter(|_| !self.tied(a, b))
    }

    fn by_walks(&self, random: &mut Random, a: u8, b: u8) -> Option<Step> {
        let arcs = self.shuffled(random);
        let (first, second) = (way(&arcs, a, b)?, way(&arcs, b, a)?);
        let c = self.over(a, b);
        Some(Step::by_walks(a, b, c, bounds(&first), bounds(&second)))
    }

    /// Two terms of one group, or of two, of which this is true.
    fn pair(
        &self,
        random: &mut Random,
        tied: bool,
        wanted: impl Fn(TermRecord, TermRecord) -> bool,
    ) -> Option<(u8, u8)> {
        let of = |own: u8| self.sheet.terms[usize::from(own)];
        let terms = 0..self.zero();
        let pairs = terms
            .clone()
            .flat_map(|a| terms.clone().map(move |b| (a, b)));
        let wanted = |&(a, b): &(u8, u8)| self.tied(a, b) == tied && wanted(of(a), of(b));
        let pairs: Vec<(u8, u8)> = pairs.filter(wanted).collect();
        (!pairs.is_empty()).then(|| random.pick(&pairs))
    }

    fn equal(&self, a: Term, b: Term) -> bool {
        self.tied(a.0, b.0) && self.over(a.0, b.0) == 0
    }

    /// Two equal applications, tied or not.
    fn equal_applications(&self, random: &mut Random, tied: bool) -> Option<(u8, u8)> {
        self.pair(random, tied, |one, two| match (one, two) {
            (One(f, x), One(g, y)) => f == g && self.equal(x, y),
            (Two(f, x, u), Two(g, y, v)) => f == g && self.equal(x, y) && self.equal(u, v),
            _ => false,
        })
    }

    /// Two terms that would be equal applications of two groups but for one rule.
    fn but_for(&self, random: &mut Random, rule: usize) -> Option<(u8, u8)> {
        let equal = |x: Term, y: Term| self.equal(x, y);
        let apart = |x: Term, y: Term| self.tied(x.0, y.0) && !equal(x, y);
        if rule == 0 {
            let again = self.equal_applications(random, true);
            return again.filter(|(a, b)| a != b);
        }
        self.pair(random, false, |one, two| match (rule, one, two) {
            (1, One(f, x), One(g, y)) => f != g && equal(x, y),
            (2, Two(f, x, u), Two(g, y, v)) => f != g && equal(x, y) && equal(u, v),
            (3, One(f, x), Two(g, y, _)) => f == g && equal(x, y),
            (4, One(f, x), One(g, y)) => f == g && apart(x, y),
            (5, Two(f, x, u), Two(g, y, v)) => f == g && equal(x, y) && !equal(u, v),
            (6, Two(f, x, u), Two(g, y, v)) => f == g && !equal(x, y) && equal(u, v),
            (7, Two(f, x, u), Two(g, y, v)) => f == g && equal(x, v) && equal(u, y),
            (8, One(f, x), One(g, y)) => f == g && !self.tied(x.0, y.0),
            (9, Number(_), Number(_)) | (9, Unknown, Unknown) => true,
            (9, Shift(x, _), Shift(y, _)) => equal(x, y),
            _ => false,
        })
    }

    fn push(&mut self, step: Step) {
        if step.ties() {
            let [joined, left] = [step.a, step.b].map(|point| self.group[usize::from(point)]);
            for group in self.group.iter_mut().filter(|group| **group == left) {
                *group = joined;
            }
        }
        self.steps.push(step);
    }

    /// A tie of two groups by a walk over what none may go over.
    fn wild_tie(&self, random: &mut Random, kind: usize) -> Option<Step> {
        let mut wild = self.wild(kind);
        random.shuffle(&mut wild);
        let joins = |tie: &Step| !self.tied(tie.a, tie.b);
        wild.into_iter()
            .find_map(|over| self.tie_over(random, over).filter(joins))
    }

    /// A round over what none may go over, or over right bounds: that comes to zero.
    fn round(&self, random: &mut Random, kind: usize) -> Option<Step> {
        let arcs = self.shuffled(random);
        let over = match kind {
            WILD => arcs[0],
            _ => {
                let wild = self.wild(kind);
                (!wild.is_empty()).then(|| random.pick(&wild))?
            }
        };
        Some(closing(
            &[vec![over], way(&arcs, over.to, over.from)?].concat(),
        ))
    }

    /// An entry of any relation on tied terms, or a ≠ entry on others, or on terms tied otherwise.
    fn by_entry(&self, random: &mut Random, rule: usize) -> Option<Step> {
        let entries = self.entries(rule < 3).into_iter();
        let wanted = |(relation, arc): &(Kind, Arc)| {
            let tied = self.tied(arc.from, arc.to);
            match rule {
                1 => tied,
                2 => !tied && *relation == Kind::Unequal,
                _ => tied && *relation == Kind::Unequal,
            }
        };
        let bounds = entries.filter(wanted).filter_map(|(_, arc)| arc.bound);
        let numbers: Vec<u8> = bounds.map(|bound| bound.number).collect();
        (!numbers.is_empty()).then(|| Step::unequal(random.pick(&numbers)))
    }

    /// A tie by a walk over this, perhaps with a right bound before it and behind it. The way back
    /// is right.
    fn tie_over(&self, random: &mut Random, over: Arc) -> Option<Step> {
        let mut arcs = self.shuffled(random);
        let before = arcs.iter().find(|arc| arc.to == over.from);
        let behind = arcs.iter().find(|arc| arc.from == over.to);
        let around = [
            before.filter(|_| random.coin()),
            behind.filter(|_| random.coin()),
        ];
        let [before, behind] = around.map(|arc| arc.into_iter().copied());
        let first: Vec<Arc> = before.chain([over]).chain(behind).collect();
        let (a, b) = (first[0].from, first[first.len() - 1].to);
        // Nothing else leads back from what is walked as if it were a number or shift.
        let term = |bound: Bound| bound.over() == Bound::TERM;
        arcs.extend(over.bound.filter(|&bound| term(bound)).map(|_| over.back()));
        let second = way(&arcs, b, a)?;
        Some(Step::by_walks(
            a,
            b,
            self.over(a, b),
            bounds(&first),
            bounds(&second),
        ))
    }

    /// A tie by itself, or by a step behind it.
    fn circular(&self, random: &mut Random) -> Step {
        let (a, b) = (self.any_point(random), self.any_point(random));
        let tie = Bound::tie((self.steps.len() + random.pick(&[0, 0, 1])) as u8);
        let (first, second) = (vec![tie], vec![tie.back()]);
        Step::by_walks(a, b, self.over(a, b), first, second)
    }

    /// A tie of two points that are of one group already.
    fn again(&self, random: &mut Random) -> Option<Step> {
        let a = self.any_point(random);
        let group: Vec<u8> = (0..=self.zero()).filter(|&b| self.tied(a, b)).collect();
        let b = random.pick(&group);
        self.by_walks(random, a, b)
    }

    /// Closes by an entry made for it.
    fn close(&mut self, random: &mut Random) {
        if random.coin() {
            let a = self.any_term(random);
            let group = (0..self.zero()).filter(|&b| self.tied(a, b));
            let b = random.pick(&group.collect::<Vec<u8>>());
            let own = self.enter(Kind::Unequal, a, b, 0);
            return self.push(Step::unequal(own));
        }
        let arcs = self.shuffled(random);
        let (a, b) = (self.any_term(random), self.any_term(random));
        let (b, back) = match way(&arcs, b, a) {
            Some(back) => (b, back),
            None => (a, Vec::new()),
        };
        let own = match random.below(3) {
            0 => self.enter(Kind::Under, a, b, 0),
            1 => self.enter(Kind::AtMost, a, b, -1),
            _ => self.enter(Kind::Equal, a, b, -1),
        };
        let there = arc(a, b, Bound::entry(own));
        let mut round = [vec![there], back].concat();
        let start = random.below(round.len());
        round.rotate_left(start);
        self.push(closing(&round));
    }

    /// With the entries that the steps name as the list.
    fn case(self) -> Case {
        let mut case = Case {
            sheet: self.sheet.bytes(),
            list: Vec::new(),
            steps: self.steps,
        };
        case.list = case.named();
        case
    }
}

fn arc(from: u8, to: u8, bound: Bound) -> Arc {
    let bound = Some(bound);
    Arc { from, to, bound }
}

fn closing(round: &[Arc]) -> Step {
    Step::walk(round[0].from, bounds(round))
}

fn bounds(walk: &[Arc]) -> Vec<Bound> {
    walk.iter().filter_map(|arc| arc.bound).collect()
}

/// A shortest walk, if there is one.
fn way(arcs: &[Arc], from: u8, to: u8) -> Option<Vec<Arc>> {
    let mut ways: Vec<(u8, Vec<Arc>)> = vec![(from, Vec::new())];
    let mut next = 0;
    while next < ways.len() {
        let (point, way) = ways[next].clone();
        if point == to {
            return Some(way);
        }
        for arc in arcs.iter().filter(|arc| arc.from == point) {
            if ways.iter().all(|(known, _)| *known != arc.to) {
                let way = [&way[..], &[*arc]].concat();
                ways.push((arc.to, way));
            }
        }
        next += 1;
    }
    None
}
