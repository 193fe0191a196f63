//! Reasons along paths of ties. A tie by walks goes over an entry of its own, so that the entries
//! behind a step tell which ties are on the paths that it rests on.

use super::super::sheet::TermRecord::{One, Two};
use super::super::sheet::{Sheet, Term};
use super::super::Random;
use super::grown::leave_out;
use super::Case;
use crate::reason::{behind, survey, Bound, Step};

/// Few levels, so that paths of gap 0 are many.
const LEVELS: usize = 2;

/// Points tied to trees, and ties of applications to points of one tree.
struct Trees {
    sheet: Sheet,
    levels: Vec<i64>,
    /// For each point one that stands for its group.
    group: Vec<u8>,
    steps: Vec<Step>,
}

/// Finds a path that has a tie too few, or one too many: the list has the entries behind the last
/// step, and often that of a tie that it doesn't rest on, which is then wrong to be there.
pub fn branches(random: &mut Random) -> Case {
    let mut trees = Trees::planted(random);
    trees.grow(random);
    trees.close(random);
    let mut case = Case {
        sheet: trees.sheet.bytes(),
        list: Vec::new(),
        steps: trees.steps,
    };
    case.list = behind(&case.sheet, &case.steps).expect("each step was right");
    let off = |entry: &u8| !case.list.contains(entry);
    let off: Vec<u8> = case.named().into_iter().filter(off).collect();
    if !off.is_empty() && random.below(3) > 0 {
        case.list.push(random.pick(&off));
        case.list.sort_unstable();
    }
    // A tie of an entry that isn't listed is one that the last step doesn't rest on.
    while let Err(wrong) = survey(&case.sheet, &case.list, &case.steps) {
        if wrong.step + 1 == case.steps.len() {
            break;
        }
        leave_out(&mut case.steps, wrong.step);
    }
    for _ in 0..random.below(6) {
        let own = random.below(case.steps.len());
        if case.steps[own].ties() {
            case.turn(own);
        }
    }
    case
}

impl Trees {
    /// Unknowns, and applications to them and to each other.
    fn planted(random: &mut Random) -> Trees {
        let large = random.one_in(4);
        let mut trees = Trees {
            sheet: Sheet::new(),
            levels: Vec::new(),
            group: Vec::new(),
            steps: Vec::new(),
        };
        for _ in 0..random.size(large, 3..=12, 60) {
            let x = trees.sheet.unknown();
            let level = random.below(LEVELS) as i64;
            trees.plant(x, level);
        }
        for symbol in 0..random.size(large, 1..=6, 30) as u8 {
            let arguments = [trees.sheet.any_term(random), trees.sheet.any_term(random)];
            let (level, both) = (random.below(LEVELS) as i64, random.coin());
            for _ in 0..random.count(2..=3).min(trees.sheet.terms_left()) {
                let [a, b] = arguments.map(|x| trees.of_level(random, x));
                let term = match both {
                    true => trees.sheet.two(symbol, a, b),
                    false => trees.sheet.one(symbol, a),
                };
                trees.plant(term, level);
            }
        }
        trees
    }

    fn plant(&mut self, term: Term, level: i64) {
        self.levels.push(level);
        self.group.push(term.0);
    }

    fn level(&self, a: Term) -> i64 {
        self.levels[usize::from(a.0)]
    }

    /// A term of the level of this one.
    fn of_level(&self, random: &mut Random, a: Term) -> Term {
        loop {
            let b = self.sheet.any_term(random);
            if self.level(b) == self.level(a) {
                return b;
            }
        }
    }

    fn tied(&self, a: Term, b: Term) -> bool {
        self.group[usize::from(a.0)] == self.group[usize::from(b.0)]
    }

    /// Ties points of different groups, until a few tries in a row find none.
    fn grow(&mut self, random: &mut Random) {
        let mut tries = 0;
        while tries < 40 && self.sheet.entries_left() > 1 {
            let [a, b] = [0; 2].map(|_| self.sheet.any_term(random));
            tries += 1;
            if self.tied(a, b) {
                continue;
            }
            if self.same_input(a, b) {
                self.steps.push(Step::by_functions(a.0, b.0));
            } else if random.one_in(3) {
                let c = self.level(a) - self.level(b);
                let entry = Bound::entry(self.sheet.entries.len() as u8);
                self.sheet.equal(a, b, c);
                let step = Step::by_walks(a.0, b.0, c, vec![entry], vec![entry.back()]);
                self.steps.push(step);
            } else {
                continue;
            }
            let [joined, left] = [a, b].map(|x| self.group[usize::from(x.0)]);
            for group in self.group.iter_mut().filter(|group| **group == left) {
                *group = joined;
            }
            tries = 0;
        }
    }

    /// Whether two terms are applications of one function whose arguments are tied with gap 0.
    fn same_input(&self, a: Term, b: Term) -> bool {
        let term = |x: Term| self.sheet.terms[usize::from(x.0)];
        let level = |a, b| self.tied(a, b) && self.level(a) == self.level(b);
        self.sheet.alike(a, b)
            && match (term(a), term(b)) {
                (One(_, a), One(_, b)) => level(a, b),
                (Two(_, a, b), Two(_, c, d)) => level(a, c) && level(b, d),
                _ => false,
            }
    }

    /// By a ≠ entry on two points of one tree, or by a walk over a tie and a strict entry back.
    fn close(&mut self, random: &mut Random) {
        let [a, b] = [0; 2].map(|_| self.sheet.any_term(random));
        let entry = self.sheet.entries.len() as u8;
        let ties = self.steps.len();
        if ties > 0 && (random.coin() || !self.tied(a, b)) {
            // one of the last, which rest on the most
            let tie = ties - 1 - random.below(ties.min(4));
            let Step { a, b, c, .. } = self.steps[tie];
            self.sheet.under(Term(b), Term(a), -c);
            let round = vec![Bound::tie(tie as u8), Bound::entry(entry)];
            self.steps.push(Step::walk(a, round));
        } else {
            let b = if self.tied(a, b) { b } else { a };
            self.sheet.unequal(a, b, self.level(a) - self.level(b));
            self.steps.push(Step::unequal(entry));
        }
    }
}
