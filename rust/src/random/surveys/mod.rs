//! The families of reasons for a check, with their sheets and lists: right ones, and ones that
//! somebody got wrong. Each is a recipe for a place where a check could go wrong.

mod branches;
mod grown;
mod limits;
mod spoilt;

use super::families::{FAMILIES, FOR_REASONS};
use super::Random;
use crate::reason::{Bound, Reason, Step, Writer, ROOM};
use crate::sheet::{entries, terms};

/// The most steps of a frame.
pub const MOST_STEPS: usize = 256;

/// What a check is asked.
#[derive(Clone, Debug)]
pub struct Case {
    pub sheet: Vec<u8>,
    pub list: Vec<u8>,
    pub steps: Vec<Step>,
}

pub struct SurveyFamily {
    pub name: &'static str,
    pub about: &'static str,
    make: fn(&mut Random) -> Case,
}

impl SurveyFamily {
    /// One case of the family, always the same one.
    pub fn case(&self, seed: u64, number: u64) -> Case {
        (self.make)(&mut Random::of(seed, self.name, number))
    }
}

pub const SURVEYS: [SurveyFamily; 16] = [
    SurveyFamily {
        name: "written",
        about: "reasons of the independent writer, for sheets of all families",
        make: |random| varied(random, written),
    },
    SurveyFamily {
        name: "grown",
        about: "reasons of ties at all gaps, and of walks over ties",
        make: |random| varied(random, grown::right),
    },
    SurveyFamily {
        name: "branches",
        about: "ties that rest on paths of ties, and lists with an entry of a tie off the path",
        make: branches::branches,
    },
    SurveyFamily {
        name: "fields",
        about: "a field of a step changed: kind, a, b, or c at any bit",
        make: |random| spoilt(random, spoilt::field),
    },
    SurveyFamily {
        name: "walks",
        about: "a walk cut, lengthened, stirred, moved, or where none should be",
        make: |random| spoilt(random, spoilt::walk),
    },
    SurveyFamily {
        name: "bounds",
        about: "a bound's kind or number changed",
        make: |random| spoilt(random, spoilt::bound),
    },
    SurveyFamily {
        name: "order",
        about: "steps left out, doubled, swapped, or behind the closing one",
        make: |random| spoilt(random, spoilt::order),
    },
    SurveyFamily {
        name: "lists",
        about: "an entry more or fewer, not rising, at L or over, or none",
        make: |random| spoilt(random, spoilt::list),
    },
    SurveyFamily {
        name: "ties",
        about: "a tie by walks over what no walk may go over, and nothing else wrong",
        make: grown::wrong_tie,
    },
    SurveyFamily {
        name: "functions",
        about: "a tie of terms that aren't equal applications, and nothing else wrong",
        make: grown::wrong_functions,
    },
    SurveyFamily {
        name: "closings",
        about: "a closing step that doesn't close, and nothing else wrong",
        make: grown::wrong_closing,
    },
    SurveyFamily {
        name: "lengths",
        about: "walks of as many bounds as may be, and of more",
        make: limits::lengths,
    },
    SurveyFamily {
        name: "far",
        about: "a tie's c at both ends of its range and past them, and totals beyond 32 bits",
        make: limits::far,
    },
    SurveyFamily {
        name: "longest",
        about: "as many ties as may be, and up to 256 steps",
        make: limits::longest,
    },
    SurveyFamily {
        name: "sheets",
        about: "a reason for another sheet, or for one with a byte changed",
        make: |random| spoilt(random, spoilt::sheet),
    },
    SurveyFamily {
        name: "refused",
        about: "sheets that are sent back, or only just aren't, with lists of all kinds",
        make: |random| spoilt(random, spoilt::refused),
    },
];

/// A reason of the writer's, for a sheet of any family that clashes.
fn written(random: &mut Random) -> Case {
    let mut writer = Writer::new();
    loop {
        let family = random.below(FAMILIES.len() + FOR_REASONS.len());
        let family = FAMILIES.iter().chain(&FOR_REASONS).nth(family);
        let family = family.expect("a family of this number");
        let sheet = family.sheet(random.next(), 0);
        let mut room = vec![0; ROOM];
        if let (1, length) = writer.write(&sheet, &mut room) {
            let record = Reason::from(&room[..length as usize]);
            let Reason { list, steps } = record.expect("the writer writes records");
            return Case { sheet, list, steps };
        }
    }
}

/// A right reason told otherwise, in ways that the rules allow.
fn varied(random: &mut Random, right: fn(&mut Random) -> Case) -> Case {
    let mut case = right(random);
    for _ in 0..random.below(4) {
        let own = random.below(case.steps.len());
        match case.steps[own].kind {
            Step::BY_WALKS | Step::BY_FUNCTIONS if random.coin() => case.turn(own),
            Step::WALK if random.coin() => case.start_elsewhere(random),
            _ => case.go_to_and_fro(random, own),
        }
    }
    case
}

/// A right reason spoilt, mostly.
fn spoilt(random: &mut Random, spoil: fn(&mut Random, &mut Case)) -> Case {
    let right = random.pick(&[written as fn(&mut Random) -> Case, grown::right]);
    let mut case = varied(random, right);
    if !random.one_in(6) {
        spoil(random, &mut case);
    }
    case
}

/// The same tie with its sides changed.
fn turn(step: &mut Step) {
    let Step { a, b, c, .. } = *step;
    (step.a, step.b, step.c) = (b, a, c.wrapping_neg());
    std::mem::swap(&mut step.first, &mut step.second);
}

fn any_walk<'a>(random: &mut Random, step: &'a mut Step) -> &'a mut Vec<Bound> {
    match random.coin() {
        true => &mut step.first,
        false => &mut step.second,
    }
}

impl Case {
    fn terms(&self) -> usize {
        self.sheet[3].into()
    }

    /// From where to where a bound of a right reason goes.
    fn ends(&self, bound: Bound) -> (u8, u8) {
        let number = usize::from(bound.number);
        let (from, to) = match bound.over() {
            Bound::ENTRY => {
                let entry = entries(&self.sheet).nth(number).expect("an entry");
                (entry.a, entry.b)
            }
            Bound::TERM => {
                let term = terms(&self.sheet).nth(number).expect("a term");
                let to = if term.kind == 1 {
                    self.sheet[3]
                } else {
                    term.a
                };
                (bound.number, to)
            }
            _ => (self.steps[number].a, self.steps[number].b),
        };
        match bound.is_back() {
            true => (to, from),
            false => (from, to),
        }
    }

    /// Turns a tie round, and what goes over it with it.
    fn turn(&mut self, own: usize) {
        turn(&mut self.steps[own]);
        let tie = Bound::tie(own as u8);
        for step in &mut self.steps[own + 1..] {
            let walks = step.first.iter_mut().chain(&mut step.second);
            for bound in walks.filter(|bound| **bound == tie || **bound == tie.back()) {
                *bound = bound.back();
            }
        }
    }

    /// The closing walk starts at another of its points, or goes round twice.
    fn start_elsewhere(&mut self, random: &mut Random) {
        let last = self.steps.len() - 1;
        let mut walk = self.steps[last].first.clone();
        let start = random.below(walk.len());
        walk.rotate_left(start);
        if 2 * walk.len() <= self.terms() + 1 && random.coin() {
            walk.extend_from_within(..);
        }
        let (a, _) = self.ends(walk[0]);
        self.steps[last] = Step::walk(a, walk);
    }

    /// A walk of this step goes over one of its bounds, back over it, and over it again.
    fn go_to_and_fro(&mut self, random: &mut Random, own: usize) {
        let most = self.terms() + 1;
        let equal: Vec<bool> = entries(&self.sheet).map(|entry| entry.kind == 0).collect();
        let walk = any_walk(random, &mut self.steps[own]);
        if walk.is_empty() || walk.len() + 2 > most {
            return;
        }
        let at = random.below(walk.len());
        let bound = walk[at];
        if bound.over() != Bound::ENTRY || equal[usize::from(bound.number)] {
            walk.splice(at..at, [bound, bound.back()]);
        }
    }

    /// The entries that the steps name, rising: those of the right list, if all ties are needed.
    fn named(&self) -> Vec<u8> {
        let named = |entry: &u8| {
            let over = |bound: &Bound| bound.over() == Bound::ENTRY && bound.number == *entry;
            let by = |step: &Step| {
                let closes = step.kind == Step::UNEQUAL && step.a == *entry;
                closes || step.first.iter().chain(&step.second).any(over)
            };
            self.steps.iter().any(by)
        };
        (0..self.sheet[4]).filter(named).collect()
    }
}

#[cfg(test)]
mod tests {
    use super::*;
    use crate::reason::Surveyor;

    fn answers(family: &SurveyFamily) -> Vec<(u8, u32)> {
        let answer = |number| {
            let Case { sheet, list, steps } = family.case(5, number);
            Surveyor::new().answer(&sheet, &list, &steps)
        };
        (0..400).map(answer).collect()
    }

    #[test]
    fn each_family_gets_the_answers_that_it_is_made_for() {
        for family in &SURVEYS {
            let numbers: &[u8] = match family.name {
                "written" | "grown" => &[0],
                "ties" | "functions" => &[1],
                "lists" => &[0, 1, 27],
                "sheets" => &[0, 1, 13, 14, 27],
                "refused" => &[0, 10, 11, 12, 13, 14, 27],
                _ => &[0, 1],
            };
            let answers = answers(family);
            for &number in numbers {
                let count = answers.iter().filter(|answer| answer.0 == number).count();
                let all = numbers.len() == 1 && number == 0;
                let enough = if all { 400 } else { 4 };
                let name = family.name;
                assert!(count >= enough, "{count} in 400 of {name} get {number}");
            }
        }
    }

    #[test]
    fn every_case_fits_in_a_frame_and_comes_again() {
        let mut most = (0, 0, 0);
        for family in &SURVEYS {
            for number in 0..300 {
                let Case { sheet, list, steps } = family.case(5, number);
                let again = family.case(5, number);
                assert_eq!(
                    (&sheet, &list, &steps),
                    (&again.sheet, &again.list, &again.steps)
                );
                assert!(sheet.len() <= 4096);
                let walks = steps.iter().flat_map(|step| [&step.first, &step.second]);
                let longest = walks.map(Vec::len).max().unwrap_or(0);
                most.0 = most.0.max(list.len());
                most.1 = most.1.max(steps.len());
                most.2 = most.2.max(longest);
            }
        }
        assert!(
            most.0 <= 255 && most.1 == MOST_STEPS && (250..=255).contains(&most.2),
            "{most:?}"
        );
    }
}
