//! Ways to spoil a right reason, its list or its sheet. Some changes are none, and some are allowed.

use super::super::families::FAMILIES;
use super::super::Random;
use super::{any_walk, grown, written, Case, MOST_STEPS};
use crate::reason::{Bound, Step};

/// Finds a field that isn't looked at, or not whole.
pub fn field(random: &mut Random, case: &mut Case) {
    let number = case.any_number(random);
    let step = case.any_step(random);
    match random.below(9) {
        0 => step.kind = random.pick(&[0, 1, 2, 3, 4, 255]),
        1 => step.kind += 4,
        2 | 3 => step.a = number,
        4 | 5 => step.b = number,
        6 => step.c += random.pick(&[1, -1, -2 * step.c]),
        _ => step.c ^= 1 << random.below(64),
    }
}

/// Finds a bound that isn't looked at, and walks that needn't chain or be there.
pub fn walk(random: &mut Random, case: &mut Case) {
    let number = case.any_number(random);
    let step = case.any_step(random);
    if random.one_in(6) {
        return std::mem::swap(&mut step.first, &mut step.second);
    }
    let walk = any_walk(random, step);
    if walk.is_empty() || random.one_in(4) {
        // Perhaps where no walk should be.
        let kind = random.below(6) as u8;
        return walk.push(Bound { kind, number });
    }
    let at = random.below(walk.len());
    let bound = walk[at];
    match random.below(8) {
        0 => walk.insert(at, bound),
        1 => walk.truncate(at),
        2 => walk.clear(),
        3 => walk.reverse(),
        4 => walk.swap(at, 0),
        5 => walk.splice(at..at, [bound, bound.back()]).for_each(drop),
        _ => walk.retain(|other| *other != bound),
    }
}

/// Finds a bound's field that isn't looked at, or not whole.
pub fn bound(random: &mut Random, case: &mut Case) {
    let number = case.any_number(random);
    let walks = case
        .steps
        .iter_mut()
        .flat_map(|step| [&mut step.first, &mut step.second]);
    let mut bounds: Vec<&mut Bound> = walks.flatten().collect();
    if bounds.is_empty() {
        return;
    }
    let at = random.below(bounds.len());
    let bound = &mut bounds[at];
    match random.below(6) {
        0 => bound.kind = random.below(8) as u8,
        1 => bound.kind ^= 1,
        2 => bound.kind += 6,
        _ => bound.number = number,
    }
}

/// Finds steps that aren't looked at, and a place that isn't the first wrong step's.
pub fn order(random: &mut Random, case: &mut Case) {
    let steps = &mut case.steps;
    let (at, other) = (random.below(steps.len()), random.below(steps.len()));
    let step = steps[at].clone();
    match random.below(10) {
        0 => drop(steps.remove(at)),
        1 => steps.truncate(at),
        2 => steps.insert(other, step),
        3 => steps.swap(at, other),
        4 => steps.push(step),
        5 => steps.rotate_left(at),
        6 => {
            // Two wrong steps: the first counts.
            steps[at].kind = 4;
            steps[other].kind = 4;
        }
        7 => drop(steps.pop()),
        8 => {
            let copies = steps.iter().cycle().take(MOST_STEPS).cloned();
            *steps = copies.collect();
        }
        _ => steps.resize(random.count(steps.len()..=MOST_STEPS), step),
    }
}

/// Finds lists that aren't looked at, and entries that needn't be on it or be used.
pub fn list(random: &mut Random, case: &mut Case) {
    let entries = case.sheet[4];
    let list = &mut case.list;
    let at = random.below(list.len());
    match random.below(9) {
        0 => drop(list.remove(at)),
        1 => list.clear(),
        2 => list.insert(at, list[at]),
        3 => list.swap(at, 0),
        4 => list.push(entries),
        5 => list.push(random.pick(&[255, entries.saturating_add(1), 128])),
        6 => list.resize(255, 0),
        _ => {
            // One more, where it belongs.
            list.push(random.below(usize::from(entries)) as u8);
            list.sort_unstable();
            list.dedup();
        }
    }
}

/// Finds a check that looks at the reason and not at the sheet.
pub fn sheet(random: &mut Random, case: &mut Case) {
    match random.below(5) {
        0 => case.sheet = written(random).sheet,
        1 => case.sheet = grown::right(random).sheet,
        2 => case.sheet = FAMILIES[random.below(12)].sheet(random.next(), 0),
        _ => {
            let at = 6 + random.below(case.sheet.len() - 6);
            let near = case.sheet[at] ^ 1;
            case.sheet[at] = random.pick(&[0, 1, 2, 3, near, near, 255]);
        }
    }
}

/// Finds a refusal that is left out, or that comes too late.
pub fn refused(random: &mut Random, case: &mut Case) {
    case.sheet = FAMILIES[random.pick(&[12, 13])].sheet(random.next(), 0);
    if random.coin() {
        case.list.reverse();
    }
}

impl Case {
    /// A step, often the last.
    fn any_step(&mut self, random: &mut Random) -> &mut Step {
        let last = self.steps.len() - 1;
        let any = random.below(last + 1);
        let own = random.pick(&[last, any]);
        &mut self.steps[own]
    }

    /// A number that may be one of a point, an entry or a step, or is just none.
    fn any_number(&self, random: &mut Random) -> u8 {
        let (terms, entries) = (self.sheet[3], self.sheet[4]);
        match random.below(4) {
            0 => random.pick(&[terms, terms + 1, entries, 255, self.steps.len() as u8]),
            1 => random.below(self.steps.len()) as u8,
            2 => random.below(usize::from(entries) + 1) as u8,
            _ => random.below(usize::from(terms) + 1) as u8,
        }
    }
}
