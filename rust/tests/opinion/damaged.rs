//! Reasons that were right, damaged in every way, against a naive check. It follows the rules by
//! other means: a table of gaps, and of a path the ties without which its ends aren't tied.

use crate::common::{self, Line, Random};
use second::random::families::{FAMILIES, FOR_REASONS};
use second::random::surveys::{Case, SURVEYS};
use second::reason::{needless, survey, Bound, Reason, Step, Surveyor, Writer, ROOM};
use second::sheet::{self, refusal, Record};
use second::Panel;
use std::collections::BTreeSet;

struct Naive<'a> {
    terms: Vec<Record>,
    entries: Vec<Record>,
    list: &'a [u8],
    steps: &'a [Step],
}

/// A walk's end, total and strictness.
type Walked = (usize, i128, bool);

impl Naive<'_> {
    /// The number of the first wrong step, if there is one.
    fn first_wrong(&self) -> Option<usize> {
        let wrong = (0..self.steps.len()).find(|&own| self.right(own).is_none());
        let closed = self.steps.last().map_or(false, |step| step.kind >= 2);
        wrong.or_else(|| (!closed).then_some(self.steps.len()))
    }

    /// Whether a step is right behind right ones, all of which are then ties.
    fn right(&self, own: usize) -> Option<()> {
        let Step { kind, a, b, c, .. } = self.steps[own];
        let (first, second) = (&self.steps[own].first, &self.steps[own].second);
        let (a, b, c) = (usize::from(a), usize::from(b), i128::from(c));
        let t = self.terms.len();
        let holds = |it: bool| it.then_some(());
        holds(first.len() <= t + 1 && second.len() <= t + 1)?;
        let plain = c == 0 && first.is_empty() && second.is_empty();
        let before: Vec<usize> = (0..own).collect();
        match kind {
            0 => {
                holds(a <= t && b <= t && self.gap(&before, a, b).is_none())?;
                holds((-(1 << 31)..=1 << 31).contains(&c))?;
                holds(self.walked(own, a, first)? == (b, c, false))?;
                holds(self.walked(own, b, second)? == (a, -c, false))
            }
            1 => {
                holds(plain && self.gap(&before, a, b).is_none())?;
                let (one, two) = (self.terms.get(a)?, self.terms.get(b)?);
                holds(one.kind >= 3 && (one.kind, one.symbol) == (two.kind, two.symbol))?;
                let pairs = arguments(one, two);
                holds(
                    pairs
                        .iter()
                        .all(|&(a, b)| self.gap(&before, a, b) == Some(0)),
                )
            }
            2 => {
                holds(b == 0 && c == 0 && second.is_empty() && a <= t)?;
                let (end, total, strict) = self.walked(own, a, first)?;
                holds(end == a && (total < 0 || total == 0 && strict))?;
                self.closes(own)
            }
            3 => {
                holds(plain && b == 0)?;
                let entry = self.listed(a)?;
                holds(entry.kind == 1)?;
                let gap = self.gap(&before, entry.a.into(), entry.b.into());
                holds(gap == Some(entry.c.into()))?;
                self.closes(own)
            }
            _ => None,
        }
    }

    fn closes(&self, own: usize) -> Option<()> {
        let list: BTreeSet<u8> = self.list.iter().copied().collect();
        (own + 1 == self.steps.len() && self.behind(own) == list).then_some(())
    }

    fn listed(&self, entry: usize) -> Option<&Record> {
        let listed = self.list.iter().any(|&listed| usize::from(listed) == entry);
        self.entries.get(entry).filter(|_| listed)
    }

    /// How far a is above b by these ties: what is known of a, b being at 0.
    fn gap(&self, ties: &[usize], a: usize, b: usize) -> Option<i128> {
        let mut known = vec![None; 256];
        known[b] = Some(0);
        for _ in 0..=ties.len() {
            for tie in ties.iter().map(|&tie| &self.steps[tie]) {
                let (x, y, c) = (usize::from(tie.a), usize::from(tie.b), i128::from(tie.c));
                known[x] = known[x].or_else(|| known[y].map(|y| y + c));
                known[y] = known[y].or_else(|| known[x].map(|x| x - c));
            }
        }
        known[a]
    }

    fn walked(&self, own: usize, from: usize, walk: &[Bound]) -> Option<Walked> {
        let zero = self.terms.len();
        let mut walked = (from, 0, false);
        for bound in walk {
            let number = usize::from(bound.number);
            let (x, y, gap, strict, either) = match bound.kind / 2 {
                0 => {
                    let Record { kind, a, b, c, .. } = *self.listed(number)?;
                    let strict = kind == 3;
                    if kind == 1 {
                        return None;
                    }
                    (
                        usize::from(a),
                        usize::from(b),
                        i128::from(c),
                        strict,
                        kind == 0,
                    )
                }
                1 => match self.terms.get(number)? {
                    term if term.kind == 1 => (number, zero, i128::from(term.c), false, true),
                    term if term.kind == 2 => {
                        (number, usize::from(term.a), i128::from(term.c), false, true)
                    }
                    _ => return None,
                },
                2 if number < own => {
                    let tie = &self.steps[number];
                    let (x, y) = (usize::from(tie.a), usize::from(tie.b));
                    (x, y, i128::from(tie.c), false, true)
                }
                _ => return None,
            };
            let (start, end, sign) = match bound.kind % 2 {
                0 => (x, y, 1),
                _ if either => (y, x, -1),
                _ => return None,
            };
            if walked.0 != start {
                return None;
            }
            walked = (end, walked.1 + sign * gap, walked.2 || strict);
        }
        Some(walked)
    }

    /// The ties that a right step rests on.
    fn rests(&self, own: usize) -> BTreeSet<usize> {
        let step = &self.steps[own];
        let walks = step.first.iter().chain(&step.second);
        let over = walks.filter(|bound| bound.kind >= 4);
        let mut rests: BTreeSet<usize> = over.map(|bound| bound.number.into()).collect();
        let ends = match step.kind {
            1 => {
                let of = |term: u8| &self.terms[usize::from(term)];
                arguments(of(step.a), of(step.b))
            }
            3 => {
                let entry = &self.entries[usize::from(step.a)];
                vec![(entry.a.into(), entry.b.into())]
            }
            _ => Vec::new(),
        };
        for (a, b) in ends {
            let parts = |&tie: &usize| {
                let others: Vec<usize> = (0..own).filter(|&other| other != tie).collect();
                self.gap(&others, a, b).is_none()
            };
            rests.extend((0..own).filter(parts));
        }
        rests
    }

    /// The entries behind a right step.
    fn behind(&self, own: usize) -> BTreeSet<u8> {
        let step = &self.steps[own];
        let walks = step.first.iter().chain(&step.second);
        let used = walks.filter(|bound| bound.kind < 2);
        let mut behind: BTreeSet<u8> = used.map(|bound| bound.number).collect();
        if step.kind == 3 {
            behind.insert(step.a);
        }
        for tie in self.rests(own) {
            behind.extend(self.behind(tie));
        }
        behind
    }
}

/// The arguments that must be equal.
fn arguments(one: &Record, two: &Record) -> Vec<(usize, usize)> {
    let first = (one.a.into(), two.a.into());
    let second = (one.b.into(), two.b.into());
    match one.kind {
        4 => vec![first, second],
        _ => vec![first],
    }
}

/// Surveys, and holds the answer to the naive check's. Whether it is yes.
fn agreed(sheet: &[u8], list: &[u8], steps: &[Step]) -> bool {
    let naive = Naive {
        terms: sheet::terms(sheet).collect(),
        entries: sheet::entries(sheet).collect(),
        list,
        steps,
    };
    let said = survey(sheet, list, steps);
    let first = said.as_ref().err().map(|wrong| wrong.step);
    assert_eq!(
        first,
        naive.first_wrong(),
        "{said:?} of {steps:?} for {list:?} on {sheet:?}"
    );
    if said.is_ok() {
        let last = steps.len() - 1;
        let mut needed = BTreeSet::from([last]);
        for own in (0..=last).rev() {
            if needed.contains(&own) {
                needed.extend(naive.rests(own));
            }
        }
        let others: Vec<usize> = (0..last).filter(|own| !needed.contains(own)).collect();
        assert_eq!(needless(sheet, list, steps), Ok(others), "{steps:?}");
    }
    said.is_ok()
}

/// Clashing sheets of every family that aren't too large, and the reasons for them.
fn reasons(seed: u64, each: usize, most: u8) -> Vec<(Vec<u8>, Reason)> {
    let mut writer = Writer::new();
    let mut reasons = Vec::new();
    for family in FAMILIES[..12].iter().chain(&FOR_REASONS) {
        let sheets = (0..6000).map(|number| family.sheet(seed, number));
        let small = sheets.filter(|sheet| sheet[3] <= most && sheet[4] <= most);
        let written = small.filter_map(|sheet| {
            let mut room = vec![0; ROOM];
            match writer.write(&sheet, &mut room) {
                (1, length) => Some((sheet, Reason::from(&room[..length as usize]).unwrap())),
                _ => None,
            }
        });
        reasons.extend(written.take(each));
    }
    reasons
}

/// A step damaged in every way: each field, each bound, and the order of those.
fn damaged_step(step: &Step, numbers: &[u8]) -> Vec<Step> {
    let mut damaged = Vec::new();
    let mut change = |change: &dyn Fn(&mut Step)| {
        let mut other = step.clone();
        change(&mut other);
        damaged.push(other);
    };
    for kind in [0, 1, 2, 3, 4, 255] {
        change(&|step| step.kind = kind);
    }
    for &number in numbers {
        change(&|step| step.a = number);
        change(&|step| step.b = number);
    }
    change(&|step| std::mem::swap(&mut step.a, &mut step.b));
    let c = step.c;
    let far = [c + 1, c - 1, -c, c + (1 << 32), 1 << 31, -1 << 31];
    for c in far.into_iter().chain([(1 << 31) + 1, i64::MIN, i64::MAX]) {
        change(&|step| step.c = c);
    }
    change(&|step| std::mem::swap(&mut step.first, &mut step.second));
    change(&|step| {
        let Step { a, b, c, .. } = *step;
        (step.a, step.b, step.c) = (b, a, -c);
        std::mem::swap(&mut step.first, &mut step.second);
    });
    let walk: fn(&mut Step, usize) -> &mut Vec<Bound> = |step, which| match which {
        0 => &mut step.first,
        _ => &mut step.second,
    };
    for which in [0, 1] {
        let length = walk(&mut step.clone(), which).len();
        change(&|step| walk(step, which).reverse());
        change(&|step| walk(step, which).clear());
        for at in 0..length {
            for kind in 0..8 {
                change(&|step| walk(step, which)[at].kind = kind);
            }
            for &number in numbers {
                change(&|step| walk(step, which)[at].number = number);
            }
            change(&|step| walk(step, which).truncate(at));
            change(&|step| {
                walk(step, which).remove(at);
            });
            change(&|step| {
                let bound = walk(step, which)[at];
                walk(step, which).insert(at, bound);
            });
            change(&|step| {
                let bound = walk(step, which)[at];
                walk(step, which).splice(at..at, [bound, bound.back()]);
            });
            change(&|step| walk(step, which).swap(at, (at + 1) % length));
        }
    }
    damaged
}

#[test]
fn a_field_of_a_step_that_is_changed_is_wrong_unless_the_rules_allow_it() {
    let (mut tried, mut yes) = (0, 0);
    for (sheet, Reason { list, steps }) in reasons(11, 50, 16) {
        assert!(agreed(&sheet, &list, &steps));
        let numbers: Vec<u8> = (0..sheet[3].max(sheet[4]) + 3).chain([255]).collect();
        // The first and the last ones of a long reason.
        let ends = |own: &usize| *own < 4 || own + 4 >= steps.len();
        for own in (0..steps.len()).filter(ends) {
            for other in damaged_step(&steps[own], &numbers) {
                if other == steps[own] {
                    continue;
                }
                let mut damaged = steps.clone();
                damaged[own] = other;
                tried += 1;
                yes += usize::from(agreed(&sheet, &list, &damaged));
            }
        }
    }
    // Few changes are no damage: a tie turned round, a bound gone over to and fro.
    assert!(tried > 50_000, "{tried} tried");
    assert!(yes * 10 < tried && yes > 100, "{yes} of {tried} are right");
}

#[test]
fn steps_that_are_left_out_doubled_or_in_another_order_are_wrong_unless_the_rules_allow_it() {
    let (mut tried, mut yes) = (0, 0);
    for (sheet, Reason { list, steps }) in reasons(12, 40, 24) {
        for at in 0..steps.len() {
            let mut out = steps.clone();
            out.remove(at);
            let mut doubled = steps.clone();
            doubled.insert(at, steps[at].clone());
            let mut first = steps.clone();
            first[..=at].rotate_right(1);
            let mut swapped = steps.clone();
            swapped.swap(at, (at + 1) % steps.len());
            for damaged in [out, doubled, first, swapped, steps[..at].to_vec()] {
                if damaged != steps {
                    tried += 1;
                    yes += usize::from(agreed(&sheet, &list, &damaged));
                }
            }
        }
    }
    assert!(tried > 4_000, "{tried} tried");
    assert!(yes * 4 < tried && yes > 10, "{yes} of {tried} are right");
}

#[test]
fn another_list_is_wrong() {
    let mut tried = 0;
    for (sheet, Reason { list, steps }) in reasons(13, 40, 24) {
        for entry in 0..sheet[4] {
            // It is left out, or put in: either way it isn't what is behind the last step.
            let mut other: BTreeSet<u8> = list.iter().copied().collect();
            if !other.remove(&entry) {
                other.insert(entry);
            }
            let other: Vec<u8> = other.into_iter().collect();
            tried += 1;
            assert!(!agreed(&sheet, &other, &steps));
        }
    }
    assert!(tried > 4_000, "{tried} tried");
}

/// The sheet with all its terms and only these entries.
fn only(sheet: &[u8], list: &[u8]) -> Vec<u8> {
    let line = |record: Record| (record.kind, record.symbol, record.a, record.b, record.c);
    let terms: Vec<Line> = sheet::terms(sheet).map(line).collect();
    let entries: Vec<Line> = sheet::entries(sheet).map(line).collect();
    let listed = list.iter().map(|&entry| entries[usize::from(entry)]);
    common::sheet(&terms, &listed.collect::<Vec<_>>())
}

#[test]
fn a_yes_means_that_the_entries_clash_whatever_is_changed_in_the_sheet() {
    let mut panel = Panel::new();
    let (mut tried, mut yes, mut held) = (0, 0, 0);
    for (sheet, Reason { list, steps }) in reasons(14, 40, 20) {
        for at in 6..sheet.len() {
            for byte in [0, 1, 2, 3, 4, sheet[at] ^ 1, sheet[at] ^ 0xFF, 0x80] {
                let mut other = sheet.clone();
                other[at] = byte;
                if byte == sheet[at] || refusal(&other, sheet::ROOM).is_some() {
                    continue;
                }
                let answer = panel.judge(&only(&other, &list), &mut [0; sheet::ROOM]);
                let clashes = answer.0 == 1;
                let said = agreed(&other, &list, &steps);
                assert!(clashes || !said, "{steps:?} for {list:?} on {other:?}");
                tried += 1;
                yes += usize::from(said);
                held += usize::from(!clashes);
            }
        }
    }
    assert!(
        yes > 1_000 && held > 1_000,
        "{yes} got a yes and {held} hold, of {tried}"
    );
}

/// The same reason with one more tie: a part of a walk that can be gone either way is tied by
/// itself, and the walk goes over that tie.
fn with_a_tie(naive: &Naive, random: &mut Random) -> Option<Vec<Step>> {
    let own = random.below(naive.steps.len());
    let step = &naive.steps[own];
    let (from, walk) = match random.below(2) {
        0 => (step.a, &step.first),
        _ => (step.b, &step.second),
    };
    let start = random.below(walk.len() + 1);
    let end = start + random.below(walk.len() + 1 - start);
    let part = walk[start..end].to_vec();
    let back: Vec<Bound> = part.iter().rev().map(|bound| bound.back()).collect();
    let (a, before, _) = naive.walked(own, from.into(), &walk[..start])?;
    let (b, behind, _) = naive.walked(own, from.into(), &walk[..end])?;
    let (a, b, c) = (a as u8, b as u8, (behind - before) as i64);
    let is_first = std::ptr::eq(walk, &step.first);
    let mut steps = naive.steps.to_vec();
    for bound in steps[own..]
        .iter_mut()
        .flat_map(|step| step.first.iter_mut().chain(&mut step.second))
        .filter(|bound| bound.kind >= 4 && usize::from(bound.number) >= own)
    {
        bound.number += 1;
    }
    let walk = match is_first {
        true => &mut steps[own].first,
        false => &mut steps[own].second,
    };
    walk.splice(start..end, [Bound::tie(own as u8)]);
    steps.insert(own, Step::by_walks(a, b, c, part, back));
    Some(steps)
}

#[test]
fn ties_at_any_gap_and_walks_over_them_are_followed() {
    let mut random = Random(16);
    let (mut tried, mut yes, mut far, mut over) = (0, 0, 0, 0);
    for (sheet, Reason { list, steps }) in reasons(16, 200, 40) {
        let mut steps = steps;
        for _ in 0..12 {
            let naive = Naive {
                terms: sheet::terms(&sheet).collect(),
                entries: sheet::entries(&sheet).collect(),
                list: &list,
                steps: &steps,
            };
            if let Some(other) = with_a_tie(&naive, &mut random) {
                tried += 1;
                if agreed(&sheet, &list, &other) {
                    yes += 1;
                    steps = other;
                }
            }
        }
        let by_walks = steps.iter().filter(|step| step.kind == Step::BY_WALKS);
        far += by_walks.clone().filter(|step| step.c != 0).count();
        let walks = by_walks.flat_map(|step| &step.first);
        over += walks.filter(|bound| bound.over() == Bound::TIE).count();
    }
    assert!(
        tried > 10_000 && yes > 1_000 && far > 500 && over > 500,
        "{yes} of {tried} are right, {far} ties at a gap, {over} bounds over ties"
    );
}

#[test]
fn reasons_made_for_testers_of_checks_get_the_same_answer_from_both() {
    let (mut tried, mut yes) = (0, 0);
    for family in &SURVEYS {
        for number in 0..150 {
            let Case { sheet, list, steps } = family.case(17, number);
            if Surveyor::new().answer(&sheet, &list, &steps).0 <= 1 {
                tried += 1;
                yes += usize::from(agreed(&sheet, &list, &steps));
            }
        }
    }
    assert!(tried > 1_500 && yes > 500, "{yes} of {tried} are right");
}

#[test]
fn the_largest_reasons_get_a_yes_from_both() {
    let mut writer = Writer::new();
    let mut longest = 0;
    for family in FAMILIES[..12].iter().chain(&FOR_REASONS) {
        let sheets = (0..400).map(|number| family.sheet(15, number));
        for sheet in sheets
            .filter(|sheet| sheet[3] > 64 && sheet[4] > 64)
            .take(6)
        {
            let mut room = vec![0; ROOM];
            if let (1, length) = writer.write(&sheet, &mut room) {
                let Reason { list, steps } = Reason::from(&room[..length as usize]).unwrap();
                assert!(agreed(&sheet, &list, &steps));
                longest = longest.max(steps.len());
            }
        }
    }
    assert!(longest > 20, "{longest} steps at most");
}
