//! Reasons at the limits: as many bounds, as far a c and as many steps as may be, and more.

use super::super::sheet::{Sheet, Term};
use super::super::Random;
use super::{turn, Case, MOST_STEPS};
use crate::reason::{Bound, Step};
use crate::sheet::MOST;

fn case(sheet: &Sheet, steps: Vec<Step>) -> Case {
    let mut case = Case {
        sheet: sheet.bytes(),
        list: Vec::new(),
        steps,
    };
    case.list = case.named();
    case
}

fn there_and_back(a: Term, b: Term, c: i64, first: Vec<Bound>) -> Step {
    let second = first.iter().rev().map(|bound| bound.back()).collect();
    Step::by_walks(a.0, b.0, c, first, second)
}

/// Finds a limit of walks that is one off, or not the sheet's own: they go round x = x until they
/// are as long as is asked for.
pub fn lengths(random: &mut Random) -> Case {
    let terms = random.pick(&[2, 3, 5, 9, 64, MOST - 1, MOST, MOST]);
    let mut length = || match random.below(8) {
        0..=2 => terms + 1,
        3 | 4 => terms + 2,
        5 => MOST + 1,
        6 => random.count(1..=terms),
        _ => random.count(terms + 1..=255),
    };
    let (there, back) = (length(), length());
    let mut sheet = Sheet::new();
    let points = sheet.unknowns(terms);
    let (x, y) = (points[0], points[1]);
    sheet.equal(x, x, 0);
    let round = |length: usize| vec![Bound::entry(0); length - 1];
    let over = Bound::entry(1);
    if random.coin() {
        sheet.under(x, x, 0);
        return case(
            &sheet,
            vec![Step::walk(x.0, [vec![over], round(there)].concat())],
        );
    }
    sheet.equal(x, y, 0);
    sheet.unequal(x, y, 0);
    let first = [round(there), vec![over]].concat();
    let second = [vec![over.back()], round(back)].concat();
    let tie = Step::by_walks(x.0, y.0, 0, first, second);
    case(&sheet, vec![tie, Step::unequal(2)])
}

/// Finds numbers that are kept in 32 bits, and a c's limit that is one off. No single walk comes to
/// 2^31, but ties may add up: each is made by going round over the one before it, which a bound of
/// gap 0 leads back from.
pub fn far(random: &mut Random) -> Case {
    let mut sheet = Sheet::new();
    let points = sheet.unknowns(MOST - 2);
    let [y, x, z, w, v] = [0, 1, 2, 3, 4].map(|own| points[own]);
    let pairs = [(x, y), (z, x), (w, z), (v, w)];
    for (a, b) in pairs {
        sheet.equal(a, b, 0);
    }
    sheet.equal(x, y, 1 << 14);
    let (single, one) = (Bound::entry(4), Bound::entry(5));
    sheet.equal(z, z, 1);
    // There over some tie, and back by the entry of gap 0 between its points.
    let round =
        |times: usize, over: Bound, entry: u8| [over, Bound::entry(entry).back()].repeat(times);
    let first = [round(63, single, 0), vec![single]].concat();
    let second = [vec![Bound::entry(1)], round(64, Bound::tie(0), 0)].concat();
    let mut third = [vec![Bound::entry(2)], round(32, Bound::tie(1), 1)].concat();
    // A few more or less, going round z = z + 1 behind it.
    let more: i64 = random.pick(&[0, 0, 0, 1, 1, 1, -1, -1, 2, 60]);
    let units = match more < 0 {
        true => one.back(),
        false => one,
    };
    third.extend(vec![units; more.unsigned_abs() as usize]);
    let mut ties = vec![
        there_and_back(x, y, 1 << 20, first),
        there_and_back(z, x, 1 << 26, second),
        there_and_back(w, z, (1 << 31) + more, third),
    ];
    let back = random.coin();
    if back {
        turn(&mut ties[2]);
    }
    let over = match back {
        true => Bound::tie(2).back(),
        false => Bound::tie(2),
    };
    let (fv, fz) = (sheet.one(7, v), sheet.one(7, z));
    if random.coin() {
        // Round over the last tie: far below zero, though not in 32 bits.
        let times = random.pick(&[1, 2, 2, 3, 4, 62]);
        let round = [over.back(), Bound::entry(2)].repeat(times);
        ties.push(Step::walk(z.0, round));
        return case(&sheet, ties);
    }
    // v lies over w as far as w over z, and so over z by 2^32 and some; what is left of that in 32
    // bits isn't how far they lie apart.
    let fourth = vec![Bound::entry(3), over, Bound::entry(2).back()];
    ties.push(there_and_back(v, w, (1 << 31) + more, fourth));
    if more == 0 && random.coin() {
        ties.push(Step::by_functions(fv.0, fz.0));
        sheet.unequal(fv, fz, 0);
    } else {
        sheet.unequal(v, z, 2 * more + random.pick(&[0, 0, 1]));
    }
    ties.push(Step::unequal(6));
    case(&sheet, ties)
}

/// Finds room for too few steps: as many ties as terms, each of a number to the zero level, and
/// steps behind the closing one.
pub fn longest(random: &mut Random) -> Case {
    let terms = random.pick(&[MOST, MOST, MOST, MOST - 1, 20]);
    let mut sheet = Sheet::new();
    let zero = Term(terms as u8);
    let mut steps = Vec::new();
    for _ in 0..terms {
        let c = random.within(8..=9);
        let own = sheet.number(c);
        steps.push(there_and_back(own, zero, c, vec![Bound::term(own.0)]));
    }
    random.shuffle(&mut steps);
    sheet.unequal(Term(0), Term(zero.0 - 1), random.within(-1..=1));
    let closing = Step::unequal(0);
    match random.below(5) {
        0 => steps.extend_from_within(..random.count(1..=terms - 1)),
        1 => steps.resize(random.count(terms + 1..=MOST_STEPS - 1), closing.clone()),
        _ => {}
    }
    steps.push(closing);
    case(&sheet, steps)
}
