//! The recipes for sheets that are judged. About half of each family's sheets hold. A recipe says
//! what it finds: the fault of a panel that it was made for. Small sheets find most faults, and
//! soon; large ones find tables that are too small and sets that are too narrow.

use super::levels::Levels;
use super::sheet::Kind::{AtMost, Equal, Under, Unequal};
use super::sheet::{Entry, Kind, Sheet, Term};
use super::Random;
use crate::sheet::MOST;

// The symbols of document 01's sheets.
const F: u8 = 7;
const G: u8 = 8;

// The ends of c's range.
const LOWEST: i64 = -32_768;
const HIGHEST: i64 = 32_767;

const KINDS: [Kind; 4] = [Equal, Unequal, AtMost, Under];
const BOUNDS: [Kind; 4] = [AtMost, AtMost, Under, Equal];

// Kinds and c of entries on two equal terms.
type OnEquals = [(Kind, i64); 5];
const TRUE: OnEquals = [
    (Equal, 0),
    (Unequal, 1),
    (Unequal, -1),
    (AtMost, 0),
    (Under, 1),
];
const FALSE: OnEquals = [
    (Equal, 1),
    (Unequal, 0),
    (AtMost, -1),
    (Under, 0),
    (Under, -1),
];

/// Says a = b + c, in one of the ways that tie two terms.
pub fn tie(random: &mut Random, sheet: &mut Sheet, a: Term, b: Term, c: i64) {
    match random.below(5) {
        0 => sheet.equal(a, b, c),
        1 => sheet.equal(b, a, -c),
        2 => {
            let shifted = sheet.shift(b, c);
            sheet.equal(shifted, a, 0);
        }
        _ => {
            sheet.at_most(a, b, c);
            sheet.at_most(b, a, -c);
        }
    }
}

/// Says that a and b differ, in one of the ways that can be said.
pub fn part(random: &mut Random, sheet: &mut Sheet, a: Term, b: Term) {
    match random.below(6) {
        0 => sheet.under(a, b, 0),
        1 => sheet.at_most(b, a, -1),
        2 => sheet.equal(a, b, 1),
        _ => sheet.unequal(a, b, 0),
    }
}

/// A cycle of bounds over new unknowns. It clashes when the gaps add up to less than zero, or to
/// zero with a strict one.
fn cycle(random: &mut Random, sheet: &mut Sheet, gaps: &[i64], strict: bool) {
    let points = sheet.unknowns(gaps.len());
    let strict_one = random.below(gaps.len());
    for (i, &gap) in gaps.iter().enumerate() {
        let (a, b) = (points[i], points[(i + 1) % gaps.len()]);
        match random.below(4) {
            _ if strict && i == strict_one => sheet.under(a, b, gap),
            0 => sheet.equal(a, b, gap),
            1 if sheet.terms_left() > 0 => {
                let shifted = sheet.shift(b, gap);
                sheet.at_most(a, shifted, 0);
            }
            _ => sheet.at_most(a, b, gap),
        }
    }
}

/// The total of a cycle that only just holds, or only just clashes.
fn total(random: &mut Random, strict: bool) -> i64 {
    let lowest_that_holds = i64::from(strict);
    lowest_that_holds - random.within(0..=1)
}

/// Finds totals that are off by one, and a strict bound that is overlooked or made up.
pub fn chains(random: &mut Random, large: bool) -> Sheet {
    let mut sheet = Sheet::new();
    let (strict, count) = (random.coin(), random.size(large, 1..=11, MOST - 1));
    let mut gaps: Vec<i64> = (0..count).map(|_| random.within(-9..=9)).collect();
    gaps.push(total(random, strict) - gaps.iter().sum::<i64>());
    cycle(random, &mut sheet, &gaps, strict);
    if random.one_in(8) {
        sheet.leave_out(random);
    }
    for _ in 0..random.below(4).min(sheet.entries_left()) {
        let (a, b) = (sheet.any_term(random), sheet.any_term(random));
        sheet.at_most(a, b, random.within(100..=300));
    }
    sheet
}

/// Finds gaps that aren't closed, and a list that isn't the first of the many that clash.
pub fn dense(random: &mut Random, large: bool) -> Sheet {
    let mut sheet = Sheet::new();
    sheet.unknowns(random.size(large, 3..=7, MOST / 4));
    if random.coin() {
        sheet.number(random.within(-4..=4));
    }
    let (parts, count) = (random.within(1..=3), random.size(large, 8..=40, MOST));
    let missed = random.pick(&[0, 0, 1, 2]);
    let levels = Levels::hidden(random, &sheet, parts, 4);
    levels.fill(random, &mut sheet, &BOUNDS, count, missed);
    sheet
}

/// Finds arguments that are never looked at again, symbols and argument counts that are mixed up,
/// and (x, y) taken for (y, x).
pub fn towers(random: &mut Random, large: bool) -> Sheet {
    if random.one_in(3) {
        return loops(random, if large { MOST - 3 } else { 8 });
    }
    let mut sheet = Sheet::new();
    let (x, y) = (sheet.unknown(), sheet.unknown());
    let (u, v) = (sheet.unknown(), sheet.unknown());
    for (left, right) in [(x, y), (u, v)] {
        if random.one_in(6) {
            sheet.at_most(left, right, 0);
        } else {
            tie(random, &mut sheet, left, right, 0);
        }
    }
    let (mut a, mut b) = (x, y);
    let height = random.size(large, 1..=8, (MOST - 6) / 2);
    // One tower in three has a floor that isn't built alike on both sides.
    let odd_floor = random.below(3 * height);
    for floor in 0..height {
        let symbol = random.pick(&[F, G]);
        let way = if floor == odd_floor {
            4 + random.below(3)
        } else {
            random.below(4)
        };
        (a, b) = match way {
            0 => (sheet.two(symbol, a, u), sheet.two(symbol, b, v)),
            1 => (sheet.two(symbol, y, a), sheet.two(symbol, x, b)),
            2 | 3 => (sheet.one(symbol, a), sheet.one(symbol, b)),
            4 => (
                sheet.one(symbol, a),
                sheet.one(symbol ^ (1 << random.below(8)), b),
            ),
            5 => (sheet.one(symbol, a), sheet.two(symbol, b, b)),
            _ => (sheet.two(symbol, a, u), sheet.two(symbol, v, b)),
        };
        // The floors above need two terms each.
        if random.one_in(5) && sheet.terms_left() >= 2 * (height - floor) {
            let c = random.within(-3..=3);
            (a, b) = (sheet.shift(a, c), sheet.shift(b, c));
        }
    }
    part(random, &mut sheet, a, b);
    sheet
}

/// A tower that is back at x after p floors, and after q. So it is after r floors, if the greatest
/// common divisor of p and q divides r: ties go up the tower again and again until they say so.
fn loops(random: &mut Random, most: usize) -> Sheet {
    let mut sheet = Sheet::new();
    let mut tower = vec![sheet.unknown()];
    let [p, q, r] = [(); 3].map(|_| random.count(2..=most));
    for below in 0..p.max(q).max(r) {
        tower.push(sheet.one(F, tower[below]));
    }
    tie(random, &mut sheet, tower[p], tower[0], 0);
    tie(random, &mut sheet, tower[q], tower[0], 0);
    part(random, &mut sheet, tower[r], tower[0]);
    sheet
}

/// Finds equalities that aren't passed often enough, or one way only. Sheet 13, longer: functions
/// tie what the bounds need for the next tie, and that one the next functions. With any link left
/// out it holds.
pub fn rounds(random: &mut Random, large: bool) -> Sheet {
    let mut sheet = Sheet::new();
    let (mut x, mut y) = (sheet.unknown(), sheet.unknown());
    tie(random, &mut sheet, x, y, 0);
    for _ in 0..random.size(large, 1..=6, (MOST - 5) / 5) {
        let (fx, fy) = match random.below(3) {
            0 => (sheet.two(G, x, y), sheet.two(G, y, x)),
            _ => (sheet.one(F, x), sheet.one(F, y)),
        };
        let (u, v) = (sheet.unknown(), sheet.unknown());
        let c = random.pick(&[0, 0, -2, 5]);
        sheet.at_most(fx, u, -c);
        sheet.at_most(u, fy, c);
        tie(random, &mut sheet, v, fx, c);
        (x, y) = (u, v);
    }
    let (fx, fy) = (sheet.one(F, x), sheet.one(F, y));
    part(random, &mut sheet, fx, fy);
    if random.coin() {
        sheet.leave_out(random);
    }
    sheet
}

/// Finds ties that are seen in = entries only: here arguments meet by way of shifts, numbers and
/// two bounds.
pub fn equalities(random: &mut Random, large: bool) -> Sheet {
    let mut sheet = Sheet::new();
    let points = sheet.unknowns(random.size(large, 2..=5, 3 * MOST / 8));
    let points: Vec<(Term, i64)> = points
        .into_iter()
        .map(|point| (point, random.within(-4..=4)))
        .collect();
    for i in 1..points.len() {
        let ((a, level_a), (b, level_b)) = (points[i], points[random.below(i)]);
        // The ties of later points take up to a term and two entries each, and what comes behind
        // them up to six and two.
        let later = points.len() - 1 - i;
        let left = sheet.terms_left() >= 4 + later + 6 && sheet.entries_left() >= 4 + 2 * later + 2;
        if left && random.one_in(3) {
            let (p, q) = (sheet.number(level_a), sheet.number(level_b));
            tie(random, &mut sheet, a, p, 0);
            tie(random, &mut sheet, b, q, 0);
        } else {
            tie(random, &mut sheet, a, b, level_a - level_b);
        }
    }
    for _ in 0..random.count(1..=2) {
        let ((a, level_a), (b, level_b)) = (random.pick(&points), random.pick(&points));
        let same = sheet.shift(b, level_a - level_b);
        let (fa, fb) = match random.below(4) {
            0 => (sheet.two(G, a, same), sheet.two(G, same, a)),
            1 => (sheet.shift(a, 2), sheet.shift(same, 2)),
            _ => (sheet.one(F, a), sheet.one(F, same)),
        };
        part(random, &mut sheet, fa, fb);
    }
    for _ in 0..random.size(large, 0..=4, MOST / 16) {
        sheet.leave_out(random);
    }
    sheet
}

/// Finds values where untied terms happen to be equal, and ≠ entries that are taken for broken, or
/// for met, whatever is tied.
pub fn unequal(random: &mut Random, large: bool) -> Sheet {
    let mut sheet = Sheet::new();
    sheet.unknowns(random.size(large, 2..=5, MOST / 2));
    for _ in 0..random.below(3) {
        sheet.number(random.within(-2..=2));
    }
    for _ in 0..random.size(large, 0..=3, MOST / 2 - 3) {
        let a = sheet.any_term(random);
        sheet.one(F, a);
    }
    let (parts, few, many) = (
        random.within(1..=2),
        random.size(large, 2..=8, MOST / 4),
        random.size(large, 4..=24, MOST - MOST / 4 - 3),
    );
    let levels = Levels::hidden(random, &sheet, parts, 2);
    levels.fill(random, &mut sheet, &BOUNDS, few, 0);
    levels.fill(random, &mut sheet, &[Unequal], many, 0);
    // At the very levels of two terms it clashes if they are tied, and not if they only may meet.
    if !random.one_in(3) {
        let Entry { a, b, c, .. } = levels.met(random, &[Equal]);
        sheet.unequal(a, b, c);
        if random.coin() {
            tie(random, &mut sheet, a, b, c);
        }
    }
    sheet
}

/// Finds < read as "≤ minus 1", and too small a D: many levels lie between two whole ones.
pub fn strict(random: &mut Random, large: bool) -> Sheet {
    let mut sheet = Sheet::new();
    let points = random.size(large, 2..=9, MOST - 2);
    sheet.unknowns(points);
    if random.coin() {
        sheet.number(random.within(-1..=1));
    }
    if random.one_in(3) {
        let a = sheet.any_term(random);
        sheet.one(F, a);
    }
    let count = random.count(points..=4 * points).min(MOST);
    let missed = random.pick(&[0, 1, 2, 4]) * if large { 8 } else { 1 };
    let levels = Levels::hidden(random, &sheet, 60, 1);
    levels.fill(
        random,
        &mut sheet,
        &[Under, Under, Under, AtMost, Unequal],
        count,
        missed,
    );
    sheet
}

/// Finds sums that leave two bytes, and signs that are lost.
pub fn extremes(random: &mut Random, large: bool) -> Sheet {
    let mut sheet = Sheet::new();
    // They add up to minus the number of pairs.
    let pairs = random.size(large, 1..=8, MOST / 2 - 2);
    let mut ends = [vec![LOWEST; pairs], vec![HIGHEST; pairs]].concat();
    random.shuffle(&mut ends);
    match random.below(if large { 3 } else { 5 }) {
        // A cycle that only just holds, or only just clashes.
        0 => {
            let strict = random.coin();
            ends.push(pairs as i64 + total(random, strict));
            cycle(random, &mut sheet, &ends, strict);
        }
        // Shifts of shifts that come back to where one shift goes.
        1 => {
            let x = sheet.unknown();
            let by_many = ends.iter().fold(x, |at, &c| sheet.shift(at, c));
            let by_one = sheet.shift(x, random.pick(&[0, 0, 1]) - pairs as i64);
            let (fx, fy) = (sheet.one(F, by_many), sheet.one(F, by_one));
            part(random, &mut sheet, fx, fy);
        }
        // Sheet 14, mostly shorter.
        2 => {
            let end = random.pick(&[LOWEST, HIGHEST]);
            let points = sheet.unknowns(random.size(large, 2..=20, MOST));
            for next in points.windows(2) {
                sheet.at_most(next[0], next[1], end);
            }
            let c = random.pick(&[LOWEST, LOWEST + 1, -1, HIGHEST]);
            sheet.at_most(points[points.len() - 1], points[0], c);
        }
        // Numbers at the ends, and an unknown between two of them.
        3 => {
            let (x, low, high) = (sheet.unknown(), sheet.number(LOWEST), sheet.number(HIGHEST));
            let between = [
                low,
                high,
                sheet.shift(low, HIGHEST),
                sheet.shift(high, LOWEST),
            ];
            let (c, back) = random.pick(&[(LOWEST, HIGHEST), (HIGHEST, LOWEST), (0, 0), (-1, 1)]);
            sheet.at_most(random.pick(&between), x, c);
            sheet.enter(
                random.pick(&[Equal, AtMost, Under]),
                x,
                random.pick(&between),
                back,
            );
        }
        // Sheet 12, with other kinds too.
        _ => {
            let (x, y) = (sheet.unknown(), sheet.unknown());
            for _ in 0..random.count(2..=3) {
                let (a, b) = random.pick(&[(x, y), (y, x)]);
                let c = random.pick(&[LOWEST, LOWEST, HIGHEST, HIGHEST, -1]);
                sheet.enter(random.pick(&KINDS), a, b, c);
            }
        }
    }
    sheet
}

/// Finds an entry that is blamed instead of its twin, and terms whose equals aren't known as such.
pub fn same(random: &mut Random, large: bool) -> Sheet {
    let mut sheet = Sheet::new();
    let mut equals = Vec::new();
    for _ in 0..random.size(large, 1..=1, MOST / 8) {
        let x = sheet.unknown();
        let c = random.within(-9..=9);
        let (p, q) = (sheet.number(c), sheet.number(c));
        equals.extend([
            (x, x),
            (p, q),
            (sheet.shift(x, 0), x),
            (sheet.one(F, x), sheet.one(F, x)),
            (sheet.two(F, p, x), sheet.two(F, q, x)),
        ]);
    }
    let (count, clashing) = (
        random.size(large, 1..=6, MOST / 3),
        random.pick(&[0, 0, 0, 1, 2, 3]),
    );
    for i in 0..count {
        let (a, b) = random.pick(&equals);
        let (kind, c) = random.pick(if i < clashing { &FALSE } else { &TRUE });
        for _ in 0..random.count(1..=3) {
            sheet.enter(kind, a, b, c);
        }
    }
    sheet
}

/// Finds a list that clashes and isn't the first: the shortest, the one met first or last. A ring
/// of bounds ties all points, spokes tie some of them again, and each other entry clashes with some
/// of those.
pub fn overlapping(random: &mut Random, large: bool) -> Sheet {
    let mut sheet = Sheet::new();
    let points = sheet.unknowns(random.size(large, 2..=5, MOST / 2));
    for i in 0..points.len() {
        sheet.at_most(points[i], points[(i + 1) % points.len()], 0);
    }
    for _ in 0..random.size(large, 0..=4, MOST / 4) {
        let (a, b) = (random.pick(&points), random.pick(&points));
        sheet.enter(random.pick(&[Equal, AtMost]), a, b, 0);
    }
    for _ in 0..random.size(large, 2..=5, MOST / 4) {
        let (mut a, mut b) = (random.pick(&points), random.pick(&points));
        if random.coin() {
            (a, b) = (sheet.one(F, a), sheet.one(F, b));
        }
        part(random, &mut sheet, a, b);
    }
    if random.coin() {
        let levels = Levels::hidden(random, &sheet, 1, 1);
        sheet.entries.retain(|entry| levels.meet(entry));
    }
    sheet
}

/// Finds a limit that is one off, a table that is too small, and values beyond their limits.
pub fn largest(random: &mut Random) -> Sheet {
    let mut sheet = match random.below(8) {
        0 => loops(random, MOST - 3),
        1 => rounds(random, true),
        2 => long_cycle(random),
        3 => crowd(random),
        4 => one_term(random),
        _ => {
            let entries = random.pick(&[0, 1, MOST - 1, MOST, MOST, MOST]);
            return any(random, MOST, entries);
        }
    };
    if random.coin() {
        fill(random, &mut sheet);
    }
    sheet
}

/// Fills a sheet up to its limits, with unknowns and with entries that mostly say nothing new.
pub fn fill(random: &mut Random, sheet: &mut Sheet) {
    sheet.unknowns(sheet.terms_left());
    for _ in 0..sheet.entries_left() {
        let (a, b) = (sheet.any_term(random), sheet.any_term(random));
        sheet.at_most(a, b, HIGHEST);
    }
}

/// Sheet 14, with other gaps too.
fn long_cycle(random: &mut Random) -> Sheet {
    let mut sheet = Sheet::new();
    let strict = random.coin();
    let mut gaps = match random.below(3) {
        0 => vec![LOWEST; MOST - 1],
        1 => [[LOWEST; MOST / 2 - 1], [HIGHEST; MOST / 2 - 1]].concat(),
        _ => [(); MOST - 1].map(|_| random.within(-99..=99)).to_vec(),
    };
    random.shuffle(&mut gaps);
    let back = total(random, strict) - gaps.iter().sum::<i64>();
    gaps.push(back.min(HIGHEST));
    cycle(random, &mut sheet, &gaps, strict);
    if random.one_in(4) {
        sheet.leave_out(random);
    }
    sheet
}

/// As many levels as a sheet can have, strictly between two whole ones.
fn crowd(random: &mut Random) -> Sheet {
    let mut sheet = Sheet::new();
    let points = sheet.unknowns(MOST);
    let kinds = random.pick(&[&[Under][..], &[Under, Under, AtMost]]);
    for next in points.windows(2) {
        sheet.enter(random.pick(kinds), next[0], next[1], 0);
    }
    let (first, last) = (points[0], points[MOST - 1]);
    sheet.enter(
        random.pick(&[Under, AtMost]),
        last,
        first,
        random.within(0..=1),
    );
    sheet
}

/// One term, compared with itself.
fn one_term(random: &mut Random) -> Sheet {
    let mut sheet = Sheet::new();
    let x = sheet.unknown();
    let clashing = random.below(3);
    for i in 0..MOST {
        let (kind, c) = random.pick(if i < clashing { &FALSE } else { &TRUE });
        sheet.enter(kind, x, x, c);
    }
    sheet
}

/// Finds most faults, as small sheets do: a little of everything.
pub fn mix(random: &mut Random, large: bool) -> Sheet {
    let terms = random.size(large, 1..=12, MOST);
    let entries = random.size(large, 0..=14, MOST);
    any(random, terms, entries)
}

/// Any terms, with few numbers, few symbols and few arguments, so that they meet. Any entries: made
/// with no plan, or around some levels, or tying arguments and parting functions.
pub fn any(random: &mut Random, terms: usize, entries: usize) -> Sheet {
    let mut sheet = Sheet::new();
    let mut arguments = vec![sheet.unknown()];
    for i in 1..terms {
        let (a, b) = (random.pick(&arguments), random.pick(&arguments));
        let term = match random.below(9) {
            0 => sheet.number(random.within(-2..=2)),
            1 => sheet.shift(a, random.within(-2..=2)),
            2 | 3 => sheet.one(random.pick(&[F, G]), a),
            4 | 5 => sheet.two(random.pick(&[F, G]), a, b),
            _ => sheet.unknown(),
        };
        if i < 4 || random.one_in(4) {
            arguments.push(term);
        }
    }
    match random.below(3) {
        0 => {
            for _ in 0..entries {
                let (a, b) = (sheet.any_term(random), sheet.any_term(random));
                sheet.enter(random.pick(&KINDS), a, b, random.within(-1..=2));
            }
        }
        1 => {
            let (parts, reach) = (random.within(1..=2), random.within(0..=2));
            let missed = random.below(4);
            let levels = Levels::hidden(random, &sheet, parts, reach);
            levels.fill(random, &mut sheet, &KINDS, entries, missed);
        }
        _ => {
            for _ in 0..entries {
                let (a, b) = (sheet.any_term(random), sheet.any_term(random));
                if sheet.alike(a, b) {
                    part(random, &mut sheet, a, b);
                } else {
                    let (a, b) = (random.pick(&arguments), random.pick(&arguments));
                    sheet.enter(random.pick(&[Equal, AtMost, AtMost]), a, b, 0);
                }
            }
        }
    }
    sheet
}
