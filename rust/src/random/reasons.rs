//! The recipes for sheets whose reasons are hard to write. Those that clash are what matters, so
//! most do.

use super::judged::{part, tie};
use super::sheet::{Sheet, Term};
use super::Random;
use crate::sheet::MOST;

// The symbols of document 01's sheets.
const F: u8 = 7;
const G: u8 = 8;

/// Two applications that are equal if the terms are.
fn applied(random: &mut Random, sheet: &mut Sheet, x: Term, y: Term) -> (Term, Term) {
    match random.below(4) {
        0 => (sheet.two(G, x, y), sheet.two(G, y, x)),
        1 => (sheet.two(F, x, x), sheet.two(F, x, y)),
        _ => (sheet.one(F, x), sheet.one(F, y)),
    }
}

/// Finds ties that stand in each other's way: bounds tie two applications at one gap, and equal
/// arguments at another. Who ties them by the bounds first can't tie them again.
pub fn walls(random: &mut Random, large: bool) -> Sheet {
    let mut sheet = Sheet::new();
    let (mut x, mut y) = (sheet.unknown(), sheet.unknown());
    tie(random, &mut sheet, x, y, 0);
    // A floor takes up to six terms, and what is below and above them nine.
    for _ in 0..random.size(large, 0..=3, (MOST - 9) / 6) {
        let (fx, fy) = applied(random, &mut sheet, x, y);
        let (c, off) = (random.within(-3..=3), random.pick(&[0, 0, 0, 0, 0, 1]));
        let (u, v) = (sheet.unknown(), sheet.unknown());
        tie(random, &mut sheet, u, fx, c);
        tie(random, &mut sheet, v, fy, c + off);
        (x, y) = (u, v);
    }
    let (fx, fy) = applied(random, &mut sheet, x, y);
    let (c, off) = (random.within(-3..=3), random.pick(&[0, 1, -1, 7]));
    let u = sheet.unknown();
    tie(random, &mut sheet, u, fx, c);
    tie(random, &mut sheet, u, fy, c + off);
    if off == 0 || random.one_in(3) {
        part(random, &mut sheet, fx, fy);
    }
    sheet
}

/// Finds walks that are cut short, and a limit of theirs that is one off: a ring over every point,
/// the zero level too, has a bound for each.
pub fn rings(random: &mut Random, large: bool) -> Sheet {
    let mut sheet = Sheet::new();
    let count = random.size(large, 0..=9, MOST - 2);
    let (p, q) = (random.within(-9..=9), random.within(-9..=9));
    // From q round to p, and from there by the zero level, which comes to p - q, back to q.
    let mut ring = vec![(sheet.number(q), 0)];
    let mut at = 0;
    for _ in 0..count {
        at += random.within(-9..=9);
        ring.push((sheet.unknown(), at));
    }
    let last = sheet.number(p);
    let (strict, unequal) = random.pick(&[(true, false), (false, false), (false, true)]);
    let over = i64::from(!strict && !unequal) - i64::from(random.one_in(8));
    ring.push((last, q - p - over));
    let strict_one = random.below(ring.len() - 1);
    for (own, two) in ring.windows(2).enumerate() {
        let ((a, from), (b, to)) = (two[0], two[1]);
        match strict && own == strict_one {
            true => sheet.under(a, b, to - from),
            false => sheet.at_most(a, b, to - from),
        }
    }
    if unequal {
        let ((a, from), (b, to)) = (random.pick(&ring), random.pick(&ring));
        sheet.unequal(a, b, to - from);
    }
    sheet
}

/// Finds a gap that is lost or has the wrong sign: terms tied at all gaps, and ≠ entries, bounds and
/// applications that know how far apart they are.
pub fn apart(random: &mut Random, large: bool) -> Sheet {
    let mut sheet = Sheet::new();
    let reach = random.pick(&[3, 40, 16_000]);
    // A tie takes up to a term and two entries, and the end five terms and an entry.
    let points = sheet.unknowns(random.size(large, 2..=6, MOST / 2 - 4));
    let levels: Vec<i64> = points
        .iter()
        .map(|_| random.within(-reach..=reach))
        .collect();
    for own in 1..points.len() {
        let below = random.below(own);
        let c = levels[own] - levels[below];
        tie(random, &mut sheet, points[own], points[below], c);
    }
    let (one, two) = (random.below(points.len()), random.below(points.len()));
    let (a, b, c) = (points[one], points[two], levels[one] - levels[two]);
    let off = random.pick(&[0, 0, 0, 1]);
    match random.below(5) {
        0 => sheet.under(a, b, c + off),
        1 => sheet.equal(b, a, off + 1 - c),
        2 => {
            let same = sheet.shift(b, c + off);
            let (fa, fb) = applied(random, &mut sheet, a, same);
            part(random, &mut sheet, fa, fb);
        }
        _ => sheet.unequal(a, b, c + off),
    }
    sheet
}

#[cfg(test)]
mod tests {
    use super::super::families::FOR_REASONS;
    use crate::reason::{Reason, Step, Writer, ROOM};
    use crate::sheet::MOST;

    #[test]
    fn most_sheets_clash_and_each_family_has_what_it_is_for() {
        let mut writer = Writer::new();
        let mut seen = [(0, 0, 0); FOR_REASONS.len()];
        for (family, seen) in FOR_REASONS.iter().zip(&mut seen) {
            for number in 0..1000 {
                let mut room = vec![0; ROOM];
                let sheet = family.sheet(5, number);
                if let (1, length) = writer.write(&sheet, &mut room) {
                    let Reason { steps, .. } = Reason::from(&room[..length as usize]).unwrap();
                    let over = |kind: u8| steps.iter().filter(|step| step.kind == kind).count();
                    let closing_walk = &steps[steps.len() - 1].first;
                    seen.0 += 1;
                    seen.1 = seen.1.max(closing_walk.len());
                    seen.2 = seen.2.max(over(Step::BY_FUNCTIONS));
                }
            }
            assert!(seen.0 > 600, "{} of {} clash", seen.0, family.name);
        }
        let [walls, rings, _] = seen;
        assert!(walls.2 > 15, "{} function ties in a sheet", walls.2);
        assert_eq!(rings.1, MOST + 1, "the longest closing walk");
    }
}
