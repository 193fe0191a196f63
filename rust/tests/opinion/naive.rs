//! Two judges that share nothing with the panel's: one tries every value, for tiny sheets; one
//! closes a table of all bounds, for sheets of any size.

use crate::common::Line;

/// Whether some values make a tiny sheet hold, by trying all that matter.
///
/// Whether values keep the rules depends on their whole parts and the order of their fractions. T
/// terms and the zero level have at most T + 1 fractions, so D = T + 1 is enough. Where neighbours
/// are further apart than the largest c + 1, all that lies above can come down by 1. And without
/// a number, all values can move together until the first is 0.
pub fn some_values_hold(terms: &[Line], entries: &[Line]) -> bool {
    let d = terms.len() as i32 + 1;
    let largest = terms
        .iter()
        .chain(entries)
        .map(|line| i32::from(line.4).abs())
        .max();
    let span = terms.len() as i32 * (largest.unwrap_or(0) + 2) * d;
    try_values(terms, entries, d, span, &mut Vec::new())
}

fn try_values(terms: &[Line], entries: &[Line], d: i32, span: i32, n: &mut Vec<i32>) -> bool {
    let own = n.len();
    if own == terms.len() {
        return true;
    }
    let (kind, _, a, _, c) = terms[own];
    let values = match kind {
        1 => i32::from(c) * d..=i32::from(c) * d,
        2 => n[usize::from(a)] + i32::from(c) * d..=n[usize::from(a)] + i32::from(c) * d,
        _ if own == 0 && terms.iter().all(|term| term.0 != 1) => 0..=0,
        _ => -span..=span,
    };
    for value in values {
        n.push(value);
        if keeps_functions(terms, n)
            && keeps_entries(entries, d, n)
            && try_values(terms, entries, d, span, n)
        {
            return true;
        }
        n.pop();
    }
    false
}

/// Whether the last term has the value of every earlier application just like it.
fn keeps_functions(terms: &[Line], n: &[i32]) -> bool {
    let own = n.len() - 1;
    let value = |term: u8| n[usize::from(term)];
    let (kind, symbol, a, b, _) = terms[own];
    (0..own).all(|other| {
        let (other_kind, other_symbol, other_a, other_b, _) = terms[other];
        let met = kind >= 3
            && (kind, symbol) == (other_kind, other_symbol)
            && value(a) == value(other_a)
            && (kind == 3 || value(b) == value(other_b));
        !met || n[other] == n[own]
    })
}

/// Whether every entry is true whose terms have values, the last among them.
fn keeps_entries(entries: &[Line], d: i32, n: &[i32]) -> bool {
    entries.iter().all(|&(kind, _, a, b, c)| {
        let (a, b) = (usize::from(a), usize::from(b));
        if a.max(b) + 1 != n.len() {
            return true;
        }
        let (left, right) = (n[a], n[b] + i32::from(c) * d);
        match kind {
            0 => left == right,
            1 => left != right,
            2 => left <= right,
            _ => left < right,
        }
    })
}

/// How far one point may lie above another: a whole number, and whether it may be reached. The
/// order of pairs puts the tighter first.
type Most = (i64, bool);

const LEVEL: Most = (0, true);

/// Whether a sheet holds, by a table of how far each term, and the zero level, may lie above each
/// other, closed under sums and under the functions.
pub fn table_holds(terms: &[Line], entries: &[Line]) -> bool {
    let zero = terms.len();
    let mut table = vec![vec![(i64::MAX / 4, false); zero + 1]; zero + 1];
    let mut tighten = |a: usize, b: usize, most: Most| table[a][b] = table[a][b].min(most);
    for (own, &(kind, _, a, _, c)) in terms.iter().enumerate() {
        let from = if kind == 1 { zero } else { usize::from(a) };
        if kind == 1 || kind == 2 {
            tighten(own, from, (i64::from(c), true));
            tighten(from, own, (-i64::from(c), true));
        }
    }
    for &(kind, _, a, b, c) in entries {
        let (a, b, c) = (usize::from(a), usize::from(b), i64::from(c));
        match kind {
            0 => {
                tighten(a, b, (c, true));
                tighten(b, a, (-c, true));
            }
            1 => {}
            _ => tighten(a, b, (c, kind == 2)),
        }
    }
    loop {
        if !close(&mut table) {
            return false;
        }
        let tied = |a: u8, b: u8| {
            let (a, b) = (usize::from(a), usize::from(b));
            a == b || (table[a][b] == LEVEL && table[b][a] == LEVEL)
        };
        let mut met = Vec::new();
        for (i, one) in terms.iter().enumerate() {
            for (j, two) in terms.iter().enumerate() {
                let one_function = one.0 >= 3 && (one.0, one.1) == (two.0, two.1);
                let equal =
                    one_function && tied(one.2, two.2) && (one.0 == 3 || tied(one.3, two.3));
                if i != j && equal && table[i][j] > LEVEL {
                    met.push((i, j));
                }
            }
        }
        if met.is_empty() {
            break;
        }
        for (i, j) in met {
            table[i][j] = LEVEL;
        }
    }
    entries
        .iter()
        .filter(|entry| entry.0 == 1)
        .all(|&(_, _, a, b, c)| {
            let (a, b, c) = (usize::from(a), usize::from(b), i64::from(c));
            (a != b || c != 0) && (table[a][b] != (c, true) || table[b][a] != (-c, true))
        })
}

/// Closes a table under sums; false as soon as some point would have to lie below itself, since
/// sums would grow beyond all limits from there on.
fn close(table: &mut [Vec<Most>]) -> bool {
    let points = table.len();
    (0..points).all(|middle| {
        for a in 0..points {
            for b in 0..points {
                let (one, two) = (table[a][middle], table[middle][b]);
                table[a][b] = table[a][b].min((one.0 + two.0, one.1 && two.1));
            }
        }
        (0..points).all(|own| table[own][own] >= LEVEL)
    })
}
