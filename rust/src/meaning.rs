//! Checking values against the document's meaning, rule by rule.
//!
//! Rests on "What it means to hold" and the limits of "The answer record". Values are tested with
//! this, so it is as plain as can be and shares nothing with the judging but reading the fields.

use crate::random::words::shifted;
use crate::sheet::{entries, terms, Record};

/// In words, the first rule that the values n/D of the terms break; for a sheet that isn't
/// refused.
pub fn broken(sheet: &[u8], d: i64, n: &[i64]) -> Option<String> {
    let terms: Vec<Record> = terms(sheet).collect();
    if !(1..=65_535).contains(&d) {
        return Some(format!("D is {d}, not 1 to 65535"));
    }
    if n.len() != terms.len() {
        return Some(format!("{} values for {} terms", n.len(), terms.len()));
    }
    if let Some(i) = n.iter().position(|n| !(-(1 << 40)..=1 << 40).contains(n)) {
        return Some(format!("term {i}: n is {}, beyond 2^40", n[i]));
    }

    // Within those limits no sum or product below comes near the limits of an i64.
    let n_of = |term: u8| n[usize::from(term)];
    let times_d = |c: i16| i64::from(c) * d;

    for (i, &Record { kind, a, c, .. }) in terms.iter().enumerate() {
        let own = n[i];
        if kind == 1 && own != times_d(c) {
            return Some(format!("term {i}: the number {c} has n = {own}, D = {d}"));
        }
        if kind == 2 && own != n_of(a) + times_d(c) {
            let (shift, other) = (shifted(a, c), n_of(a));
            return Some(format!(
                "term {i}: {shift} has n = {own}, t{a} has {other}, D = {d}"
            ));
        }
    }

    for (i, one) in terms.iter().enumerate() {
        for (j, two) in terms.iter().enumerate().take(i) {
            let one_function = one.kind == two.kind && one.symbol == two.symbol;
            let equal_first = n_of(one.a) == n_of(two.a);
            let equal_second = n_of(one.b) == n_of(two.b);
            let equal = match one.kind {
                3 => one_function && equal_first,
                4 => one_function && equal_first && equal_second,
                _ => false,
            };
            if equal && n[i] != n[j] {
                let (symbol, one, two) = (one.symbol, n[i], n[j]);
                return Some(format!(
                    "terms {j} and {i}: symbol {symbol} of equal terms has n = {two} and {one}"
                ));
            }
        }
    }

    for (i, Record { kind, a, b, c, .. }) in entries(sheet).enumerate() {
        let (left, right) = (n_of(a), n_of(b) + times_d(c));
        let (sign, holds) = match kind {
            0 => ("=", left == right),
            1 => ("≠", left != right),
            2 => ("≤", left <= right),
            _ => ("<", left < right),
        };
        if !holds {
            let (shift, other) = (shifted(b, c), n_of(b));
            return Some(format!(
                "entry {i}: t{a} {sign} {shift} is false of n = {left} and {other}, D = {d}"
            ));
        }
    }
    None
}
