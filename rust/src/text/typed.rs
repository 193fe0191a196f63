//! The sheet that the pieces of a text make.

use super::pieces::{Kind, Piece};
use super::Slip;
use crate::sheet::MOST;
use std::collections::HashMap;

/// A term or an entry, byte by byte.
type Record = [u8; 6];

/// A version 1 sheet in the making.
#[derive(Default)]
pub struct Typed {
    terms: Vec<Record>,
    entries: Vec<Record>,
}

/// An application that isn't closed yet.
struct Open {
    start: usize,
    symbol: u8,
    /// How many terms stood before its arguments.
    before: usize,
}

/// The terms in the order in which they are completed, and the entries; or the place of the last
/// byte of a term too many, or of the first of a line too many. Terms are the same when they are
/// spelled the same. The last piece may be cut short, and lines begin only before their end.
pub fn typed(
    text: &[u8],
    pieces: &[Piece],
    lines_end: usize,
    slip: Option<Slip>,
) -> Result<Typed, usize> {
    let slips = |into| slip == Some(into);
    let mut typed = Typed::default();
    let mut met: HashMap<&[u8], u8> = HashMap::new();
    // Terms that are completed and aren't part of another yet, each with the place of its start.
    let mut terms: Vec<(usize, u8)> = Vec::new();
    let mut open: Vec<Open> = Vec::new();
    let mut comparison = 0;
    for piece in pieces {
        let [high, low] = (piece.number() as i16).to_be_bytes();
        let (start, record) = match piece.kind {
            Kind::Unknown | Kind::Number | Kind::Shift if !piece.has_digits() => continue,
            Kind::Unknown => (piece.start, [0; 6]),
            Kind::Number => (piece.start, [1, 0, 0, 0, high, low]),
            Kind::Shift => {
                let (start, a) = terms.pop().expect("a shift is behind a term");
                (start, [2, 0, a, 0, high, low])
            }
            Kind::Close => {
                let Open {
                    start,
                    symbol,
                    before,
                } = open.pop().expect("a bracket was opened");
                let record = match terms[before..] {
                    [(_, a)] => [3, symbol, a, 0, 0, 0],
                    [(_, a), (_, b)] => [4, symbol, a, b, 0, 0],
                    _ => unreachable!("there are one or two arguments"),
                };
                terms.truncate(before);
                (start, record)
            }
            Kind::Symbol => {
                open.push(Open {
                    start: piece.start,
                    symbol: piece.number() as u8,
                    before: terms.len(),
                });
                continue;
            }
            Kind::Open | Kind::Comma => continue,
            Kind::Comparison => {
                comparison = match piece.bytes {
                    b"=" => 0,
                    b"!=" => 1,
                    b"<=" => 2,
                    _ => 3,
                };
                continue;
            }
            Kind::Newline => {
                let entry = match terms[..] {
                    [(_, a), (_, b)] => [comparison, 0, a, b, 0, 0],
                    _ => unreachable!("a line has two terms"),
                };
                typed.entries.push(entry);
                terms.clear();
                if typed.entries.len() == MOST && piece.end() < lines_end {
                    return Err(piece.end() + usize::from(slips(Slip::LineLate)));
                }
                continue;
            }
        };
        let spelling = &text[start..piece.end()];
        let known = met.get(spelling).copied();
        let number = match known.or_else(|| typed.taken_for(record, slip)) {
            Some(number) if !slips(Slip::Again) => number,
            _ if typed.terms.len() == MOST => {
                return Err(piece.end() - 1 + usize::from(slips(Slip::TermLate)));
            }
            _ => {
                let number = typed.terms.len() as u8;
                typed.terms.push(record);
                met.insert(spelling, number);
                number
            }
        };
        terms.push((start, number));
    }
    match slip {
        Some(Slip::UnknownsFirst) => typed.unknowns_first(),
        Some(Slip::ShiftInEntry) => typed.shifts_in_entries(),
        _ => {}
    }
    Ok(typed)
}

impl Typed {
    /// The sheet byte by byte.
    pub fn bytes(&self) -> Vec<u8> {
        let (t, l) = (self.terms.len(), self.entries.len());
        let [high, low] = ((6 + 6 * t + 6 * l) as u16).to_be_bytes();
        let head = [high, low, 1, t as u8, l as u8, 0];
        [&[head], &self.terms[..], &self.entries[..]]
            .concat()
            .concat()
    }

    /// The term for which another is taken by a slip.
    fn taken_for(&self, record: Record, slip: Option<Slip>) -> Option<u8> {
        match (slip?, record) {
            (Slip::NoZero, [2, 0, a, 0, 0, 0]) => Some(a),
            (Slip::Crossed, [4, symbol, a, b, 0, 0]) => {
                let crossed = [4, symbol, b, a, 0, 0];
                let number = self.terms.iter().position(|&record| record == crossed);
                number.map(|number| number as u8)
            }
            _ => None,
        }
    }

    /// The slip of numbering unknowns before all other terms.
    fn unknowns_first(&mut self) {
        let mut order: Vec<usize> = (0..self.terms.len()).collect();
        order.sort_by_key(|&number| self.terms[number][0] != 0);
        let moved = |number: u8| {
            let new = order.iter().position(|&old| old == usize::from(number));
            new.expect("every term has a new number") as u8
        };
        for [_, _, a, b, ..] in &mut self.entries {
            (*a, *b) = (moved(*a), moved(*b));
        }
        let renumbered = |record: Record| match record {
            [kind @ (2 | 3), symbol, a, b, high, low] => [kind, symbol, moved(a), b, high, low],
            [4, symbol, a, b, high, low] => [4, symbol, moved(a), moved(b), high, low],
            record => record,
        };
        let terms = order.iter().map(|&old| renumbered(self.terms[old]));
        self.terms = terms.collect();
    }

    /// The slip of taking a shift behind a comparison for the entry's own.
    fn shifts_in_entries(&mut self) {
        for entry in &mut self.entries {
            if let [2, 0, a, 0, high, low] = self.terms[usize::from(entry[3])] {
                entry[3..].copy_from_slice(&[a, high, low]);
            }
        }
    }
}
