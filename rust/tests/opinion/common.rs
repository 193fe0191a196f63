//! What the tests share: making sheets, random ones too, and reading answers.

use second::sheet::ROOM;
use second::Panel;

/// A term or an entry before it is bytes: kind, symbol, a, b, c.
pub type Line = (u8, u8, u8, u8, i16);

/// The bytes of a sheet.
pub fn sheet(terms: &[Line], entries: &[Line]) -> Vec<u8> {
    let length = 6 + 6 * terms.len() + 6 * entries.len();
    let mut bytes = (length as u16).to_be_bytes().to_vec();
    bytes.extend([1, terms.len() as u8, entries.len() as u8, 0]);
    for &(kind, symbol, a, b, c) in terms.iter().chain(entries) {
        bytes.extend([kind, symbol, a, b]);
        bytes.extend(c.to_be_bytes());
    }
    bytes
}

/// What a panel answered.
#[derive(Debug, PartialEq, Eq)]
pub enum Answer {
    Holds(i64, Vec<i64>),
    Clashes(Vec<u8>),
    Refused(u8, u16),
}

/// Judges a sheet in a room of 1,032 bytes, and checks the form of the record and that the rest of
/// the room is left alone.
pub fn answer(panel: &mut Panel, sheet: &[u8]) -> Answer {
    let mut room = [0xAA; ROOM];
    let (number, place) = panel.judge(sheet, &mut room);
    let (record, rest) = room.split_at(if number > 1 { 0 } else { usize::from(place) });
    assert!(
        rest.iter().all(|&byte| byte == 0xAA),
        "bytes past the record changed"
    );
    if number > 1 {
        return Answer::Refused(number, place);
    }
    assert_eq!(
        record[..2],
        place.to_be_bytes(),
        "the record states its length"
    );
    assert_eq!(record[2..4], [1, number], "version and verdict");
    assert_eq!(record[6..8], [0, 0], "unused bytes");
    let count = u16::from_be_bytes([record[4], record[5]]);
    let body = &record[8..];
    if number == 1 {
        assert_eq!(
            body.len(),
            usize::from(count),
            "k is the length of the list"
        );
        return Answer::Clashes(body.to_vec());
    }
    assert_eq!(
        body.len(),
        8 * usize::from(sheet[3]),
        "a value for each term"
    );
    let value = |bytes: &[u8]| bytes.iter().fold(0u64, |n, &byte| n << 8 | u64::from(byte)) as i64;
    Answer::Holds(i64::from(count), body.chunks(8).map(value).collect())
}

/// Xorshift, so that every run sees the same sheets.
pub struct Random(pub u64);

impl Random {
    pub fn below(&mut self, end: usize) -> usize {
        self.0 ^= self.0 << 13;
        self.0 ^= self.0 >> 7;
        self.0 ^= self.0 << 17;
        (self.0 >> 20) as usize % end
    }

    fn number(&mut self, most: i32) -> i16 {
        (self.below(2 * most as usize + 1) as i32 - most) as i16
    }

    /// Terms of any kind, with few symbols so that functions meet.
    pub fn terms(&mut self, count: usize, most: i32) -> Vec<Line> {
        let mut terms = Vec::new();
        for own in 0..count {
            let argument = |random: &mut Random| random.below(own) as u8;
            let symbol = 7 + self.below(2) as u8;
            let kinds = if own == 0 {
                &[0, 1][..]
            } else {
                &[0, 0, 1, 2, 3, 3, 4][..]
            };
            terms.push(match kinds[self.below(kinds.len())] {
                0 => (0, 0, 0, 0, 0),
                1 => (1, 0, 0, 0, self.number(most)),
                2 => (2, 0, argument(self), 0, self.number(most)),
                3 => (3, symbol, argument(self), 0, 0),
                _ => (4, symbol, argument(self), argument(self), 0),
            });
        }
        terms
    }

    /// Entries of any kind between any terms.
    pub fn entries(&mut self, count: usize, terms: usize, most: i32) -> Vec<Line> {
        let mut entries = Vec::new();
        for _ in 0..count {
            let kind = [0, 1, 1, 2, 2, 2, 3][self.below(7)];
            let (a, b) = (self.below(terms) as u8, self.below(terms) as u8);
            entries.push((kind, 0, a, b, self.number(most)));
        }
        entries
    }

    /// Entries that are true together, most of them barely, and each on a chance of one in so many
    /// perhaps not. Such sheets have many ties.
    pub fn true_entries(&mut self, count: usize, terms: &[Line], loose: usize) -> Vec<Line> {
        let mut values: Vec<i32> = Vec::new();
        for &(kind, symbol, a, b, c) in terms {
            let (a, b) = (usize::from(a), usize::from(b));
            values.push(match kind {
                0 => self.below(5) as i32,
                1 => i32::from(c),
                2 => values[a] + i32::from(c),
                3 => (i32::from(symbol) * 5 + values[a]).rem_euclid(4),
                _ => (i32::from(symbol) * 3 + values[a] * 2 + values[b]).rem_euclid(4),
            });
        }
        let mut entries = Vec::new();
        while entries.len() < count {
            let (a, b) = (self.below(terms.len()), self.below(terms.len()));
            let kind = [0, 1, 1, 2, 2, 2, 2, 3][self.below(8)];
            let more = match kind {
                0 => 0,
                1 => [-1, 1][self.below(2)],
                2 => self.below(2) as i32,
                _ => 1,
            };
            let off = if self.below(loose) == 0 {
                i32::from(self.number(1))
            } else {
                0
            };
            if let Ok(c) = i16::try_from(values[a] - values[b] + more + off) {
                entries.push((kind, 0, a as u8, b as u8, c));
            }
        }
        entries
    }

    /// Unknowns and applications of one function, squeezed between each other. Ties go to and fro
    /// between gaps and functions in such sheets.
    pub fn squeezed(&mut self, terms: usize, entries: usize) -> (Vec<Line>, Vec<Line>) {
        let mut lines = vec![(0, 0, 0, 0, 0); terms.min(2)];
        for own in lines.len()..terms {
            lines.push(match self.below(2) {
                0 => (0, 0, 0, 0, 0),
                _ => (3, 7, self.below(own) as u8, 0, 0),
            });
        }
        let mut between = Vec::new();
        for _ in 0..entries {
            let kind = [0, 1, 2, 2, 2, 2, 2, 2, 2, 2][self.below(10)];
            between.push((kind, 0, self.below(terms) as u8, self.below(terms) as u8, 0));
        }
        (lines, between)
    }
}
