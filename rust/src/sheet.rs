//! Reading a sheet: its fields, and when it is sent back.
//!
//! Rests on "The sheet, byte by byte" and "When the panel sends a sheet back".

/// The most terms, and the most entries, of a sheet. Every other size follows from it.
pub const MOST: usize = 128;

/// The answer room that is enough for every answer: a head of eight bytes, and as many for each
/// value.
pub const ROOM: usize = 8 + 8 * MOST;

/// The bytes of the longest sheet.
pub const LONGEST: usize = HEAD + RECORD * (MOST + MOST);

const HEAD: usize = 6;
const RECORD: usize = 6;

/// A term record or an entry record: both have the same layout. Where a term has its symbol, an
/// entry has its second byte.
#[derive(Clone, Copy, Debug)]
pub struct Record {
    /// Which kind of term or entry.
    pub kind: u8,
    /// The symbol of an application; 0 in an entry.
    pub symbol: u8,
    /// The first term.
    pub a: u8,
    /// The second term.
    pub b: u8,
    /// The whole number.
    pub c: i16,
}

impl Record {
    fn new(bytes: &[u8]) -> Record {
        let bytes: [u8; RECORD] = bytes.try_into().expect("a record has its length");
        let [kind, symbol, a, b, high, low] = bytes;
        Record {
            kind,
            symbol,
            a,
            b,
            c: i16::from_be_bytes([high, low]),
        }
    }

    fn is_term(&self, own: usize) -> bool {
        let below = |argument: u8| usize::from(argument) < own;
        match self.kind {
            0 => self.symbol == 0 && self.a == 0 && self.b == 0 && self.c == 0,
            1 => self.symbol == 0 && self.a == 0 && self.b == 0,
            2 => self.symbol == 0 && below(self.a) && self.b == 0,
            3 => below(self.a) && self.b == 0 && self.c == 0,
            4 => below(self.a) && below(self.b) && self.c == 0,
            _ => false,
        }
    }

    fn is_entry(&self, terms: usize) -> bool {
        let below = |term: u8| usize::from(term) < terms;
        self.kind <= 3 && self.symbol == 0 && below(self.a) && below(self.b)
    }
}

/// The terms of a sheet that has the length its head asks for.
pub fn terms(sheet: &[u8]) -> impl Iterator<Item = Record> + '_ {
    let end = HEAD + RECORD * usize::from(sheet[3]);
    sheet[HEAD..end].chunks_exact(RECORD).map(Record::new)
}

/// The entries of a sheet that has the length its head asks for.
pub fn entries(sheet: &[u8]) -> impl Iterator<Item = Record> + '_ {
    let start = HEAD + RECORD * usize::from(sheet[3]);
    sheet[start..].chunks_exact(RECORD).map(Record::new)
}

/// Hands each term and each entry to the state, in order, once it is known to be allowed. The
/// answer is the number and place of a refusal; what the state was handed before it is then of
/// no use.
pub fn read<S>(
    sheet: &[u8],
    room: usize,
    state: &mut S,
    term: impl Fn(&mut S, usize, Record),
    entry: impl Fn(&mut S, usize, Record),
) -> Option<(u8, u16)> {
    if sheet.len() < HEAD || usize::from(u16::from_be_bytes([sheet[0], sheet[1]])) != sheet.len() {
        return Some((10, 0));
    }
    if sheet[2] != 1 {
        return Some((11, 0));
    }
    let (t, l) = (usize::from(sheet[3]), usize::from(sheet[4]));
    let length = HEAD + RECORD * t + RECORD * l;
    if t == 0 || t > MOST || l > MOST || sheet[5] != 0 || sheet.len() != length {
        return Some((12, 0));
    }
    for (own, record) in terms(sheet).enumerate() {
        if !record.is_term(own) {
            return Some((13, own as u16));
        }
        term(state, own, record);
    }
    for (own, record) in entries(sheet).enumerate() {
        if !record.is_entry(t) {
            return Some((14, own as u16));
        }
        entry(state, own, record);
    }
    if room < ROOM {
        return Some((15, 0));
    }
    None
}

/// The number and place with which a sheet is sent back, given the length of the answer room.
pub fn refusal(sheet: &[u8], room: usize) -> Option<(u8, u16)> {
    read(sheet, room, &mut (), |_, _, _| (), |_, _, _| ())
}
