//! A quick reader of sheets typed as text: one pass by recursive descent, and the terms met looked
//! up one after the other. It is what a programmer would write who wants speed, and is only timed
//! against; the independent reader of `second` is made to be clear and takes several passes.

use second::sheet::MOST;
use second::text::ROOM;

/// The most brackets that may be open at once.
const DEEPEST: usize = 16;

/// Methods that give nothing have found a refusal: None goes back in a register, as a number does.
struct Reader<'a> {
    text: &'a [u8],
    at: usize,
    open: usize,
    /// The record of each term met, as a number, which is quickly compared; an unknown's has its x
    /// in the second byte, to tell it by.
    terms: [u64; MOST],
    met: usize,
    refusal: (u8, u32),
}

/// Reads a text into the room, and answers a number and a place.
pub fn read(text: &[u8], room: &mut [u8]) -> (u8, u32) {
    if room.len() < ROOM {
        return (24, 0);
    }
    let mut reader = Reader {
        text,
        at: 0,
        open: 0,
        terms: [0; MOST],
        met: 0,
        refusal: (0, 0),
    };
    let mut entries = [[0; 6]; MOST];
    match reader.lines(&mut entries) {
        Some(lines) => (0, reader.write(&entries[..lines], room) as u32),
        None => reader.refusal,
    }
}

impl Reader<'_> {
    /// The next byte, or at the end 0, which no text has.
    fn next(&self) -> u8 {
        self.text.get(self.at).copied().unwrap_or(0)
    }

    fn refuse<T>(&mut self, number: u8, place: usize) -> Option<T> {
        self.refusal = (number, place as u32);
        None
    }

    fn fault<T>(&mut self) -> Option<T> {
        self.refuse(20, self.at)
    }

    fn take(&mut self, byte: u8) -> Option<()> {
        match self.takes(byte) {
            true => Some(()),
            false => self.fault(),
        }
    }

    /// Whether this byte is next; if so it is taken.
    fn takes(&mut self, byte: u8) -> bool {
        if self.next() != byte {
            return false;
        }
        self.at += 1;
        true
    }

    fn lines(&mut self, entries: &mut [[u8; 6]; MOST]) -> Option<usize> {
        let mut lines = 0;
        while lines == 0 || self.at < self.text.len() {
            if lines == MOST {
                return match self.next() {
                    b'x' | b'f' | b'-' | b'0'..=b'9' => self.refuse(23, self.at),
                    _ => self.fault(),
                };
            }
            let a = self.term()?;
            let kind = self.comparison()?;
            let b = self.term()?;
            self.take(b'\n')?;
            entries[lines] = [kind, 0, a, b, 0, 0];
            lines += 1;
        }
        Some(lines)
    }

    fn comparison(&mut self) -> Option<u8> {
        if self.takes(b'=') {
            Some(0)
        } else if self.takes(b'!') {
            self.take(b'=')?;
            Some(1)
        } else if self.takes(b'<') {
            Some(if self.takes(b'=') { 2 } else { 3 })
        } else {
            self.fault()
        }
    }

    /// The number of the term that stands here, with its shift if it has one.
    fn term(&mut self) -> Option<u8> {
        let number = match self.next() {
            b'x' => {
                self.at += 1;
                let own = self.digits(99)?;
                self.meet([0, own as u8, 0, 0, 0, 0])?
            }
            b'f' => {
                self.at += 1;
                self.application()?
            }
            b'-' => {
                self.at += 1;
                if self.next() == b'0' {
                    return self.fault();
                }
                let c = self.digits(32_768)?;
                return self.meet_number(1, 0, -c);
            }
            _ => {
                let c = self.digits(32_767)?;
                return self.meet_number(1, 0, c);
            }
        };
        match self.next() {
            b'+' => {
                self.at += 1;
                let c = self.digits(32_767)?;
                self.meet_number(2, number, c)
            }
            b'-' => {
                self.at += 1;
                let c = self.digits(32_768)?;
                self.meet_number(2, number, -c)
            }
            _ => Some(number),
        }
    }

    fn application(&mut self) -> Option<u8> {
        let symbol = self.digits(255)? as u8;
        self.take(b'(')?;
        if self.open == DEEPEST {
            return self.refuse(21, self.at - 1);
        }
        self.open += 1;
        let a = self.term()?;
        let record = if self.takes(b',') {
            [4, symbol, a, self.term()?, 0, 0]
        } else {
            [3, symbol, a, 0, 0, 0]
        };
        self.take(b')')?;
        self.open -= 1;
        self.meet(record)
    }

    /// A number without leading zeros, up to a limit, which no single digit is over.
    fn digits(&mut self, limit: i32) -> Option<i32> {
        let mut number = match self.next() {
            digit @ b'0'..=b'9' => i32::from(digit - b'0'),
            _ => return self.fault(),
        };
        self.at += 1;
        while let digit @ b'0'..=b'9' = self.next() {
            if number == 0 {
                return self.fault();
            }
            number = 10 * number + i32::from(digit - b'0');
            if number > limit {
                return self.refuse(22, self.at);
            }
            self.at += 1;
        }
        Some(number)
    }

    fn meet_number(&mut self, kind: u8, a: u8, c: i32) -> Option<u8> {
        let [high, low] = (c as i16).to_be_bytes();
        self.meet([kind, 0, a, 0, high, low])
    }

    /// The number of a term that was completed at the byte before.
    fn meet(&mut self, [kind, symbol, a, b, high, low]: [u8; 6]) -> Option<u8> {
        let term = u64::from_be_bytes([kind, symbol, a, b, high, low, 0, 0]);
        let met = &self.terms[..self.met];
        if let Some(number) = met.iter().position(|&met| met == term) {
            return Some(number as u8);
        }
        if self.met == MOST {
            return self.refuse(23, self.at - 1);
        }
        self.terms[self.met] = term;
        self.met += 1;
        Some(self.met as u8 - 1)
    }

    /// Writes the sheet, and gives its length.
    fn write(&self, entries: &[[u8; 6]], room: &mut [u8]) -> usize {
        let length = 6 * (1 + self.met + entries.len());
        let [high, low] = (length as u16).to_be_bytes();
        let head = [high, low, 1, self.met as u8, entries.len() as u8, 0];
        let met = &self.terms[..self.met];
        let terms = met.iter().map(|term| match term.to_be_bytes() {
            [0, ..] => [0; 6],
            [kind, symbol, a, b, high, low, ..] => [kind, symbol, a, b, high, low],
        });
        let records = [head].into_iter().chain(terms);
        let records = records.chain(entries.iter().copied());
        for (record, place) in records.zip(room.chunks_exact_mut(6)) {
            place.copy_from_slice(&record);
        }
        length
    }
}
