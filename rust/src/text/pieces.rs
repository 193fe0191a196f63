//! The pieces that a text of the form consists of, and what their digits may be.

use super::Slip;

/// What a piece is.
#[derive(Clone, Copy, Debug, PartialEq, Eq)]
pub enum Kind {
    /// `x` and digits.
    Unknown,
    /// Digits, with or without `-`.
    Number,
    /// `+` or `-`, and digits, behind a term.
    Shift,
    /// `f` and digits.
    Symbol,
    /// An opening bracket.
    Open,
    /// A closing bracket.
    Close,
    /// A comma.
    Comma,
    /// One of `=` `!=` `<=` `<`.
    Comparison,
    /// A newline.
    Newline,
}

use Kind::*;

/// Some bytes of a text, as far as they go.
#[derive(Clone, Copy, Debug)]
pub struct Piece<'a> {
    /// What they are.
    pub kind: Kind,
    /// The place of the first.
    pub start: usize,
    /// The bytes.
    pub bytes: &'a [u8],
}

/// The pieces of bytes that begin a text. The last one may be cut short.
pub fn pieces(text: &[u8]) -> Vec<Piece<'_>> {
    let mut pieces: Vec<Piece> = Vec::new();
    let mut start = 0;
    while start < text.len() {
        let kind = match text[start] {
            b'x' => Unknown,
            b'f' => Symbol,
            b'(' => Open,
            b')' => Close,
            b',' => Comma,
            b'\n' => Newline,
            b'=' | b'!' | b'<' => Comparison,
            // Behind a term a sign begins a shift, and nothing else can.
            _ => match pieces.last().map(|piece| piece.kind) {
                Some(Unknown | Number | Shift | Close) => Shift,
                _ => Number,
            },
        };
        let goes_on = |byte: &u8| match kind {
            Unknown | Number | Shift | Symbol => byte.is_ascii_digit(),
            Comparison => *byte == b'=' && text[start] != b'=',
            _ => false,
        };
        let more = text[start + 1..].iter().take_while(|byte| goes_on(byte));
        let end = start + 1 + more.count();
        pieces.push(Piece {
            kind,
            start,
            bytes: &text[start..end],
        });
        start = end;
    }
    pieces
}

impl Piece<'_> {
    /// The place behind the last byte.
    pub fn end(&self) -> usize {
        self.start + self.bytes.len()
    }

    /// Whether the piece is more than a letter or a sign whose digits are missing.
    pub fn has_digits(&self) -> bool {
        self.bytes.iter().any(u8::is_ascii_digit)
    }

    /// The number that the digits make up to each of them, each with its place. One that no limit
    /// comes near stays as it is, however many digits follow.
    fn numbers(&self) -> impl Iterator<Item = (usize, i64)> + '_ {
        let sign = if self.bytes[0] == b'-' { -1 } else { 1 };
        let digits = (self.start..).zip(self.bytes);
        let digits = digits.filter(|(_, byte)| byte.is_ascii_digit());
        digits.scan(0, move |size: &mut i64, (place, byte)| {
            *size = (*size * 10 + i64::from(byte - b'0')).min(1_000_000);
            Some((place, sign * *size))
        })
    }

    /// The number that the digits and the sign make.
    pub fn number(&self) -> i64 {
        self.numbers().last().map_or(0, |(_, number)| number)
    }

    /// The first digit that takes the number out of its range.
    pub fn out_of_range(&self, slip: Option<Slip>) -> Option<usize> {
        let slips = |into| i64::from(slip == Some(into));
        let range = match self.kind {
            Unknown => 0..=99 + slips(Slip::UnknownOver),
            Symbol => 0..=255 + slips(Slip::SymbolOver),
            _ => -32_768 + slips(Slip::NoSign)..=32_767,
        };
        let mut out = self.numbers().filter(|(_, n)| !range.contains(n));
        let (place, _) = match slip {
            Some(Slip::LastDigit) => out.last()?,
            _ => out.next()?,
        };
        Some(place)
    }
}
