//! Reading a text: the sheet that it types, or why and where it is sent back.
//!
//! Rests on request 1 of document 02, "Sheets typed as text", on "Request 1: text" of the paper on
//! byte forms, and for the sheet on document 01. The form is looked at byte by byte, and each limit
//! by itself over all that begins a text; of the faults found, the earliest counts.

mod form;
mod pieces;
mod slip;
mod typed;

pub use slip::Slip;

use crate::sheet::LONGEST;
use pieces::{pieces, Kind, Piece};
use std::cmp::Reverse;

/// The room that is enough for every sheet.
pub const ROOM: usize = LONGEST;

/// The most brackets that may be open at once.
const DEEPEST: usize = 16;

/// The number and the place with which a text is sent back.
type Refusal = (u8, usize);

/// A reader of texts.
#[derive(Clone, Copy, Default)]
pub struct Reader {
    slip: Option<Slip>,
}

impl Reader {
    /// A sound reader.
    pub fn new() -> Reader {
        Reader::default()
    }

    /// A reader that makes a slip.
    pub fn with(slip: Slip) -> Reader {
        Reader { slip: Some(slip) }
    }

    fn slips(&self, into: Slip) -> bool {
        self.slip == Some(into)
    }

    /// Reads a text and answers a number and a place. With 0 the sheet fills the first bytes of the
    /// room, as many as the place says. Everything else in the room stays.
    pub fn read(&self, text: &[u8], room: &mut [u8]) -> (u8, u32) {
        let needed = match self.slip {
            Some(Slip::RoomUnder) => ROOM - 1,
            Some(Slip::RoomOver) => ROOM + 1,
            _ => ROOM,
        };
        let small = (24, 0);
        if room.len() < needed && !self.slips(Slip::RoomLast) {
            return small;
        }
        match self.sheet(text) {
            Ok(sheet) if room.len() < needed.max(sheet.len()) => small,
            Ok(sheet) => {
                let (filled, rest) = room.split_at_mut(sheet.len());
                filled.copy_from_slice(&sheet);
                if self.slips(Slip::Clears) {
                    rest.fill(0);
                }
                (0, sheet.len() as u32)
            }
            Err((number, place)) => {
                if self.slips(Slip::Writes) {
                    room[2] = 1;
                }
                (number, place as u32)
            }
        }
    }

    /// The bytes of the sheet, or the earliest fault: at one byte, the one with the lowest number.
    fn sheet(&self, text: &[u8]) -> Result<Vec<u8>, Refusal> {
        let mut form = form::fault(text, self.slip);
        if self.slips(Slip::Unended) && form == Some(text.len()) && !text.ends_with(b"\n") {
            let sound = Reader::new();
            let ended = sound.sheet(&[text, b"\n"].concat());
            return ended.or_else(|_| sound.sheet(text));
        }
        let begun = form.unwrap_or(text.len());
        let spelled = self.spelled(&text[..begun]);
        let mut pieces = pieces(&spelled);
        let deep = self.too_deep(&pieces);
        let range = pieces
            .iter()
            .find_map(|piece| piece.out_of_range(self.slip));
        // Digits that go on at the fault, behind a leading zero, haven't ended, and complete nothing.
        let go_on = matches!(text[begun.max(1) - 1..], [b'0'..=b'9', b'0'..=b'9', ..]);
        if form.is_some() && go_on && !self.slips(Slip::ZeroEnds) {
            pieces.pop();
        }
        let lines_end = match self.slip {
            Some(Slip::AnyLine) => text.len(),
            _ => begun,
        };
        let typed = typed::typed(&spelled, &pieces, lines_end, self.slip);
        if self.slips(Slip::EndAtLast) && form == Some(text.len()) {
            form = Some(text.len().max(1) - 1);
        }

        let many = typed.as_ref().err().copied();
        let faults = [(20, form), (21, deep), (22, range), (23, many)]
            .into_iter()
            .filter_map(|(number, place)| Some((number, place?)));
        let earliest = match self.slip {
            Some(Slip::FormFirst) => faults.min(),
            Some(Slip::TermFirst | Slip::AnyLine) => {
                faults.min_by_key(|&(number, place)| (place, Reverse(number)))
            }
            _ => faults.min_by_key(|&(number, place)| (place, number)),
        };
        match (earliest, typed) {
            (Some(refusal), _) => Err(refusal),
            (None, typed) => Ok(typed.expect("nothing is too many").bytes()),
        }
    }

    /// The text with each term in one spelling. `x0-0` is the term `x0+0`, and as the form has no
    /// term `-0` and no leading zeros, it has no other `-0`.
    fn spelled(&self, text: &[u8]) -> Vec<u8> {
        let mut spelled = text.to_vec();
        for at in 1..text.len() {
            if text[at - 1..=at] == *b"-0" && !self.slips(Slip::TwoZeros) {
                spelled[at - 1] = b'+';
            }
        }
        spelled
    }

    /// The first bracket that goes too deep.
    fn too_deep(&self, pieces: &[Piece]) -> Option<usize> {
        let deepest = match self.slip {
            Some(Slip::Shallow) => DEEPEST - 1,
            Some(Slip::Deep) => DEEPEST + 1,
            _ => DEEPEST,
        };
        let mut open = 0;
        for piece in pieces {
            match piece.kind {
                Kind::Open if open == deepest => return Some(piece.start),
                Kind::Open => open += 1,
                Kind::Close => open -= 1,
                _ => {}
            }
        }
        None
    }
}
