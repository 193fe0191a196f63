//! An answer of a panel (number, place and answer room), and what is wrong with it. Values are
//! free, so they are held to the meaning; all else is held to the tables and to the independent
//! panel, byte for byte.

use second::sheet::ROOM;
use second::{meaning, Panel};

/// What the room is filled with before each call.
const FILL: u8 = 0xAA;
/// The bytes of an answer in its frame: number, place, room.
pub const FRAME: usize = 3 + ROOM;

pub const HOLDS: u8 = 0;
pub const CLASHES: u8 = 1;

pub struct Answer {
    pub number: u8,
    place: u16,
    room: [u8; ROOM],
}

impl Answer {
    /// What the independent panel says.
    pub fn expected(panel: &mut Panel, sheet: &[u8]) -> Answer {
        let mut room = [FILL; ROOM];
        let (number, place) = panel.judge(sheet, &mut room);
        Answer {
            number,
            place,
            room,
        }
    }

    /// From the bytes of a whole frame.
    pub fn from_frame(frame: &[u8]) -> Answer {
        let mut room = [0; ROOM];
        room.copy_from_slice(&frame[3..]);
        Answer {
            number: frame[0],
            place: u16::from_be_bytes([frame[1], frame[2]]),
            room,
        }
    }

    fn bytes_4_5(&self) -> u16 {
        u16::from_be_bytes([self.room[4], self.room[5]])
    }

    fn n(&self, sheet: &[u8]) -> Vec<i64> {
        let terms = usize::from(sheet.get(3).copied().unwrap_or(0));
        let value = |bytes: &[u8]| i64::from_be_bytes(bytes.try_into().expect("eight bytes"));
        self.room[8..]
            .chunks_exact(8)
            .take(terms)
            .map(value)
            .collect()
    }

    pub fn words(&self, sheet: &[u8]) -> String {
        match self.number {
            HOLDS => format!(
                "holds with D {}, n{}",
                self.bytes_4_5(),
                row(&self.n(sheet))
            ),
            CLASHES => {
                let listed = usize::from(self.bytes_4_5()).min(ROOM - 8);
                format!("clashes{}", row(&self.room[8..][..listed]))
            }
            10..=15 => format!("refused {} at {}", self.number, self.place),
            number => format!("number {} at {}", number, self.place),
        }
    }

    /// The rule that the values break, if they break one.
    fn broken(&self, sheet: &[u8]) -> Option<String> {
        meaning::broken(sheet, i64::from(self.bytes_4_5()), &self.n(sheet))
    }
}

fn row<N: std::fmt::Display>(numbers: &[N]) -> String {
    numbers.iter().map(|number| format!(" {number}")).collect()
}

/// What is wrong with an answer, in lines. The answer is right when there are none.
pub fn faults(sheet: &[u8], expected: &Answer, got: &Answer) -> Vec<String> {
    let mut faults = Vec::new();
    if expected.number == HOLDS {
        // A fault of the independent panel would hide the same fault of the other.
        let own = expected.broken(sheet);
        faults.extend(own.map(|rule| format!("the independent panel's values: {rule}")));
    }
    if got.number == HOLDS && expected.number <= CLASHES {
        faults.extend(got.broken(sheet).map(|rule| format!("values: {rule}")));
    }
    if got.number != expected.number {
        faults.push(format!("number {}, not {}", got.number, expected.number));
        return faults;
    }

    // What the place and the room must be. What is free in them is taken from the answer itself.
    let mut place = expected.place;
    let mut room = [FILL; ROOM];
    match expected.number {
        HOLDS => {
            place = 8 + 8 * u16::from(sheet[3]);
            let length = usize::from(place);
            room[..length].copy_from_slice(&got.room[..length]);
            room[..2].copy_from_slice(&place.to_be_bytes());
            room[2..4].copy_from_slice(&[1, HOLDS]);
            room[6..8].copy_from_slice(&[0, 0]);
        }
        CLASHES => {
            let length = usize::from(place);
            room[..length].copy_from_slice(&expected.room[..length]);
        }
        _ => {}
    }
    if got.place != place {
        faults.push(format!("place {}, not {place}", got.place));
    }
    if let Some(at) = (0..ROOM).find(|&at| got.room[at] != room[at]) {
        let (is, not) = (got.room[at], room[at]);
        faults.push(format!("room byte {at} is {is:02X}, not {not:02X}"));
    }
    faults
}

#[cfg(test)]
mod tests {
    use super::*;

    // One unknown x, and x ≤ x + 1.
    const SHEET: [u8; 18] = [0, 18, 1, 1, 1, 0, 0, 0, 0, 0, 0, 0, 2, 0, 0, 0, 0, 1];

    fn holds() -> Answer {
        Answer::expected(&mut Panel::new(), &SHEET)
    }

    #[test]
    fn a_right_answer_has_no_faults() {
        assert!(faults(&SHEET, &holds(), &holds()).is_empty());
    }

    #[test]
    fn values_are_free_and_the_rest_is_not() {
        let moved = |at: usize, by: u8| {
            let mut got = holds();
            got.room[at] = got.room[at].wrapping_add(by);
            faults(&SHEET, &holds(), &got)
        };
        assert!(moved(15, 1).is_empty());
        for at in [0, 1, 2, 3, 6, 7, 16, ROOM - 1] {
            assert_eq!(moved(at, 1).len(), 1, "byte {at}");
        }
    }

    #[test]
    fn another_verdict_is_a_fault() {
        let clashes = Answer {
            number: CLASHES,
            place: 9,
            room: holds().room,
        };
        assert_eq!(faults(&SHEET, &holds(), &clashes), ["number 1, not 0"]);
    }
}
