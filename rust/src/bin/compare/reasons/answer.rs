//! An answer of a writer of reasons (number, place, and the room or a byte), and what is wrong with
//! it. Which reason is written is free, so it is held to the rules; all else is held byte for byte.

use second::random::words::rows;
use second::reason::{needless, survey, Reason, ROOM};
use second::{sheet, Panel};

/// What the room is filled with before each call.
const FILL: u8 = 0xAA;
/// The bytes of number and place.
pub const HEAD: usize = 5;

pub const WRITTEN: u8 = 1;
pub const TOO_SMALL: u8 = 25;
pub const HOLDS: u8 = 26;

/// What must be answered.
pub enum Expected {
    Refused(u8, u32),
    /// A reason for this list.
    Written(Vec<u8>),
}

impl Expected {
    /// The sheet's own refusals but 15, then whether it holds, then the room.
    pub fn of(panel: &mut Panel, sheet: &[u8], room: usize) -> Expected {
        let mut answer = [0; sheet::ROOM];
        match panel.judge(sheet, &mut answer) {
            (0, _) => Expected::Refused(HOLDS, 0),
            (1, _) if room < ROOM => Expected::Refused(TOO_SMALL, 0),
            (1, length) => Expected::Written(answer[8..usize::from(length)].to_vec()),
            (number, place) => Expected::Refused(number, place.into()),
        }
    }

    pub fn number(&self) -> u8 {
        match *self {
            Expected::Refused(number, _) => number,
            Expected::Written(_) => WRITTEN,
        }
    }

    pub fn words(&self) -> String {
        match self {
            Expected::Refused(number, place) => format!("refused {number} at {place}"),
            Expected::Written(list) => format!("a reason that{} clash", row(list)),
        }
    }
}

pub struct Answer {
    number: u8,
    place: u32,
    /// The room, or the byte that stands for it.
    rest: Vec<u8>,
}

impl Answer {
    /// From the bytes of a whole frame.
    pub fn from_frame(frame: &[u8]) -> Answer {
        let (head, rest) = frame.split_at(HEAD);
        let place = head[1..].try_into().expect("a place has four bytes");
        Answer {
            number: head[0],
            place: u32::from_be_bytes(place),
            rest: rest.to_vec(),
        }
    }

    /// The bytes that the place says are the record.
    fn record(&self) -> Option<&[u8]> {
        let written = self.number == WRITTEN;
        let record = self.rest.get(..self.place as usize);
        record.filter(|_| written)
    }

    /// The reason, if one is written and can be read.
    pub fn reason(&self) -> Option<Reason> {
        Reason::from(self.record()?).ok()
    }

    /// In words, and the record in hex.
    pub fn words(&self) -> Vec<String> {
        let (number, place) = (self.number, self.place);
        if number != WRITTEN {
            let kept = match self.rest[0] {
                0 => "the room changed",
                1 => "the room as it was",
                _ => "a byte that is neither 0 nor 1",
            };
            return vec![format!("refused {number} at {place}, {kept}")];
        }
        let mut lines = vec![format!("a record of {place} bytes")];
        if let Some(Reason { list, steps }) = self.reason() {
            lines.push(format!("list{}", row(&list)));
            let steps = steps.iter().enumerate();
            lines.extend(steps.map(|(own, step)| format!("{own}: {}", step.words())));
        }
        lines.extend(rows(self.record().unwrap_or(&self.rest)));
        lines
    }
}

fn row(entries: &[u8]) -> String {
    entries.iter().map(|entry| format!(" {entry}")).collect()
}

/// What is wrong with an answer, in lines. The answer is right when there are none.
pub fn faults(sheet: &[u8], expected: &Expected, got: &Answer) -> Vec<String> {
    if got.number != expected.number() {
        return vec![format!("number {}, not {}", got.number, expected.number())];
    }
    match expected {
        Expected::Refused(_, place) => refusal_faults(*place, got),
        Expected::Written(list) => record_faults(sheet, list, got),
    }
}

fn refusal_faults(place: u32, got: &Answer) -> Vec<String> {
    let mut faults = Vec::new();
    if got.place != place {
        faults.push(format!("place {}, not {place}", got.place));
    }
    if got.rest != [1] {
        let byte = got.rest[0];
        faults.push(format!("the byte for a room as it was is {byte}, not 1"));
    }
    faults
}

fn record_faults(sheet: &[u8], list: &[u8], got: &Answer) -> Vec<String> {
    let mut faults = Vec::new();
    let record = match got.record() {
        Some(record) => record,
        None => return vec![format!("place {}, beyond the room", got.place)],
    };
    let past = (record.len()..got.rest.len()).find(|&at| got.rest[at] != FILL);
    if let Some(at) = past {
        let is = got.rest[at];
        faults.push(format!("room byte {at}, past the record, is {is:02X}"));
    }
    let reason = match Reason::from(record) {
        Ok(reason) => reason,
        Err(why) => {
            faults.push(format!("no reason record: {why}"));
            return faults;
        }
    };
    if reason.list != list {
        faults.push(format!("the list isn't the first, which is{}", row(list)));
    }
    faults.extend(step_faults(sheet, &reason));
    faults
}

fn step_faults(sheet: &[u8], reason: &Reason) -> Option<String> {
    // The check asks for a list of this sheet's entries.
    let beyond = |&&entry: &&u8| entry >= sheet[4];
    if let Some(entry) = reason.list.iter().find(beyond) {
        return Some(format!("entry {entry} of the list isn't below L"));
    }
    let Reason { list, steps } = reason;
    if let Err(wrong) = survey(sheet, list, steps) {
        return Some(wrong.to_string());
    }
    let needless = needless(sheet, list, steps).expect("the survey says yes");
    let first = needless.first()?;
    Some(format!("the last step doesn't rest on step {first}"))
}

#[cfg(test)]
mod tests {
    use super::*;
    use second::reason::Writer;

    // x ≤ y, y ≤ x and f(x) ≠ f(y): sheet 1.
    const SHEET: [u8; 48] = [
        0, 48, 1, 4, 3, 0, 0, 0, 0, 0, 0, 0, 0, 0, 0, 0, 0, 0, 3, 7, 0, 0, 0, 0, 3, 7, 1, 0, 0, 0,
        2, 0, 0, 1, 0, 0, 2, 0, 1, 0, 0, 0, 1, 0, 2, 3, 0, 0,
    ];

    fn faults_of(answer: Answer, room: usize) -> Vec<String> {
        let expected = Expected::of(&mut Panel::new(), &SHEET, room);
        faults(&SHEET, &expected, &answer)
    }

    fn written() -> Answer {
        let mut rest = vec![FILL; ROOM];
        let (number, place) = Writer::new().write(&SHEET, &mut rest);
        Answer {
            number,
            place,
            rest,
        }
    }

    #[test]
    fn a_right_reason_has_no_faults() {
        assert!(faults_of(written(), ROOM).is_empty());
    }

    #[test]
    fn every_byte_of_this_record_and_past_it_is_looked_at() {
        let length = written().place as usize;
        for at in (0..length + 2).chain([ROOM - 1]) {
            let mut answer = written();
            answer.rest[at] ^= 0x40;
            assert!(!faults_of(answer, ROOM).is_empty(), "byte {at}");
        }
    }

    #[test]
    fn number_place_and_the_byte_of_a_refusal_are_looked_at() {
        let refused = |number, place, byte| {
            let rest = vec![byte];
            let answer = Answer {
                number,
                place,
                rest,
            };
            faults_of(answer, ROOM - 1).join("; ")
        };
        assert_eq!(refused(25, 0, 1), "");
        assert_eq!(refused(26, 0, 1), "number 26, not 25");
        assert_eq!(refused(25, 9, 1), "place 9, not 0");
        let byte = "the byte for a room as it was is 0, not 1";
        assert_eq!(refused(25, 0, 0), byte);
        let mut beyond = written();
        beyond.place = u32::MAX;
        let faults = faults_of(beyond, ROOM);
        assert_eq!(faults, ["place 4294967295, beyond the room"]);
    }
}
