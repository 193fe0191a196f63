//! Texts and answers shown to people: as text, in hex and in words.

use super::HEAD;
use second::random::words::words;
use second::sheet::MOST;
use second::text::ROOM;

/// Bytes of a long text that are shown before and behind a place.
const AROUND: usize = 120;

/// The place of an answer.
fn place(answer: &[u8]) -> usize {
    let place = answer[1..HEAD].try_into().expect("a place has four bytes");
    u32::from_be_bytes(place) as usize
}

/// An answer in words.
pub fn answer(answer: &[u8]) -> Vec<String> {
    let (number, place) = (answer[0], place(answer));
    if number != 0 {
        return vec![format!("refused {number} at {place}")];
    }
    let mut lines = vec![format!("a sheet of {place} bytes")];
    lines.extend(words(answer[HEAD..].get(..place).unwrap_or_default()));
    lines
}

/// What is wrong with an answer that isn't as expected.
pub fn faults(expected: &[u8], got: &[u8]) -> Vec<String> {
    let mut faults = Vec::new();
    if got[0] != expected[0] {
        faults.push(format!("number {}, not {}", got[0], expected[0]));
    }
    if place(got) != place(expected) {
        faults.push(format!("place {}, not {}", place(got), place(expected)));
    }
    let (got, expected) = (&got[HEAD..], &expected[HEAD..]);
    if let Some(at) = (0..got.len()).find(|&at| got[at] != expected[at]) {
        let (is, not) = (got[at], expected[at]);
        faults.push(format!("room byte {at} is {is:02X}, not {not:02X}"));
    }
    faults
}

/// What is shown of a text: all of it, or what is around the place of an answer.
fn part(text: &[u8], expected: &[u8]) -> std::ops::Range<usize> {
    if text.len() <= 4 * AROUND {
        return 0..text.len();
    }
    // The place of a sheet is its length, and says nothing of the text.
    let at = if expected[0] == 0 { 0 } else { place(expected) };
    at.min(text.len()).saturating_sub(AROUND)..text.len().min(at + AROUND)
}

/// The text, a line a line, with the place where each begins.
pub fn lines(text: &[u8], expected: &[u8]) -> Vec<String> {
    let part = part(text, expected);
    let mut shown = vec![match text.len() {
        0 => String::from("no bytes"),
        all if all == part.len() => format!("{all} bytes"),
        all => format!("bytes {} to {} of {all}", part.start, part.end - 1),
    }];
    let mut at = part.start;
    for line in text[part].split_inclusive(|&byte| byte == b'\n') {
        shown.push(format!("{at:5}: {}", line.escape_ascii()));
        at += line.len();
    }
    shown
}

/// The same in hex, sixteen a line.
pub fn hex(text: &[u8], expected: &[u8]) -> Vec<String> {
    let part = part(text, expected);
    let row = |(at, bytes): (usize, &[u8])| {
        let bytes: String = bytes.iter().map(|byte| format!(" {byte:02X}")).collect();
        format!("{at:5}:{bytes}")
    };
    let places = part.clone().step_by(16);
    places.zip(text[part].chunks(16)).map(row).collect()
}

/// What is said of the byte at the place of a refusal.
pub fn at(text: &[u8], answer: &[u8]) -> Vec<String> {
    let (number, place) = (answer[0], place(answer));
    let over = MOST + 1;
    let why = match number {
        20 if place == text.len() => String::from("the text ends too early"),
        20 => String::from("no text of the form begins so"),
        21 => String::from("a bracket that goes deeper than 16"),
        22 => String::from("a digit that takes a number out of range"),
        23 => format!("the last byte of a {over}th term, or the first of a {over}th line"),
        24 => format!("a room under {ROOM} bytes"),
        _ => return Vec::new(),
    };
    let byte = text.get(place).map_or(String::new(), |byte| {
        let before = text[..place].iter().rev().take(12).rev();
        let before: Vec<u8> = before.copied().collect();
        format!(
            ", \"{}\" behind \"{}\"",
            byte.escape_ascii(),
            before.escape_ascii()
        )
    });
    vec![format!("{number} at {place}{byte}: {why}")]
}

#[cfg(test)]
mod tests {
    use super::*;

    fn answered(number: u8, place: u32, room: &[u8]) -> Vec<u8> {
        [&[number][..], &place.to_be_bytes(), room].concat()
    }

    #[test]
    fn each_part_of_an_answer_is_compared() {
        let right = answered(20, 7, &[0xAA; 3]);
        assert!(faults(&right, &right).is_empty());
        for (wrong, fault) in [
            (answered(22, 7, &[0xAA; 3]), "number 22, not 20"),
            (answered(20, 65_543, &[0xAA; 3]), "place 65543, not 7"),
            (
                answered(20, 7, &[0xAA, 0xAA, 0]),
                "room byte 2 is 00, not AA",
            ),
        ] {
            assert_eq!(faults(&right, &wrong), [fault]);
        }
    }

    #[test]
    fn a_text_is_shown_as_text_in_hex_and_in_words() {
        let (text, refused) = (b"x0=1\nx05\t", answered(20, 7, &[]));
        assert_eq!(
            lines(text, &refused),
            ["9 bytes", "    0: x0=1\\n", "    5: x05\\t"]
        );
        assert_eq!(hex(text, &refused), ["    0: 78 30 3D 31 0A 78 30 35 09"]);
        let words = "20 at 7, \"5\" behind \"x0=1\\nx0\": no text of the form begins so";
        assert_eq!(at(text, &refused), [words]);
    }

    #[test]
    fn of_a_long_text_what_is_around_the_place_is_shown() {
        let text = [b'5'; 60_000];
        let shown = |place| lines(&text, &answered(20, place, &[]))[0].clone();
        assert_eq!(shown(1), "bytes 0 to 120 of 60000");
        assert_eq!(shown(500), "bytes 380 to 619 of 60000");
        assert_eq!(shown(60_000), "bytes 59880 to 59999 of 60000");
    }
}
