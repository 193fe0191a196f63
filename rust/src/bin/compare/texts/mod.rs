//! Compares a reader of texts with the independent one on seeded random texts. The reader is any
//! command that answers frames: the room's size in two bytes, a count in four and so many bytes of
//! text in; the number, the place in four bytes and the whole room out. The rules are those of
//! request 1 of document 02; the independent reader is this package's library.

mod report;
mod shown;

use report::Report;
use second::comparing::ask::Choice;
use second::comparing::tested::{Length, Question};
use second::comparing::{compare, print, usage};
use second::random::texts::{TextFamily, TEXTS};
use second::random::Random;
use second::sheet;
use second::text::{Reader, Slip, ROOM};
use std::process::ExitCode;

const USAGE: &str = "\
compare texts [--seed N] [--texts N] [--family NAME [--number N]] [--] COMMAND ARGS..
    compares the command's answers to random texts with the independent reader's
      --seed N       another seed makes other texts; 1 if not given
      --texts N      texts in all, at least 1, spread evenly over the families; 4000 if not given
      --family NAME  texts of this family only
      --number N     this one text of the family only
compare texts --families
    lists the families of texts
compare texts --slips
    lists the names that the command `second batch_text` takes, each for a wrong reader
compare texts --print NAME NUMBER SEED
    writes this one text
The status is 0 if nothing differs, 1 if something does, 2 if the call is wrong or the command can't
be started, and 3 if so few texts are read or get a refusal that the comparison means little.";

/// What the room is filled with before each call.
const FILL: u8 = 0xAA;
/// The bytes of number and place.
const HEAD: usize = 5;

/// A text that has been sent, or is about to be.
pub struct Sent {
    family: usize,
    number: u64,
    room: usize,
    text: Vec<u8>,
}

impl Sent {
    fn new(seed: u64, family: usize, number: u64) -> Sent {
        let random = &mut Random::of(seed, "rooms", number * TEXTS.len() as u64 + family as u64);
        let room = match random.below(16) {
            0 => random.pick(&[0, 1, 6, sheet::ROOM, ROOM - 1, ROOM - 1, ROOM - 1, ROOM - 1]),
            1 => random.below(ROOM),
            2 => random.count(ROOM..=2048),
            3 => random.pick(&[ROOM + 1, 2048]),
            _ => ROOM,
        };
        Sent {
            family,
            number,
            room,
            text: TEXTS[family].text(seed, number),
        }
    }

    /// What the independent reader answers.
    fn expected(&self) -> Vec<u8> {
        let mut room = vec![FILL; self.room];
        let (number, place) = Reader::new().read(&self.text, &mut room);
        [&[number][..], &place.to_be_bytes(), &room].concat()
    }
}

impl Question for Sent {
    fn frame(&self) -> Vec<u8> {
        let (room, count) = (self.room as u16, self.text.len() as u32);
        [&room.to_be_bytes()[..], &count.to_be_bytes(), &self.text].concat()
    }

    fn answer_length(&self) -> Length {
        Length::Fixed(HEAD + self.room)
    }
}

/// What a call asks for, behind the word for texts.
pub fn main(args: &[String]) -> ExitCode {
    let words: Vec<&str> = args.iter().map(String::as_str).collect();
    match words[..] {
        ["--families"] => {
            for TextFamily { name, about, .. } in &TEXTS {
                println!("{name:12} {about}");
            }
            return ExitCode::SUCCESS;
        }
        ["--slips"] => {
            for (_, name) in Slip::ALL {
                println!("{name}");
            }
            return ExitCode::SUCCESS;
        }
        ["--print", name, number, seed] => {
            let family = TEXTS.iter().find(|family| family.name == name);
            return match (family, number.parse(), seed.parse()) {
                (Some(family), Ok(number), Ok(seed)) => print(&family.text(seed, number)),
                _ => usage(USAGE),
            };
        }
        _ => {}
    }
    let choice = Choice {
        usage: USAGE,
        count: "--texts",
        default: 4000,
        families: TEXTS.iter().map(|family| family.name).collect(),
    };
    compare(&choice, args, Sent::new, Report::new)
}
