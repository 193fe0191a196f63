//! Holds a writer of reasons to the check of reasons on seeded random sheets. The writer is any
//! command that answers frames: the room's size in four bytes, a count in two and so many bytes of a
//! sheet in; the number, the place in four bytes, and the whole room or a byte out. The rules are
//! document 01's, request 4's and those of the paper on byte forms; the check and the first list are
//! this package's library's.

mod answer;
mod report;

use answer::{HEAD, WRITTEN};
use report::Report;
use second::comparing::ask::Choice;
use second::comparing::tested::{Length, Question};
use second::comparing::{compare, print, usage};
use second::random::families::{Family, FAMILIES, FOR_REASONS};
use second::random::Random;
use second::reason::{Lapse, ROOM};
use second::{sheet, Panel};
use std::process::ExitCode;

const USAGE: &str = "\
compare reasons [--seed N] [--sheets N] [--family NAME [--number N]] [--] COMMAND ARGS..
    holds the command's reasons for random sheets to the check of reasons
      --seed N       another seed makes other sheets; 1 if not given
      --sheets N     sheets in all, at least 1, spread evenly over the families; 4000 if not given
      --family NAME  sheets of this family only
      --number N     this one sheet of the family only
compare reasons --families
    lists the families of sheets
compare reasons --lapses
    lists the names that the command `second batch_reason` takes, each for a wrong writer
compare reasons --print NAME NUMBER SEED
    writes the frame of this one sheet
The status is 0 if nothing differs, 1 if something does, 2 if the call is wrong or the command can't
be started, and 3 if so few sheets clash or get a refusal, or some kind of step is so rare, that the
comparison means little.";

/// All families of sheets: those that judges are tried on, and those for writers.
fn families() -> impl Iterator<Item = &'static Family> {
    FAMILIES.iter().chain(&FOR_REASONS)
}

/// How many those are.
const COUNT: usize = FAMILIES.len() + FOR_REASONS.len();

fn family(own: usize) -> &'static Family {
    families().nth(own).expect("a family of this number")
}

/// Sheets that are tried until one clashes.
const TRIES: u64 = 8;

/// A sheet that has been sent, or is about to be, and the room that goes with it.
pub struct Sent {
    family: usize,
    number: u64,
    room: usize,
    sheet: Vec<u8>,
}

impl Sent {
    fn new(panel: &mut Panel, seed: u64, of: usize, number: u64) -> Sent {
        let own = number * COUNT as u64 + of as u64;
        let mut random = Random::of(seed, "rooms of reasons", own);
        Sent {
            family: of,
            number,
            room: room(&mut random),
            sheet: clashing(panel, &mut random, family(of), seed, number),
        }
    }
}

/// Mostly what is enough: a room that is too small gets no reason. More isn't allowed in a frame.
fn room(random: &mut Random) -> usize {
    match random.below(24) {
        0 | 1 => ROOM - 1,
        2 => random.pick(&[0, 0, 1, 10, sheet::ROOM - 1, sheet::ROOM]),
        3 => random.below(ROOM),
        _ => ROOM,
    }
}

/// A sheet of a family. Only one that clashes has a reason, so mostly some are tried until one does.
fn clashing(
    panel: &mut Panel,
    random: &mut Random,
    family: &Family,
    seed: u64,
    number: u64,
) -> Vec<u8> {
    let mut tried = (TRIES * number..).map(|number| family.sheet(seed, number));
    let mut sheet = tried.next().expect("there is no end of sheets");
    if random.one_in(8) {
        return sheet;
    }
    for _ in 1..TRIES {
        if panel.judge(&sheet, &mut [0; sheet::ROOM]).0 != 0 {
            break;
        }
        sheet = tried.next().expect("there is no end of sheets");
    }
    sheet
}

impl Question for Sent {
    fn frame(&self) -> Vec<u8> {
        let (room, count) = (self.room as u32, self.sheet.len() as u16);
        [&room.to_be_bytes()[..], &count.to_be_bytes(), &self.sheet].concat()
    }

    fn answer_length(&self) -> Length {
        Length::ByNumber {
            head: HEAD,
            number: WRITTEN,
            more: self.room,
        }
    }
}

/// What a call asks for, behind the word for reasons.
pub fn main(args: &[String]) -> ExitCode {
    let words: Vec<&str> = args.iter().map(String::as_str).collect();
    match words[..] {
        ["--families"] => {
            for Family { name, about, .. } in families() {
                println!("{name:12} {about}");
            }
            return ExitCode::SUCCESS;
        }
        ["--lapses"] => {
            for (_, name) in Lapse::ALL {
                println!("{name}");
            }
            return ExitCode::SUCCESS;
        }
        ["--print", name, number, seed] => {
            let family = families().position(|family| family.name == name);
            return match (family, number.parse(), seed.parse()) {
                (Some(family), Ok(number), Ok(seed)) => {
                    print(&Sent::new(&mut Panel::new(), seed, family, number).frame())
                }
                _ => usage(USAGE),
            };
        }
        _ => {}
    }
    let choice = Choice {
        usage: USAGE,
        count: "--sheets",
        default: 4000,
        families: families().map(|family| family.name).collect(),
    };
    let mut panel = Panel::new();
    let question = move |seed, family, number| Sent::new(&mut panel, seed, family, number);
    compare(&choice, args, question, Report::new)
}
