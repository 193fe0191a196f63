//! Compares a panel with the independent one on seeded random sheets. The panel is any command
//! that answers frames: two bytes of length and a sheet in; the number, the place in two bytes and
//! the whole answer room out. The rules are document 01's; the independent panel is this package's
//! library.

mod answer;
mod reasons;
mod report;
mod survey;
mod texts;

use answer::FRAME;
use report::Report;
use second::comparing::ask::Choice;
use second::comparing::compare;
use second::comparing::tested::{Length, Question};
use second::random::families::{Family, FAMILIES};
use second::Shortcut;
use std::process::ExitCode;

const USAGE: &str = "\
compare [--seed N] [--sheets N] [--family NAME [--number N]] [--] COMMAND ARGS..
    compares the command's answers to random sheets with the independent panel's
      --seed N       another seed makes other sheets; 1 if not given
      --sheets N     sheets in all, at least 1, spread evenly over the families; 4000 if not given
      --family NAME  sheets of this family only
      --number N     this one sheet of the family only
compare --families
    lists the families of sheets
compare --shortcuts
    lists the names that the command `second batch` takes, each for a wrong panel
compare texts ..
    the same of readers of texts; by itself it says what it can be asked for
compare reasons ..
    the same of writers of reasons, which are held to the check of reasons
compare survey ..
    the same of checks of reasons
The status is 0 if nothing differs, 1 if something does, 2 if the call is wrong or the command can't
be started, and 3 if so few or so many sheets hold that the comparison means little.";

/// A sheet that has been sent, or is about to be.
pub struct Sent {
    family: usize,
    number: u64,
    sheet: Vec<u8>,
}

impl Question for Sent {
    fn frame(&self) -> Vec<u8> {
        let length = self.sheet.len() as u16;
        [&length.to_be_bytes(), &self.sheet[..]].concat()
    }

    fn answer_length(&self) -> Length {
        Length::Fixed(FRAME)
    }
}

fn main() -> ExitCode {
    let args: Vec<String> = std::env::args().skip(1).collect();
    // One program for all: another one would cost the gate as much time again to build.
    if let Some((first, rest)) = args.split_first() {
        match first.as_str() {
            "texts" => return texts::main(rest),
            "reasons" => return reasons::main(rest),
            "survey" => return survey::main(rest),
            _ => {}
        }
    }
    if args == ["--families"] {
        for Family { name, about, .. } in &FAMILIES {
            println!("{name:12} {about}");
        }
        return ExitCode::SUCCESS;
    }
    if args == ["--shortcuts"] {
        for shortcut in Shortcut::ALL {
            println!("{}", shortcut.name());
        }
        return ExitCode::SUCCESS;
    }
    let choice = Choice {
        usage: USAGE,
        count: "--sheets",
        default: 4000,
        families: FAMILIES.iter().map(|family| family.name).collect(),
    };
    let question = |seed, family: usize, number| Sent {
        family,
        number,
        sheet: FAMILIES[family].sheet(seed, number),
    };
    compare(&choice, &args, question, Report::new)
}
