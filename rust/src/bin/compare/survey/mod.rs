//! Compares a check of reasons with the independent one on seeded random reasons, right ones and
//! wrong ones. The check is any command that answers frames: counts, and so many bytes of a sheet,
//! entry numbers and steps in; the number and the place in four bytes out. The rules are document
//! 01's, request 5's and those of the paper on byte forms; the independent check is this package's
//! library.

mod report;

use report::Report;
use second::comparing::ask::Choice;
use second::comparing::tested::{Length, Question};
use second::comparing::{compare, print, usage};
use second::random::surveys::{Case, SurveyFamily, SURVEYS};
use second::reason::{Slip, Step};
use std::process::ExitCode;

const USAGE: &str = "\
compare survey [--seed N] [--cases N] [--family NAME [--number N]] [--] COMMAND ARGS..
    compares the command's answers to random reasons with the independent check's
      --seed N       another seed makes other reasons; 1 if not given
      --cases N      reasons in all, at least 1, spread evenly over the families; 4000 if not given
      --family NAME  reasons of this family only
      --number N     this one reason of the family only
compare survey --families
    lists the families of reasons
compare survey --slips
    lists the names that the command `second batch_survey` takes, each for a wrong check
compare survey --print NAME NUMBER SEED
    writes the frame of this one reason
The status is 0 if nothing differs, 1 if something does, 2 if the call is wrong or the command can't
be started, and 3 if so few reasons get a yes or some refusal that the comparison means little.";

/// The bytes of number and place.
const ANSWER: usize = 5;

/// A case that has been sent, or is about to be.
pub struct Sent {
    family: usize,
    number: u64,
    case: Case,
}

impl Sent {
    fn new(seed: u64, family: usize, number: u64) -> Sent {
        let case = SURVEYS[family].case(seed, number);
        Sent {
            family,
            number,
            case,
        }
    }
}

impl Question for Sent {
    fn frame(&self) -> Vec<u8> {
        let Case { sheet, list, steps } = &self.case;
        let mut frame = (sheet.len() as u16).to_be_bytes().to_vec();
        frame.extend(sheet);
        frame.push(list.len() as u8);
        frame.extend(list);
        frame.extend((steps.len() as u16).to_be_bytes());
        frame.extend(steps.iter().flat_map(Step::bytes));
        frame
    }

    fn answer_length(&self) -> Length {
        Length::Fixed(ANSWER)
    }
}

/// What a call asks for, behind the word for checks.
pub fn main(args: &[String]) -> ExitCode {
    let words: Vec<&str> = args.iter().map(String::as_str).collect();
    match words[..] {
        ["--families"] => {
            for SurveyFamily { name, about, .. } in &SURVEYS {
                println!("{name:12} {about}");
            }
            return ExitCode::SUCCESS;
        }
        ["--slips"] => {
            for (_, name) in Slip::ALL {
                println!("{name}");
            }
            return ExitCode::SUCCESS;
        }
        ["--print", name, number, seed] => {
            let family = SURVEYS.iter().position(|family| family.name == name);
            return match (family, number.parse(), seed.parse()) {
                (Some(family), Ok(number), Ok(seed)) => {
                    print(&Sent::new(seed, family, number).frame())
                }
                _ => usage(USAGE),
            };
        }
        _ => {}
    }
    let choice = Choice {
        usage: USAGE,
        count: "--cases",
        default: 4000,
        families: SURVEYS.iter().map(|family| family.name).collect(),
    };
    compare(&choice, args, Sent::new, Report::new)
}
