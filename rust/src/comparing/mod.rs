//! What the programs that compare have in common: a call of theirs, a command that answers frames,
//! and how one is held to the other.

#![allow(missing_docs)]

pub mod ask;
pub mod tested;

use ask::{Ask, Choice};
use std::io::{self, Write};
use std::process::ExitCode;
use tested::{Question, Silence, Tested};

/// What comes of the answers.
pub trait Report {
    type Sent: Question;
    /// Counts a question, looks at what was heard of it, and shows what is wrong with that.
    fn heard(&mut self, sent: &Self::Sent, heard: Result<&[u8], &Silence>);
    /// A difference of no question's, after the last answer.
    fn bad_end(&mut self, what: &str);
    /// Prints the sums and gives the status.
    fn close(&self) -> u8;
}

/// Does what a call asks for: each question is made of seed, family and number, the command answers
/// it, and the report looks at the answer.
pub fn compare<R: Report>(
    choice: &Choice,
    args: &[String],
    mut question: impl FnMut(u64, usize, u64) -> R::Sent + Send + 'static,
    report: impl FnOnce(Ask) -> R,
) -> ExitCode {
    let ask = match Ask::from(choice, args.iter().cloned()) {
        Some(ask) => ask,
        None => return usage(choice.usage),
    };
    let seed = ask.seed;
    let questions = ask
        .each()
        .map(move |(family, number)| question(seed, family, number));
    let tested = match Tested::start(&ask.command, questions) {
        Ok(tested) => tested,
        Err(error) => {
            eprintln!("{} can't be started: {error}", ask.command[0]);
            return ExitCode::from(2);
        }
    };
    let mut report = report(ask);
    let ended = match silence(&tested, &mut report) {
        Some(Silence::Ended(..)) => tested.end(),
        _ => Ok(()),
    };
    if let Err(fault) = ended {
        report.bad_end(&fault);
    }
    ExitCode::from(report.close())
}

/// Looks at answer by answer until the questions end or the answers do, and gives what there is in
/// the end instead of an answer.
fn silence<R: Report>(tested: &Tested<R::Sent>, report: &mut R) -> Option<Silence> {
    while let Some(sent) = tested.sent() {
        let heard = tested.hear();
        report.heard(&sent, heard.as_deref());
        if let Err(silence) = heard {
            return Some(silence);
        }
    }
    let last = tested.hear().err();
    match last {
        Some(Silence::Ended(0, _)) => {}
        Some(Silence::Late) => report.bad_end("the command doesn't end at the end of its input"),
        _ => report.bad_end("the command answers more than it was asked"),
    }
    last
}

/// The answer to a call that is wrong.
pub fn usage(usage: &str) -> ExitCode {
    eprintln!("{usage}");
    ExitCode::from(2)
}

/// Writes the bytes of one question.
pub fn print(bytes: &[u8]) -> ExitCode {
    match io::stdout().write_all(bytes) {
        Ok(()) => ExitCode::SUCCESS,
        Err(_) => ExitCode::FAILURE,
    }
}

/// Lines behind a label.
pub fn block(label: &str, lines: &[String]) {
    for (i, line) in lines.iter().enumerate() {
        println!("    {:9} {line}", if i == 0 { label } else { "" });
    }
}
