//! What is printed: the differences, a line for each family, and a line for all.

use super::Sent;
use second::comparing::ask::Ask;
use second::comparing::tested::Silence;
use second::comparing::{self, block};
use second::random::surveys::{Case, SURVEYS};
use second::random::words::{hex, rows, words};
use second::reason::{survey, Step, Surveyor};
use std::ops::RangeInclusive;

/// Differences that are shown whole. The others are counted.
const SHOWN: u64 = 10;

/// In a long run over all families this share of the reasons must get a yes, in percent, and each
/// refusal must be given to some: a check that always says the same would pass otherwise.
const YES_SHARE: RangeInclusive<u64> = 20..=45;
const REFUSALS: RangeInclusive<u8> = 10..=14;
const LONG: u64 = 3000;

const YES: u8 = 0;
const WRONG: u8 = 1;
const NO_LIST: u8 = 27;

type Answer = (u8, u32);

/// What came of the cases of one family, or of all.
#[derive(Clone, Copy, Default)]
struct Tally {
    yes: u64,
    wrong: u64,
    no_list: u64,
    refused: u64,
    differ: u64,
}

impl Tally {
    fn cases(&self) -> u64 {
        self.yes + self.wrong + self.no_list + self.refused
    }

    fn columns(&self) -> String {
        let columns = [
            self.cases(),
            self.yes,
            self.wrong,
            self.no_list,
            self.refused,
            self.differ,
        ];
        columns.map(|column| format!("{column:7}")).join(" ")
    }
}

pub struct Report {
    ask: Ask,
    families: [Tally; SURVEYS.len()],
    refusals: Vec<u8>,
    bad_ends: u64,
}

impl Report {
    pub fn new(ask: Ask) -> Report {
        Report {
            ask,
            families: [Tally::default(); SURVEYS.len()],
            refusals: Vec::new(),
            bad_ends: 0,
        }
    }

    /// Counts a case by what the independent check says of it.
    fn count(&mut self, sent: &Sent, expected: Answer) {
        let tally = &mut self.families[sent.family];
        match expected.0 {
            YES => tally.yes += 1,
            WRONG => tally.wrong += 1,
            NO_LIST => tally.no_list += 1,
            number => {
                tally.refused += 1;
                self.refusals.push(number);
            }
        }
    }

    fn difference(&mut self, sent: &Sent, expected: Answer, got: &str, faults: &[String]) {
        self.families[sent.family].differ += 1;
        let differ = self.all().differ;
        if differ > SHOWN {
            return;
        }
        let (name, number, seed) = (SURVEYS[sent.family].name, sent.number, self.ask.seed);
        let Case { sheet, list, steps } = &sent.case;
        println!("difference {differ}: family {name}, number {number}, seed {seed}");
        let mut why = said(expected);
        if expected.0 == WRONG {
            let wrong = survey(sheet, list, steps).expect_err("it is wrong");
            why = format!("{why}: {}", wrong.why);
        }
        block("expected", &[why]);
        block("got", &[got.to_string()]);
        block("wrong", faults);
        block("sheet", &hex(sheet));
        block("words", &words(sheet));
        let numbers: Vec<String> = list.iter().map(u8::to_string).collect();
        block("list", &[numbers.join(" ")]);
        let step = |(own, step): (usize, &Step)| {
            let mut lines = vec![format!("{own}: {}", step.words())];
            lines.extend(rows(&step.bytes()));
            lines
        };
        let lines: Vec<String> = steps.iter().enumerate().flat_map(step).collect();
        block("steps", &lines);
    }

    fn all(&self) -> Tally {
        let sum = |of: fn(&Tally) -> u64| self.families.iter().map(of).sum::<u64>();
        Tally {
            yes: sum(|tally| tally.yes),
            wrong: sum(|tally| tally.wrong),
            no_list: sum(|tally| tally.no_list),
            refused: sum(|tally| tally.refused),
            differ: sum(|tally| tally.differ) + self.bad_ends,
        }
    }
}

/// An answer in words.
fn said((number, place): Answer) -> String {
    match number {
        YES => format!("yes at {place}"),
        WRONG => format!("wrong at {place}"),
        _ => format!("refused {number} at {place}"),
    }
}

/// What is wrong with an answer. It is right when there is nothing.
fn faults(expected: Answer, got: Answer) -> Vec<String> {
    match (expected, got) {
        _ if got == expected => Vec::new(),
        ((number, _), (other, _)) if other != number => {
            vec![format!("number {other}, not {number}")]
        }
        ((_, place), (_, other)) => vec![format!("place {other}, not {place}")],
    }
}

impl comparing::Report for Report {
    type Sent = Sent;

    fn heard(&mut self, sent: &Sent, heard: Result<&[u8], &Silence>) {
        let Case { sheet, list, steps } = &sent.case;
        let expected = Surveyor::new().answer(sheet, list, steps);
        self.count(sent, expected);
        match heard {
            Ok(got) => {
                let place = got[1..].try_into().expect("a place has four bytes");
                let got = (got[0], u32::from_be_bytes(place));
                let faults = faults(expected, got);
                if !faults.is_empty() {
                    self.difference(sent, expected, &said(got), &faults);
                }
            }
            Err(silence) => self.difference(sent, expected, &silence.to_string(), &[]),
        }
    }

    fn bad_end(&mut self, what: &str) {
        self.bad_ends += 1;
        println!("difference {}: {what}", self.all().differ);
    }

    fn close(&self) -> u8 {
        println!("family         cases     yes   wrong      27 refused  differ");
        for (family, tally) in SURVEYS.iter().zip(&self.families) {
            if tally.cases() > 0 {
                println!("{:12} {}", family.name, tally.columns());
            }
        }
        let all = self.all();
        let (cases, seed) = (all.cases(), self.ask.seed);
        let share = 100 * all.yes / cases.max(1);
        let given = |number: u8| self.refusals.contains(&number);
        let each = all.no_list > 0 && REFUSALS.into_iter().all(given);
        let long = self.ask.family.is_none() && cases >= LONG;
        let lopsided = long && !(each && YES_SHARE.contains(&share));
        if lopsided {
            println!(
                "not {} to {} % of the reasons get a yes, or some refusal is never given",
                YES_SHARE.start(),
                YES_SHARE.end()
            );
        }
        println!(
            "survey: {cases} cases ({} yes, {} wrong, {} refused), seed {seed}; {} differ",
            all.yes,
            all.wrong,
            all.no_list + all.refused,
            all.differ
        );
        if all.differ > 0 {
            return 1;
        }
        assert_eq!(
            cases,
            self.ask.count(),
            "where nothing differs, every case is compared"
        );
        if lopsided {
            return 3;
        }
        0
    }
}

#[cfg(test)]
mod tests {
    use super::*;

    #[test]
    fn number_and_place_are_compared() {
        assert!(faults((1, 7), (1, 7)).is_empty());
        assert_eq!(faults((1, 7), (1, 65_543)), ["place 65543, not 7"]);
        assert_eq!(faults((1, 7), (0, 0)), ["number 0, not 1"]);
        assert_eq!(faults((27, 0), (27, 1)), ["place 1, not 0"]);
    }
}
