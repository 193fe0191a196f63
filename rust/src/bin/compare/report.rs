//! What is printed: the differences, a line for each family, and a line for all.

use crate::answer::{faults, Answer, CLASHES, HOLDS};
use crate::Sent;
use second::comparing::ask::Ask;
use second::comparing::tested::Silence;
use second::comparing::{self, block};
use second::random::families::FAMILIES;
use second::random::words::{hex, words};
use second::Panel;
use std::ops::RangeInclusive;

/// Differences that are shown whole. The others are counted.
const SHOWN: u64 = 10;

/// In a long run over all families this share of the judged sheets must hold, in percent. A run
/// that judges nothing, or all alike, would pass a panel that always says the same.
const SHARE: RangeInclusive<u64> = 40..=60;
const LONG: u64 = 1000;

/// What came of the sheets of one family, or of all.
#[derive(Clone, Copy, Default)]
struct Tally {
    hold: u64,
    clash: u64,
    refused: u64,
    differ: u64,
}

impl Tally {
    fn sheets(&self) -> u64 {
        self.hold + self.clash + self.refused
    }

    fn columns(&self) -> String {
        let columns = [
            self.sheets(),
            self.hold,
            self.clash,
            self.refused,
            self.differ,
        ];
        columns.map(|column| format!("{column:7}")).join(" ")
    }
}

pub struct Report {
    ask: Ask,
    panel: Panel,
    families: [Tally; FAMILIES.len()],
    bad_ends: u64,
}

impl Report {
    pub fn new(ask: Ask) -> Report {
        Report {
            ask,
            panel: Panel::new(),
            families: [Tally::default(); FAMILIES.len()],
            bad_ends: 0,
        }
    }

    /// Counts a sheet by what the independent panel says of it.
    fn count(&mut self, sent: &Sent, expected: &Answer) {
        let tally = &mut self.families[sent.family];
        match expected.number {
            HOLDS => tally.hold += 1,
            CLASHES => tally.clash += 1,
            _ => tally.refused += 1,
        }
    }

    fn difference(&mut self, sent: &Sent, expected: &Answer, got: &str, faults: &[String]) {
        self.families[sent.family].differ += 1;
        let differ = self.all().differ;
        if differ > SHOWN {
            return;
        }
        let (name, number, seed) = (FAMILIES[sent.family].name, sent.number, self.ask.seed);
        println!("difference {differ}: family {name}, number {number}, seed {seed}");
        block("expected", &[expected.words(&sent.sheet)]);
        block("got", &[got.to_string()]);
        block("wrong", faults);
        block("sheet", &hex(&sent.sheet));
        block("words", &words(&sent.sheet));
    }

    fn all(&self) -> Tally {
        let sum = |of: fn(&Tally) -> u64| self.families.iter().map(of).sum::<u64>();
        Tally {
            hold: sum(|tally| tally.hold),
            clash: sum(|tally| tally.clash),
            refused: sum(|tally| tally.refused),
            differ: sum(|tally| tally.differ) + self.bad_ends,
        }
    }
}

impl comparing::Report for Report {
    type Sent = Sent;

    fn heard(&mut self, sent: &Sent, heard: Result<&[u8], &Silence>) {
        let expected = Answer::expected(&mut self.panel, &sent.sheet);
        self.count(sent, &expected);
        match heard.map(Answer::from_frame) {
            Ok(got) => {
                let faults = faults(&sent.sheet, &expected, &got);
                if !faults.is_empty() {
                    self.difference(sent, &expected, &got.words(&sent.sheet), &faults);
                }
            }
            Err(silence) => self.difference(sent, &expected, &silence.to_string(), &[]),
        }
    }

    fn bad_end(&mut self, what: &str) {
        self.bad_ends += 1;
        println!("difference {}: {what}", self.all().differ);
    }

    fn close(&self) -> u8 {
        println!("family        sheets    hold   clash refused  differ");
        for (family, tally) in FAMILIES.iter().zip(&self.families) {
            if tally.sheets() > 0 {
                println!("{:12} {}", family.name, tally.columns());
            }
        }
        let all = self.all();
        let (sheets, seed) = (all.sheets(), self.ask.seed);
        let share = 100 * all.hold / (all.hold + all.clash).max(1);
        let lopsided = self.ask.family.is_none() && sheets >= LONG && !SHARE.contains(&share);
        if lopsided {
            println!(
                "not {} to {} % of the judged hold",
                SHARE.start(),
                SHARE.end()
            );
        }
        println!(
            "random: {sheets} sheets (seed {seed}): {} hold, {} clash, {} refused; \
             {share} % of the judged hold; {} differ",
            all.hold, all.clash, all.refused, all.differ
        );
        if all.differ > 0 {
            return 1;
        }
        assert_eq!(
            sheets,
            self.ask.count(),
            "where nothing differs, every sheet is compared"
        );
        if lopsided {
            return 3;
        }
        0
    }
}
