//! What is printed: the differences, a line for each family, what the reasons are made of, and a
//! line for all.

use super::answer::{faults, Answer, Expected, HOLDS, TOO_SMALL, WRITTEN};
use super::{families, family, Sent, COUNT};
use second::comparing::ask::Ask;
use second::comparing::tested::Silence;
use second::comparing::{self, block};
use second::random::words::{hex, words};
use second::Panel;

/// Differences that are shown whole. The others are counted.
const SHOWN: u64 = 10;

/// In a long run over all families half of the sheets must get a reason, and each refusal and kind
/// of step must have this share of the sheets, in percent: otherwise a writer that never gives it
/// would pass.
const WRITTEN_SHARE: u64 = 50;
const SHARE: u64 = 1;
const LONG: u64 = 1000;

/// What came of the sheets of one family, or of all.
#[derive(Clone, Copy, Default)]
struct Tally {
    written: u64,
    small: u64,
    hold: u64,
    refused: u64,
    differ: u64,
}

impl Tally {
    fn sheets(&self) -> u64 {
        self.written + self.small + self.hold + self.refused
    }

    fn columns(&self) -> String {
        let columns = [
            self.sheets(),
            self.written,
            self.small,
            self.hold,
            self.refused,
            self.differ,
        ];
        columns.map(|column| format!("{column:7}")).join(" ")
    }
}

/// What the reasons that could be read are made of.
#[derive(Default)]
struct Made {
    /// Steps of each kind.
    kinds: [u64; 4],
    steps: usize,
    bounds: usize,
    bytes: usize,
}

pub struct Report {
    ask: Ask,
    panel: Panel,
    families: [Tally; COUNT],
    made: Made,
    bad_ends: u64,
}

impl Report {
    pub fn new(ask: Ask) -> Report {
        Report {
            ask,
            panel: Panel::new(),
            families: [Tally::default(); COUNT],
            made: Made::default(),
            bad_ends: 0,
        }
    }

    /// Counts a sheet by what must be answered.
    fn count(&mut self, sent: &Sent, expected: &Expected) {
        let tally = &mut self.families[sent.family];
        match expected.number() {
            WRITTEN => tally.written += 1,
            TOO_SMALL => tally.small += 1,
            HOLDS => tally.hold += 1,
            _ => tally.refused += 1,
        }
    }

    /// Looks at what an answer's reason is made of.
    fn look(&mut self, got: &Answer) {
        let reason = match got.reason() {
            Some(reason) => reason,
            None => return,
        };
        let made = &mut self.made;
        for step in &reason.steps {
            if let Some(count) = made.kinds.get_mut(usize::from(step.kind)) {
                *count += 1;
            }
            let bounds = step.first.len().max(step.second.len());
            made.bounds = made.bounds.max(bounds);
        }
        made.steps = made.steps.max(reason.steps.len());
        made.bytes = made.bytes.max(reason.bytes().len());
    }

    fn difference(&mut self, sent: &Sent, expected: &Expected, got: &[String], faults: &[String]) {
        self.families[sent.family].differ += 1;
        let differ = self.all().differ;
        if differ > SHOWN {
            return;
        }
        let (name, number, seed) = (family(sent.family).name, sent.number, self.ask.seed);
        let room = sent.room;
        println!(
            "difference {differ}: family {name}, number {number}, seed {seed}, \
             a room of {room} bytes"
        );
        block("expected", &[expected.words()]);
        block("got", got);
        block("wrong", faults);
        block("sheet", &hex(&sent.sheet));
        block("words", &words(&sent.sheet));
    }

    fn all(&self) -> Tally {
        let sum = |of: fn(&Tally) -> u64| self.families.iter().map(of).sum::<u64>();
        Tally {
            written: sum(|tally| tally.written),
            small: sum(|tally| tally.small),
            hold: sum(|tally| tally.hold),
            refused: sum(|tally| tally.refused),
            differ: sum(|tally| tally.differ) + self.bad_ends,
        }
    }

    fn is_lopsided(&self) -> bool {
        let all = self.all();
        let under = |count: u64, share: u64| 100 * count < share * all.sheets();
        let mut rare = [all.small, all.hold, all.refused]
            .into_iter()
            .chain(self.made.kinds);
        under(all.written, WRITTEN_SHARE) || rare.any(|count| under(count, SHARE))
    }
}

impl comparing::Report for Report {
    type Sent = Sent;

    fn heard(&mut self, sent: &Sent, heard: Result<&[u8], &Silence>) {
        let expected = Expected::of(&mut self.panel, &sent.sheet, sent.room);
        self.count(sent, &expected);
        match heard.map(Answer::from_frame) {
            Ok(got) => {
                self.look(&got);
                let faults = faults(&sent.sheet, &expected, &got);
                if !faults.is_empty() {
                    self.difference(sent, &expected, &got.words(), &faults);
                }
            }
            Err(silence) => self.difference(sent, &expected, &[silence.to_string()], &[]),
        }
    }

    fn bad_end(&mut self, what: &str) {
        self.bad_ends += 1;
        println!("difference {}: {what}", self.all().differ);
    }

    fn close(&self) -> u8 {
        println!("family        sheets written      25      26 refused  differ");
        for (family, tally) in families().zip(&self.families) {
            if tally.sheets() > 0 {
                println!("{:12} {}", family.name, tally.columns());
            }
        }
        let (all, made) = (self.all(), &self.made);
        let [by_walks, by_functions, walks, unequal] = made.kinds;
        println!(
            "steps: {by_walks} ties by walks, {by_functions} by functions, {walks} closing walks, \
             {unequal} closing ≠ entries; at most {} steps, {} bounds in a walk, {} bytes",
            made.steps, made.bounds, made.bytes
        );
        let (sheets, seed) = (all.sheets(), self.ask.seed);
        let long = self.ask.family.is_none() && sheets >= LONG;
        let lopsided = long && self.is_lopsided();
        if lopsided {
            println!(
                "fewer than {WRITTEN_SHARE} % of the sheets get a reason, or some refusal or kind \
                 of step has less than {SHARE} %"
            );
        }
        println!(
            "reasons: {sheets} sheets (seed {seed}): {} clash, of which {} get a reason and {} \
             have too little room, {} hold, {} refused; {} differ",
            all.written + all.small,
            all.written,
            all.small,
            all.hold,
            all.refused,
            all.differ
        );
        if all.differ > 0 {
            return 1;
        }
        assert_eq!(
            sheets,
            self.ask.count(),
            "where nothing differs, every sheet is looked at"
        );
        if lopsided {
            return 3;
        }
        0
    }
}
