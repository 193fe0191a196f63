//! What is printed: the differences, a line for each family, and a line for all.

use super::{shown, Sent};
use second::comparing::ask::Ask;
use second::comparing::tested::Silence;
use second::comparing::{self, block};
use second::random::texts::TEXTS;

/// Differences that are shown whole. The others are counted.
const SHOWN: u64 = 10;

/// The answers: a sheet, and each refusal. In a long run over all families each of them must be
/// given to this share of the texts, in percent, or a reader that never gives it would pass.
const ANSWERS: [u8; 6] = [0, 20, 21, 22, 23, 24];
const SHARE: u64 = 2;
const LONG: u64 = 1000;

/// What came of the texts of one family, or of all.
#[derive(Clone, Copy, Default)]
struct Tally {
    answers: [u64; ANSWERS.len()],
    differ: u64,
}

impl Tally {
    fn texts(&self) -> u64 {
        self.answers.iter().sum()
    }

    fn columns(&self) -> String {
        let columns = [self.texts()]
            .into_iter()
            .chain(self.answers)
            .chain([self.differ]);
        columns.map(|column| format!(" {column:7}")).collect()
    }
}

pub struct Report {
    ask: Ask,
    families: [Tally; TEXTS.len()],
    bad_ends: u64,
}

impl Report {
    pub fn new(ask: Ask) -> Report {
        Report {
            ask,
            families: [Tally::default(); TEXTS.len()],
            bad_ends: 0,
        }
    }

    /// Counts a text by what the independent reader says of it.
    fn count(&mut self, sent: &Sent, expected: &[u8]) {
        let answer = ANSWERS.iter().position(|&number| number == expected[0]);
        let answer = answer.expect("the independent reader gives no other number");
        self.families[sent.family].answers[answer] += 1;
    }

    fn difference(&mut self, sent: &Sent, expected: &[u8], got: Result<&[u8], &Silence>) {
        self.families[sent.family].differ += 1;
        let differ = self.all().differ;
        if differ > SHOWN {
            return;
        }
        let (name, number, seed) = (TEXTS[sent.family].name, sent.number, self.ask.seed);
        let room = sent.room;
        println!(
            "difference {differ}: family {name}, number {number}, seed {seed}, \
             a room of {room} bytes"
        );
        block("expected", &shown::answer(expected));
        match got {
            Ok(got) => {
                block("got", &shown::answer(got));
                block("wrong", &shown::faults(expected, got));
            }
            Err(silence) => block("got", &[silence.to_string()]),
        }
        block("text", &shown::lines(&sent.text, expected));
        block("hex", &shown::hex(&sent.text, expected));
        block("words", &shown::at(&sent.text, expected));
    }

    fn all(&self) -> Tally {
        let mut all = Tally::default();
        for tally in &self.families {
            for (sum, answers) in all.answers.iter_mut().zip(tally.answers) {
                *sum += answers;
            }
            all.differ += tally.differ;
        }
        all.differ += self.bad_ends;
        all
    }
}

impl comparing::Report for Report {
    type Sent = Sent;

    fn heard(&mut self, sent: &Sent, heard: Result<&[u8], &Silence>) {
        let expected = sent.expected();
        self.count(sent, &expected);
        if heard.map_or(true, |got| got != expected) {
            self.difference(sent, &expected, heard);
        }
    }

    fn bad_end(&mut self, what: &str) {
        self.bad_ends += 1;
        println!("difference {}: {what}", self.all().differ);
    }

    fn close(&self) -> u8 {
        println!("family         texts    read      20      21      22      23      24  differ");
        for (family, tally) in TEXTS.iter().zip(&self.families) {
            if tally.texts() > 0 {
                println!("{:12}{}", family.name, tally.columns());
            }
        }
        let all = self.all();
        let (texts, seed) = (all.texts(), self.ask.seed);
        let few = |&&answers: &&u64| 100 * answers < SHARE * texts;
        let long = self.ask.family.is_none() && texts >= LONG;
        let lopsided = long && all.answers.iter().find(few).is_some();
        if lopsided {
            println!("an answer is given to less than {SHARE} % of the texts");
        }
        let [read, refused @ ..] = all.answers;
        println!(
            "texts: {texts} texts (seed {seed}): {read} read, {} refused; {} differ",
            refused.iter().sum::<u64>(),
            all.differ
        );
        if all.differ > 0 {
            return 1;
        }
        assert_eq!(
            texts,
            self.ask.count(),
            "where nothing differs, every text is compared"
        );
        if lopsided {
            return 3;
        }
        0
    }
}
