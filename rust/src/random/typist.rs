//! Who types random texts, and knows how many terms they have.

use super::Random;

/// How deep the terms go that are taken as parts of others. A term with 8 new ones in it goes at
/// most 8 deeper, and halves make one with 129 of it that goes 4 deeper still: 16 in all.
const SHALLOW: usize = 4;

/// A term as it is typed.
#[derive(Clone)]
struct Spelling {
    text: String,
    /// How many brackets are open at once.
    depth: usize,
    /// Whether a shift may follow.
    shiftable: bool,
}

pub struct Typist<'a> {
    pub random: &'a mut Random,
    pub text: String,
    /// Every term of the text, and of the line that is being typed.
    met: Vec<Spelling>,
    /// Terms that are left to others.
    avoided: &'static [&'static str],
}

impl<'a> Typist<'a> {
    pub fn new(random: &'a mut Random) -> Typist<'a> {
        Typist::avoiding(random, &[])
    }

    pub fn avoiding(random: &'a mut Random, avoided: &'static [&'static str]) -> Typist<'a> {
        Typist {
            random,
            text: String::new(),
            met: Vec::new(),
            avoided,
        }
    }

    /// Types so many lines with so many terms in all, neither of them 0.
    pub fn filled(mut self, terms: usize, lines: usize) -> Typist<'a> {
        for left in (1..=lines).rev() {
            let need = terms - self.met.len();
            let new = match left {
                1 => need,
                _ => self.random.below(2 * need / left + 2).min(need),
            };
            let new = if self.met.is_empty() { new.max(1) } else { new };
            let first = self.random.below(new + 1);
            // Before the first term is met, none can be met again.
            let first = if self.met.is_empty() {
                first.max(1)
            } else {
                first
            };
            let (a, b) = (self.term(first).text, self.term(new - first).text);
            self.line(&a, &b);
        }
        self
    }

    pub fn line(&mut self, a: &str, b: &str) {
        let comparison = self.random.pick(&["=", "!=", "<=", "<"]);
        self.text += &format!("{a}{comparison}{b}\n");
    }

    /// Types a line of two terms, whichever comes first.
    pub fn line_of(&mut self, a: &str, b: &str) {
        match self.random.coin() {
            true => self.line(a, b),
            false => self.line(b, a),
        }
    }

    /// A term that has been typed.
    pub fn any_met(&mut self) -> String {
        self.term(0).text
    }

    /// A term that makes for so many new ones in all, itself and what it consists of.
    fn term(&mut self, new: usize) -> Spelling {
        match new {
            0 => self.shallow(),
            1 if self.met.is_empty() || self.random.coin() => self.leaf(),
            1 => {
                let part = self.shallow();
                let term = self.over(part);
                match self.is_met(&term) {
                    true => self.leaf(),
                    false => self.meet(term),
                }
            }
            // What has a new part is new.
            2..=8 if self.random.coin() => {
                let part = self.term(new - 1);
                let term = self.over(part);
                self.meet(term)
            }
            _ => {
                let first = (new - 1) / 2;
                let first = if self.met.is_empty() {
                    first.max(1)
                } else {
                    first
                };
                let (a, b) = (self.term(first), self.term(new - 1 - first));
                let term = self.applied(&[a, b]);
                self.meet(term)
            }
        }
    }

    fn is_met(&self, term: &Spelling) -> bool {
        self.met.iter().any(|met| met.text == term.text)
    }

    fn meet(&mut self, term: Spelling) -> Spelling {
        self.met.push(term.clone());
        term
    }

    fn shallow(&mut self) -> Spelling {
        let at = self.random.below(self.met.len());
        let shallow = |term: &&Spelling| term.depth <= SHALLOW;
        let found = self.met[at..].iter().find(shallow);
        found.unwrap_or(&self.met[0]).clone()
    }

    /// A new unknown or number.
    fn leaf(&mut self) -> Spelling {
        loop {
            let shiftable = self.random.coin();
            let text = match shiftable {
                true => format!("x{}", self.random.below(100)),
                false => self.c().to_string(),
            };
            let leaf = Spelling {
                text,
                depth: 0,
                shiftable,
            };
            if !self.is_met(&leaf) && !self.avoided.contains(&leaf.text.as_str()) {
                return self.meet(leaf);
            }
        }
    }

    /// A number in the range of c, mostly a small one.
    fn c(&mut self) -> i64 {
        match self.random.one_in(4) {
            true => self.random.within(-32_768..=32_767),
            false => self.random.within(-9..=99),
        }
    }

    /// A shift of a term, or an application to it.
    fn over(&mut self, part: Spelling) -> Spelling {
        let other = self.shallow();
        match self.random.below(5) {
            0 | 1 if part.shiftable => Spelling {
                text: format!("{}{:+}", part.text, self.c()),
                shiftable: false,
                ..part
            },
            2 => self.applied(&[part, other]),
            3 => self.applied(&[other, part]),
            _ => self.applied(&[part]),
        }
    }

    fn applied(&mut self, arguments: &[Spelling]) -> Spelling {
        let symbol = match self.random.coin() {
            true => self.random.pick(&[0, 7, 8, 130, 255]),
            false => self.random.below(256),
        };
        let texts: Vec<&str> = arguments.iter().map(|term| term.text.as_str()).collect();
        let deepest = arguments.iter().map(|term| term.depth).max();
        Spelling {
            text: format!("f{symbol}({})", texts.join(",")),
            depth: 1 + deepest.unwrap_or(0),
            shiftable: true,
        }
    }
}
