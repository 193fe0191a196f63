//! Steps of a reason, and the bounds that their walks go over, with their byte form. Any bytes can be
//! told as steps, right or wrong; `survey` tells which they are.

/// The bytes of a bound.
pub const BOUND: usize = 2;

/// What a walk goes over: an entry, a number or shift term, or an earlier tie step.
#[derive(Clone, Copy, Debug, PartialEq, Eq)]
pub struct Bound {
    /// Which of the three; one more is the same backwards.
    pub kind: u8,
    /// The number of the entry, of the term, or of the step among all steps.
    pub number: u8,
}

impl Bound {
    /// The kind of an entry.
    pub const ENTRY: u8 = 0;
    /// The kind of a number or shift term.
    pub const TERM: u8 = 2;
    /// The kind of an earlier tie step.
    pub const TIE: u8 = 4;
    /// The highest kind that there is.
    pub const LAST: u8 = 5;

    /// An entry.
    pub fn entry(number: u8) -> Bound {
        let kind = Bound::ENTRY;
        Bound { kind, number }
    }

    /// A number or shift term.
    pub fn term(number: u8) -> Bound {
        let kind = Bound::TERM;
        Bound { kind, number }
    }

    /// An earlier tie step.
    pub fn tie(number: u8) -> Bound {
        let kind = Bound::TIE;
        Bound { kind, number }
    }

    /// The same the other way.
    pub fn back(self) -> Bound {
        let kind = self.kind ^ 1;
        Bound { kind, ..self }
    }

    /// Which of the three, whichever way.
    pub fn over(self) -> u8 {
        self.kind & !1
    }

    /// Whether it goes backwards.
    pub fn is_back(self) -> bool {
        self.kind & 1 == 1
    }

    /// In words.
    pub fn words(self) -> String {
        let Bound { kind, number } = self;
        let what = match self.over() {
            Bound::ENTRY => format!("entry {number}"),
            Bound::TERM => format!("t{number}"),
            Bound::TIE => format!("step {number}"),
            _ => return format!("a bound of kind {kind} and number {number}"),
        };
        let back = if self.is_back() { " back" } else { "" };
        format!("{what}{back}")
    }
}

/// One step of a reason, with all the fields of its byte form.
#[derive(Clone, Debug, PartialEq, Eq)]
pub struct Step {
    /// Which kind of step.
    pub kind: u8,
    /// A point, an application or an entry.
    pub a: u8,
    /// The other point or application.
    pub b: u8,
    /// A tie says a = b + c.
    pub c: i64,
    /// The bounds of the first walk.
    pub first: Vec<Bound>,
    /// The bounds of the second walk.
    pub second: Vec<Bound>,
}

impl Step {
    /// The kind of a tie by walks.
    pub const BY_WALKS: u8 = 0;
    /// The kind of a tie by functions.
    pub const BY_FUNCTIONS: u8 = 1;
    /// The kind of a closing walk.
    pub const WALK: u8 = 2;
    /// The kind of a closing ≠ entry.
    pub const UNEQUAL: u8 = 3;

    /// The tie a = b + c by a walk there and one back.
    pub fn by_walks(a: u8, b: u8, c: i64, first: Vec<Bound>, second: Vec<Bound>) -> Step {
        let kind = Step::BY_WALKS;
        Step {
            kind,
            a,
            b,
            c,
            first,
            second,
        }
    }

    /// The tie of two applications.
    pub fn by_functions(a: u8, b: u8) -> Step {
        Step::plain(Step::BY_FUNCTIONS, a, b)
    }

    /// A closing walk from a point to itself.
    pub fn walk(a: u8, first: Vec<Bound>) -> Step {
        let plain = Step::plain(Step::WALK, a, 0);
        Step { first, ..plain }
    }

    /// A closing ≠ entry.
    pub fn unequal(entry: u8) -> Step {
        Step::plain(Step::UNEQUAL, entry, 0)
    }

    fn plain(kind: u8, a: u8, b: u8) -> Step {
        let (first, second) = (Vec::new(), Vec::new());
        Step {
            kind,
            a,
            b,
            c: 0,
            first,
            second,
        }
    }

    /// How many bytes a step has before its bounds.
    pub const HEAD: usize = 13;

    /// The byte form.
    pub fn bytes(&self) -> Vec<u8> {
        let mut bytes = vec![self.kind, self.a, self.b];
        bytes.extend(self.c.to_be_bytes());
        bytes.extend([self.first.len() as u8, self.second.len() as u8]);
        for bound in self.first.iter().chain(&self.second) {
            bytes.extend([bound.kind, bound.number]);
        }
        bytes
    }

    /// How many bytes of bounds are behind a head.
    pub fn behind(head: &[u8; Step::HEAD]) -> usize {
        BOUND * (usize::from(head[11]) + usize::from(head[12]))
    }

    /// From the byte form: a head, and as many bytes of bounds as are behind it.
    pub fn from(head: &[u8; Step::HEAD], bounds: &[u8]) -> Step {
        let [kind, a, b, c @ .., first, _] = *head;
        let bound = |two: &[u8]| Bound {
            kind: two[0],
            number: two[1],
        };
        let mut bounds = bounds.chunks_exact(BOUND).map(bound);
        Step {
            kind,
            a,
            b,
            c: i64::from_be_bytes(c),
            first: bounds.by_ref().take(first.into()).collect(),
            second: bounds.collect(),
        }
    }

    /// Whether it is of a kind that ties.
    pub fn ties(&self) -> bool {
        matches!(self.kind, Step::BY_WALKS | Step::BY_FUNCTIONS)
    }

    /// Whether it is of a kind that closes.
    pub fn closes(&self) -> bool {
        matches!(self.kind, Step::WALK | Step::UNEQUAL)
    }

    /// In words; the point T is the zero level.
    pub fn words(&self) -> String {
        let Step {
            kind,
            a,
            b,
            c,
            first,
            second,
        } = self;
        let there = walk_words(first);
        match *kind {
            Step::BY_WALKS => {
                let back = walk_words(second);
                format!("tie {a} = {b} + {c} by {there} and {back}")
            }
            Step::BY_FUNCTIONS if self.is_plain() => format!("tie of applications {a} and {b}"),
            Step::WALK if (*b, *c, second.len()) == (0, 0, 0) => {
                format!("closing walk from {a}: {there}")
            }
            Step::UNEQUAL if *b == 0 && self.is_plain() => format!("closing ≠ entry {a}"),
            _ => {
                let back = walk_words(second);
                format!("kind {kind}, a {a}, b {b}, c {c}, {there} and {back}")
            }
        }
    }

    fn is_plain(&self) -> bool {
        self.c == 0 && self.first.is_empty() && self.second.is_empty()
    }
}

fn walk_words(walk: &[Bound]) -> String {
    let bounds: Vec<String> = walk.iter().map(|bound| bound.words()).collect();
    format!("[{}]", bounds.join(", "))
}
