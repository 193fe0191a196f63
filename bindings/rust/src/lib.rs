//! Judges a settings sheet: says whether its entries can be met together, with values that meet them or with the first list of entries
//! that clash by themselves. The code that judges is proved; this crate lends it slices and names what it answers.
//!
//! ```
//! use baruvkesh::{judge, Answer, EntryNumber, ROOM_NEEDED};
//!
//! // one unknown x, and the entry x < x
//! let sheet = [0, 18, 1, 1, 1, 0, 0, 0, 0, 0, 0, 0, 3, 0, 0, 0, 0, 0];
//! let mut room = [0; ROOM_NEEDED];
//! match judge(&sheet, &mut room) {
//!     Answer::Holds(values) => println!("holds: {:?} over {}", values.n().collect::<Vec<_>>(), values.d()),
//!     Answer::Clashes(list) => assert!(list.entries().eq([EntryNumber(0)])),
//!     Answer::Refused(why) => println!("refused {} at {}", why.number(), why.place()),
//! }
//! ```
//!
//! [`reason`] writes a reason for a clash, which anybody can check step by step:
//!
//! ```
//! use baruvkesh::{reason, Reasoned, Step, REASON_ROOM};
//!
//! // one unknown x, and the entry x < x
//! let sheet = [0, 18, 1, 1, 1, 0, 0, 0, 0, 0, 0, 0, 3, 0, 0, 0, 0, 0];
//! let mut room = vec![0; REASON_ROOM];
//! match reason(&sheet, &mut room) {
//!     Reasoned::Written(reason) => {
//!         // a walk over entry 0 from x back to x
//!         let steps: Vec<Step> = reason.steps().collect();
//!         assert!(matches!(steps[..], [Step::ClosingWalk { a: 0, .. }]));
//!     }
//!     other => println!("{other:?}"),
//! }
//! ```
//!
//! [`survey`] is such a check. It takes a reason from anybody, and a yes means that the entries of its list clash:
//!
//! ```
//! use baruvkesh::{reason, survey, EntryNumber, Reasoned, Surveyed, REASON_ROOM};
//!
//! // one unknown x, and the entry x < x
//! let sheet = [0, 18, 1, 1, 1, 0, 0, 0, 0, 0, 0, 0, 3, 0, 0, 0, 0, 0];
//! let mut room = vec![0; REASON_ROOM];
//! match reason(&sheet, &mut room) {
//!     Reasoned::Written(reason) => {
//!         let list: Vec<EntryNumber> = reason.entries().collect();
//!         assert_eq!(survey(&sheet, &list, reason.step_bytes()), Surveyed::Yes);
//!         // no step at all: the one after the last is wrong
//!         assert_eq!(survey(&sheet, &list, &[]), Surveyed::Wrong(0));
//!     }
//!     other => println!("{other:?}"),
//! }
//! ```
//!
//! A sheet may also be typed as text, one entry a line; [`transcribe`] writes its bytes:
//!
//! ```
//! use baruvkesh::{judge, transcribe, Answer, EntryNumber, Typed, ROOM_NEEDED, SHEET_ROOM};
//!
//! let mut sheet = [0; SHEET_ROOM];
//! let mut room = [0; ROOM_NEEDED];
//! match transcribe(b"x0<=x1\nx1<=x0\nf7(x0)!=f7(x1)\n", &mut sheet) {
//!     Typed::Sheet(sheet) => match judge(sheet, &mut room) {
//!         Answer::Clashes(list) => assert!(list.entries().eq([0, 1, 2].map(EntryNumber))),
//!         other => println!("{other:?}"),
//!     },
//!     Typed::Refused(slip) => println!("refused {} at {}", slip.number(), slip.place()),
//!     Typed::TooLong => println!("a text of 2^32 bytes or more"),
//! }
//! ```

#[cfg(not(all(target_arch = "x86_64", target_os = "linux")))]
compile_error!("the proved archive is x86-64 Linux code");

/// The most terms of a sheet.
pub const MAX_TERMS: usize = 128;

/// The most entries of a sheet.
pub const MAX_ENTRIES: usize = 128;

/// Length of an answer room that is enough for every sheet: 1,032.
pub const ROOM_NEEDED: usize = 8 + 8 * MAX_TERMS;

/// Length of a room that is enough for the sheet of every text: 1,542.
pub const SHEET_ROOM: usize = 6 + 6 * MAX_TERMS + 6 * MAX_ENTRIES;

/// Length of a room that is enough for every reason: 68,379.
pub const REASON_ROOM: usize = 10 + MAX_ENTRIES + (MAX_TERMS + 1) * (13 + 4 * (MAX_TERMS + 1));

/// The number of a term. It is never taken for an entry's.
#[derive(Clone, Copy, Debug, PartialEq, Eq, PartialOrd, Ord)]
pub struct TermNumber(pub u8);

/// The number of an entry. It is never taken for a term's.
#[derive(Clone, Copy, Debug, PartialEq, Eq, PartialOrd, Ord)]
#[repr(transparent)]
pub struct EntryNumber(pub u8);

/// What the panel says of a sheet. The answer record stands in the first bytes of the room.
#[derive(Clone, Copy, Debug, PartialEq, Eq)]
pub enum Answer<'a> {
    /// Values exist that meet every term and entry: such values.
    Holds(Values<'a>),
    /// None exist: the first list of entries that clash by themselves.
    Clashes(List<'a>),
    /// The sheet is sent back, and the whole room keeps what it held.
    Refused(Refusal),
}

/// The record of a sheet that holds.
#[derive(Clone, Copy, Debug, PartialEq, Eq)]
pub struct Values<'a>(&'a [u8]);

/// The record of a sheet that clashes.
#[derive(Clone, Copy, Debug, PartialEq, Eq)]
pub struct List<'a>(&'a [u8]);

/// Why a sheet is sent back. The first that applies is given, in this order.
#[derive(Clone, Copy, Debug, PartialEq, Eq)]
pub enum Refusal {
    /// 10: fewer than 6 bytes lent, or bytes 0-1 don't state the lent length.
    Length,
    /// 11: version isn't 1.
    Version,
    /// 12: T is 0 or over [`MAX_TERMS`], L over [`MAX_ENTRIES`], byte 5 not 0, or length not 6 + 6T + 6L.
    Shape,
    /// 13: this term is the lowest with kind over 4, a non-zero unused field, or an argument not below its own number.
    WrongTerm(TermNumber),
    /// 14: this entry is the lowest with kind over 3, a non-zero second byte, or a or b not below T.
    WrongEntry(EntryNumber),
    /// 15: answer room under [`ROOM_NEEDED`] bytes.
    Room,
}

/// What the transcript says of a text.
#[derive(Clone, Copy, Debug, PartialEq, Eq)]
pub enum Typed<'a> {
    /// The text's sheet, in the first bytes of the room.
    Sheet(&'a [u8]),
    /// The text is sent back, and the whole room keeps what it held.
    Refused(Slip),
    /// The text has 2^32 bytes or more and isn't read; the whole room keeps what it held.
    TooLong,
}

/// Why a text is sent back, and at which byte. [`Slip::Room`] is looked for first; of the others the one at the earliest byte is given, the
/// lowest number first at one byte.
#[derive(Clone, Copy, Debug, PartialEq, Eq)]
pub enum Slip {
    /// 20: no text of the form begins so, or the text ends too early.
    Form(usize),
    /// 21: an opening bracket that goes deeper than 16.
    Deep(usize),
    /// 22: the first digit that takes a number out of range.
    Range(usize),
    /// 23: the last byte of a 129th term, or the first of a 129th line.
    Full(usize),
    /// 24: room under [`SHEET_ROOM`] bytes.
    Room,
}

/// What the call for reasons says of a sheet.
#[derive(Clone, Copy, Debug, PartialEq, Eq)]
pub enum Reasoned<'a> {
    /// The sheet clashes: a reason for its first list, whose record stands in the first bytes of the room.
    Written(Reason<'a>),
    /// 25: the sheet clashes, and the room is under [`REASON_ROOM`] bytes; it keeps what it held.
    Short,
    /// 26: the sheet holds; the whole room keeps what it held.
    Holds,
    /// The sheet is sent back, never with [`Refusal::Room`], and the whole room keeps what it held.
    Refused(Refusal),
}

/// The record of a reason: ties, and behind them one closing step.
#[derive(Clone, Copy, Debug, PartialEq, Eq)]
pub struct Reason<'a>(&'a [u8]);

/// A step of a reason. Points are the terms by their numbers, and T for the zero level.
#[derive(Clone, Copy, Debug, PartialEq, Eq)]
pub enum Step<'a> {
    /// a = b + c: one walk goes from a to b and comes to c, one from b to a and comes to -c.
    TieByWalks {
        a: u8,
        b: u8,
        c: i64,
        there: Walk<'a>,
        back: Walk<'a>,
    },
    /// a = b, of two applications whose arguments are tied with gap 0.
    TieByFunctions { a: TermNumber, b: TermNumber },
    /// A walk from a back to a, below zero, or zero with a strict entry.
    ClosingWalk { a: u8, round: Walk<'a> },
    /// A ≠ entry on terms tied at exactly its c.
    ClosingEntry(EntryNumber),
}

/// Bounds that chain, each from where the last one went.
#[derive(Clone, Copy, Debug, PartialEq, Eq)]
pub struct Walk<'a>(&'a [u8]);

/// What a walk goes over.
#[derive(Clone, Copy, Debug, PartialEq, Eq)]
pub struct Bound {
    /// An entry, a term, or an earlier tie.
    pub over: Over,
    /// Whether it is walked backwards.
    pub back: bool,
}

/// What a bound is of.
#[derive(Clone, Copy, Debug, PartialEq, Eq)]
pub enum Over {
    /// A ≤, < or = entry.
    Entry(EntryNumber),
    /// A number or a shift.
    Term(TermNumber),
    /// The tie step of that number.
    Tie(u8),
}

/// What the check says of a reason.
#[derive(Clone, Copy, Debug, PartialEq, Eq)]
pub enum Surveyed {
    /// 0: each step obeys the rules, and the entries of the list clash.
    Yes,
    /// 1: the step of this number is the first wrong one; where no step closes, it is the one after the last.
    Wrong(usize),
    /// 27: the entry numbers don't rise, or one isn't below L.
    NoList,
    /// The sheet is sent back, never with [`Refusal::Room`].
    Refused(Refusal),
}

impl Answer<'_> {
    /// 0 for holds, 1 for clashes, and the refusal's number.
    pub fn number(&self) -> u8 {
        match self {
            Answer::Holds(_) => 0,
            Answer::Clashes(_) => 1,
            Answer::Refused(why) => why.number(),
        }
    }

    /// The length of the answer record, or the refusal's place.
    pub fn place(&self) -> usize {
        match self {
            Answer::Holds(values) => values.record().len(),
            Answer::Clashes(list) => list.record().len(),
            Answer::Refused(why) => why.place().into(),
        }
    }
}

impl<'a> Values<'a> {
    /// The answer record.
    pub fn record(&self) -> &'a [u8] {
        self.0
    }

    /// D: the value of a term is n / D.
    pub fn d(&self) -> u16 {
        u16::from_be_bytes([self.0[4], self.0[5]])
    }

    /// n of each term.
    pub fn n(&self) -> impl Iterator<Item = i64> + 'a {
        self.0[8..]
            .chunks_exact(8)
            .map(|bytes| i64::from_be_bytes(bytes.try_into().unwrap()))
    }
}

impl<'a> List<'a> {
    /// The answer record.
    pub fn record(&self) -> &'a [u8] {
        self.0
    }

    /// The entries of the list, rising.
    pub fn entries(&self) -> impl Iterator<Item = EntryNumber> + 'a {
        self.0[8..].iter().map(|&entry| EntryNumber(entry))
    }
}

impl Reasoned<'_> {
    /// 1 where a reason is written, 25, 26, and the refusal's number.
    pub fn number(&self) -> u8 {
        match self {
            Reasoned::Written(_) => 1,
            Reasoned::Short => 25,
            Reasoned::Holds => 26,
            Reasoned::Refused(why) => why.number(),
        }
    }

    /// The length of the reason record, or the refusal's place, or 0.
    pub fn place(&self) -> usize {
        match self {
            Reasoned::Written(reason) => reason.record().len(),
            Reasoned::Short | Reasoned::Holds => 0,
            Reasoned::Refused(why) => why.place().into(),
        }
    }
}

impl<'a> Reason<'a> {
    /// The reason record.
    pub fn record(&self) -> &'a [u8] {
        self.0
    }

    /// The number of groups lost to ties.
    pub fn ties(&self) -> u8 {
        self.0[5]
    }

    /// The clash list, rising: the entries behind the last step are exactly these.
    pub fn entries(&self) -> impl Iterator<Item = EntryNumber> + 'a {
        self.0[10..self.listed()]
            .iter()
            .map(|&entry| EntryNumber(entry))
    }

    /// The bytes of the steps, as [`survey`] takes them.
    pub fn step_bytes(&self) -> &'a [u8] {
        &self.0[self.listed()..]
    }

    /// The steps; the last one closes.
    pub fn steps(&self) -> impl Iterator<Item = Step<'a>> + 'a {
        let mut rest = self.step_bytes();
        std::iter::from_fn(move || {
            let (head, bounds) = (rest.get(..13)?, &rest[13..]);
            let (there, bounds) = bounds.split_at(2 * usize::from(head[11]));
            let (back, behind) = bounds.split_at(2 * usize::from(head[12]));
            rest = behind;
            let (a, b) = (head[1], head[2]);
            Some(match head[0] {
                0 => Step::TieByWalks {
                    a,
                    b,
                    c: i64::from_be_bytes(head[3..11].try_into().unwrap()),
                    there: Walk(there),
                    back: Walk(back),
                },
                1 => Step::TieByFunctions {
                    a: TermNumber(a),
                    b: TermNumber(b),
                },
                2 => Step::ClosingWalk {
                    a,
                    round: Walk(there),
                },
                3 => Step::ClosingEntry(EntryNumber(a)),
                kind => unreachable!("the contract has no step of kind {kind}"),
            })
        })
    }

    // where the clash list ends
    fn listed(&self) -> usize {
        10 + usize::from(u16::from_be_bytes([self.0[6], self.0[7]]))
    }
}

impl<'a> Walk<'a> {
    /// The bounds, from the walk's first point to its last.
    pub fn bounds(&self) -> impl Iterator<Item = Bound> + 'a {
        self.0.chunks_exact(2).map(|bytes| Bound {
            over: match bytes[0] / 2 {
                0 => Over::Entry(EntryNumber(bytes[1])),
                1 => Over::Term(TermNumber(bytes[1])),
                2 => Over::Tie(bytes[1]),
                _ => unreachable!("the contract has no bound of kind {}", bytes[0]),
            },
            back: bytes[0] % 2 == 1,
        })
    }
}

impl Surveyed {
    /// 0 for yes, 1 for a wrong step, 27, and the refusal's number.
    pub fn number(&self) -> u8 {
        match self {
            Surveyed::Yes => 0,
            Surveyed::Wrong(_) => 1,
            Surveyed::NoList => 27,
            Surveyed::Refused(why) => why.number(),
        }
    }

    /// The number of the first wrong step, or the refusal's place, or 0.
    pub fn place(&self) -> usize {
        match *self {
            Surveyed::Yes | Surveyed::NoList => 0,
            Surveyed::Wrong(step) => step,
            Surveyed::Refused(why) => why.place().into(),
        }
    }
}

impl Refusal {
    /// 10 to 15.
    pub fn number(&self) -> u8 {
        match self {
            Refusal::Length => 10,
            Refusal::Version => 11,
            Refusal::Shape => 12,
            Refusal::WrongTerm(_) => 13,
            Refusal::WrongEntry(_) => 14,
            Refusal::Room => 15,
        }
    }

    /// The number of the term or the entry that is wrong, or 0.
    pub fn place(&self) -> u8 {
        match self {
            Refusal::WrongTerm(term) => term.0,
            Refusal::WrongEntry(entry) => entry.0,
            _ => 0,
        }
    }
}

impl Slip {
    /// 20 to 24.
    pub fn number(&self) -> u8 {
        match self {
            Slip::Form(_) => 20,
            Slip::Deep(_) => 21,
            Slip::Range(_) => 22,
            Slip::Full(_) => 23,
            Slip::Room => 24,
        }
    }

    /// The byte, which is the text's length where the text ends too early; or 0.
    pub fn place(&self) -> usize {
        match *self {
            Slip::Form(byte) | Slip::Deep(byte) | Slip::Range(byte) | Slip::Full(byte) => byte,
            Slip::Room => 0,
        }
    }
}

extern "C" {
    fn baruvkesh_judge(sheet: *const u8, sheet_len: usize, room: *mut u8, room_len: usize) -> u32;
    fn baruvkesh_transcribe(
        text: *const u8,
        text_len: usize,
        room: *mut u8,
        room_len: usize,
    ) -> u64;
    fn baruvkesh_reason(sheet: *const u8, sheet_len: usize, room: *mut u8, room_len: usize) -> u64;
    fn baruvkesh_survey(
        sheet: *const u8,
        sheet_len: usize,
        list: *const u8,
        list_len: usize,
        steps: *const u8,
        steps_len: usize,
    ) -> u64;
}

/// Judges the sheet, and writes the answer record to the first bytes of the room unless the sheet is refused. The bytes past the record
/// keep what they held. Any bytes and any two lengths are allowed.
pub fn judge<'a>(sheet: &[u8], room: &'a mut [u8]) -> Answer<'a> {
    // SAFETY: the function has no precondition but two slices that don't overlap, and these are.
    let answer =
        unsafe { baruvkesh_judge(sheet.as_ptr(), sheet.len(), room.as_mut_ptr(), room.len()) };
    let place = (answer & 0xFFFF) as usize;
    match answer >> 16 {
        0 => Answer::Holds(Values(&room[..place])),
        1 => Answer::Clashes(List(&room[..place])),
        number => Answer::Refused(refusal(number.into(), place)),
    }
}

fn refusal(number: u64, place: usize) -> Refusal {
    match number {
        10 => Refusal::Length,
        11 => Refusal::Version,
        12 => Refusal::Shape,
        13 => Refusal::WrongTerm(TermNumber(place as u8)),
        14 => Refusal::WrongEntry(EntryNumber(place as u8)),
        15 => Refusal::Room,
        number => unreachable!("the contract has no number {number}"),
    }
}

/// Writes a reason for a clash to the first bytes of the room, unless the sheet is refused or holds or the room is too short. The bytes past
/// the record keep what they held. Any bytes and any two lengths are allowed.
pub fn reason<'a>(sheet: &[u8], room: &'a mut [u8]) -> Reasoned<'a> {
    // SAFETY: the function has no precondition but two slices that don't overlap, and these are.
    let answer =
        unsafe { baruvkesh_reason(sheet.as_ptr(), sheet.len(), room.as_mut_ptr(), room.len()) };
    let place = (answer & 0xFFFF_FFFF) as usize;
    match answer >> 32 {
        1 => Reasoned::Written(Reason(&room[..place])),
        25 => Reasoned::Short,
        26 => Reasoned::Holds,
        number => Reasoned::Refused(refusal(number, place)),
    }
}

/// Checks a reason from anybody: whether each step obeys the rules for reasons and uses entries of the list only, and the last one closes with
/// exactly the list's entries behind it. Steps are the bytes of a reason record behind its list; one whose bytes end before it does is wrong.
/// Every reason of [`reason`] gets a yes. A yes means that the entries of the list clash, and doesn't vouch that it is the first of all lists.
/// Any bytes and any three lengths are allowed.
pub fn survey(sheet: &[u8], list: &[EntryNumber], steps: &[u8]) -> Surveyed {
    // SAFETY: the function has no precondition but three slices, which it only reads, and these are; an entry number is a byte.
    let answer = unsafe {
        baruvkesh_survey(
            sheet.as_ptr(),
            sheet.len(),
            list.as_ptr().cast(),
            list.len(),
            steps.as_ptr(),
            steps.len(),
        )
    };
    let place = (answer & 0xFFFF_FFFF) as usize;
    match answer >> 32 {
        0 => Surveyed::Yes,
        1 => Surveyed::Wrong(place),
        27 => Surveyed::NoList,
        number => Surveyed::Refused(refusal(number, place)),
    }
}

/// Reads a sheet that is typed as text, and writes its bytes to the first bytes of the room unless the text is refused. The bytes past the
/// sheet keep what they held. Any bytes and any two lengths are allowed. Entry numbers are line numbers, from 0.
pub fn transcribe<'a>(text: &[u8], room: &'a mut [u8]) -> Typed<'a> {
    // SAFETY: the function has no precondition but two slices that don't overlap, and these are.
    let answer =
        unsafe { baruvkesh_transcribe(text.as_ptr(), text.len(), room.as_mut_ptr(), room.len()) };
    if answer == u64::MAX {
        return Typed::TooLong;
    }
    let place = (answer & 0xFFFF_FFFF) as usize;
    match answer >> 32 {
        0 => Typed::Sheet(&room[..place]),
        20 => Typed::Refused(Slip::Form(place)),
        21 => Typed::Refused(Slip::Deep(place)),
        22 => Typed::Refused(Slip::Range(place)),
        23 => Typed::Refused(Slip::Full(place)),
        24 => Typed::Refused(Slip::Room),
        number => unreachable!("the contract has no number {number}"),
    }
}
