//! Lapses of a writer of reasons, to show that a tester of reasons bites.
//!
//! Each goes against a sentence of document 01's rules for reasons, of request 4, or of the paper on
//! byte forms.

use super::finder::renumber;
use super::record::Reason;
use super::step::{Bound, Step};

/// A way to write wrongly.
#[derive(Clone, Copy, Debug, PartialEq, Eq)]
pub enum Lapse {
    /// Goes over a strict bound in a tie's walk.
    StrictTie,
    /// Puts two bounds of a walk in each other's place.
    Unchained,
    /// Closes by a walk that comes to zero.
    NotUnder,
    /// Closes by a ≠ entry on terms tied at any c. The first list has no such entry, so another list
    /// is written too.
    OtherC,
    /// Closes by a ≠ entry on terms that aren't tied.
    Untied,
    /// States a tie's c one too high.
    WrongC,
    /// Goes over ≤ entries both ways.
    BothWays,
    /// Goes over ≠ entries as if they were =.
    OverUnequal,
    /// Goes to and fro until a walk has too many bounds.
    LongWalk,
    /// Goes over a tie that isn't there yet.
    LaterTie,
    /// Ties applications whose arguments are tied at another gap.
    OtherGap,
    /// Ties applications of two symbols.
    AnySymbol,
    /// Ties applications of one argument and of two.
    AnyCount,
    /// Ties applications whose second arguments aren't tied.
    FirstArgument,
    /// Ties applications whose arguments match crossed.
    Crossed,
    /// Ties two points again.
    Again,
    /// Ties all that bounds tie, at any gap, before functions, and then points of one group.
    Walled,
    /// Goes on behind the closing step.
    GoesOn,
    /// Leaves the closing step out.
    NeverCloses,
    /// Leaves something in a field that isn't used.
    Unused,
    /// Keeps steps that the last one doesn't rest on.
    Needless,
    /// Uses entries that aren't on the list.
    OffList,
    /// Writes a list that isn't the first.
    Fewest,
    /// Writes a list with entries that aren't behind the last step.
    MetLast,
    /// Writes the list falling.
    Falling,
    /// States one tie too many in byte 5.
    TiesCount,
    /// Writes another version in byte 4.
    Version,
    /// States one step too many.
    StepsCount,
    /// Answers a place that isn't the record's length.
    LongPlace,
    /// Clears the room past the record.
    Clears,
    /// Writes to the room before it is known to be too small.
    Early,
    /// Writes values into the room where the sheet holds.
    Values,
    /// Writes to the room before the sheet is read.
    Writes,
    /// Looks at the room before it is known whether the sheet holds.
    RoomFirst,
    /// Takes a room that is a byte too small.
    RoomUnder,
    /// Sends back a room that is just large enough.
    RoomOver,
    /// Takes any room in which this record fits.
    RoomFits,
    /// Gives the sheet's own 15 where the room is under an answer room's size.
    AnswerRoom,
    /// Gives a place other than 0 with 26.
    HoldsAt,
}

impl Lapse {
    /// Every lapse, with its name on the command line.
    pub const ALL: [(Lapse, &'static str); 39] = [
        (Lapse::StrictTie, "strict-tie"),
        (Lapse::Unchained, "unchained"),
        (Lapse::NotUnder, "not-under"),
        (Lapse::OtherC, "other-c"),
        (Lapse::Untied, "untied"),
        (Lapse::WrongC, "wrong-c"),
        (Lapse::BothWays, "both-ways"),
        (Lapse::OverUnequal, "over-unequal"),
        (Lapse::LongWalk, "long-walk"),
        (Lapse::LaterTie, "later-tie"),
        (Lapse::OtherGap, "other-gap"),
        (Lapse::AnySymbol, "any-symbol"),
        (Lapse::AnyCount, "any-count"),
        (Lapse::FirstArgument, "first-argument"),
        (Lapse::Crossed, "crossed"),
        (Lapse::Again, "again"),
        (Lapse::Walled, "walled"),
        (Lapse::GoesOn, "goes-on"),
        (Lapse::NeverCloses, "never-closes"),
        (Lapse::Unused, "unused"),
        (Lapse::Needless, "needless"),
        (Lapse::OffList, "off-list"),
        (Lapse::Fewest, "fewest"),
        (Lapse::MetLast, "met-last"),
        (Lapse::Falling, "falling"),
        (Lapse::TiesCount, "ties-count"),
        (Lapse::Version, "version"),
        (Lapse::StepsCount, "steps-count"),
        (Lapse::LongPlace, "long-place"),
        (Lapse::Clears, "clears"),
        (Lapse::Early, "early"),
        (Lapse::Values, "values"),
        (Lapse::Writes, "writes"),
        (Lapse::RoomFirst, "room-first"),
        (Lapse::RoomUnder, "room-under"),
        (Lapse::RoomOver, "room-over"),
        (Lapse::RoomFits, "room-fits"),
        (Lapse::AnswerRoom, "answer-room"),
        (Lapse::HoldsAt, "holds-at"),
    ];

    /// The lapse of that name.
    pub fn from_name(name: &str) -> Option<Lapse> {
        let named = |&&(_, its_name): &&(Lapse, &str)| its_name == name;
        Lapse::ALL.iter().find(named).map(|&(lapse, _)| lapse)
    }

    /// Spoils a reason that was right, where this lapse is one of a step or of the list.
    pub fn spoil(self, reason: &mut Reason) {
        let steps = &mut reason.steps;
        let last = steps.len() - 1;
        match self {
            Lapse::Unchained => unchain(steps),
            Lapse::Untied if last > 0 && steps[last].kind == Step::UNEQUAL => {
                steps.remove(last - 1);
            }
            Lapse::LaterTie => steps
                .iter_mut()
                .enumerate()
                .for_each(|(own, step)| renumber(step, |_| own as u8)),
            Lapse::Again if steps[0].ties() => again(steps),
            Lapse::GoesOn => steps.push(steps[last].clone()),
            Lapse::NeverCloses => steps.truncate(last),
            Lapse::Unused if steps[last].kind == Step::WALK => steps[last].b = steps[last].a,
            Lapse::Unused => steps[last].c = 1,
            Lapse::Falling => reason.list.reverse(),
            _ => {}
        }
    }

    /// Spoils a record that was right, where this lapse is one of its head.
    pub fn spoil_record(self, record: &mut [u8]) {
        match self {
            Lapse::Version => record[4] = 2,
            Lapse::TiesCount => record[5] += 1,
            Lapse::StepsCount => record[9] += 1,
            _ => {}
        }
    }
}

/// The first walk of two bounds or more gets the first two the other way round.
fn unchain(steps: &mut [Step]) {
    let walks = steps
        .iter_mut()
        .flat_map(|step| [&mut step.first, &mut step.second]);
    let mut walks = walks.filter(|walk: &&mut Vec<Bound>| walk.len() > 1);
    if let Some(walk) = walks.next() {
        walk.swap(0, 1);
    }
}

/// The first tie is there twice.
fn again(steps: &mut Vec<Step>) {
    for step in steps.iter_mut() {
        renumber(step, |tie| if tie == 0 { 0 } else { tie + 1 });
    }
    steps.insert(1, steps[0].clone());
}
