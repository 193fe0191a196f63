//! Slips of a check of reasons, to show that a tester of checks bites.
//!
//! Each goes against a sentence of document 01's rules for reasons, of request 5, or of the paper on
//! byte forms. Points past T have no slip: no walk comes from there, so a step that names one is
//! wrong in another way too.

use super::step::Step;
use crate::sheet::MOST;

/// A way to check wrongly.
#[derive(Clone, Copy, Debug, PartialEq, Eq)]
pub enum Slip {
    /// Looks at the list before the sheet.
    ListFirst,
    /// Takes a list in which a number stands twice.
    Level,
    /// Takes a list in any order.
    Falling,
    /// Takes a list with the number L.
    AtL,
    /// Gives 27 with the place of the number.
    ListPlace,
    /// Gives 27 for an empty list.
    EmptyRefused,
    /// Lets an empty list stand for all entries.
    EmptyAll,
    /// Gives a yes with the number of steps.
    YesPlace,
    /// Counts steps from 1.
    FromOne,
    /// Answers the last step whichever is wrong.
    BlamesLast,
    /// Answers the last step where none closes.
    LastOfNone,
    /// Gives a yes where no step closes.
    Unclosed,
    /// Looks at no step behind a closing one.
    Stops,
    /// Answers the step behind a closing one.
    BlamesNext,
    /// Looks at no step past the most that a reason can have.
    FewSteps,
    /// Takes kinds of steps modulo 4.
    StepKinds,
    /// Takes kinds of bounds modulo 6.
    BoundKinds,
    /// Looks at no bound past the most that a walk can have.
    Cuts,
    /// Reads the low four bytes of c.
    ShortC,
    /// Lets anything be in a b that isn't used.
    UnusedB,
    /// Lets anything be in a c that isn't used.
    UnusedC,
    /// Lets a first walk be that isn't used.
    UnusedFirst,
    /// Lets a second walk be that isn't used.
    UnusedSecond,
    /// Ties points of one group by walks.
    Again,
    /// Ties points of one group by functions.
    AgainApplied,
    /// Takes points for one group only where a step ties these very two.
    VeryPoints,
    /// Takes the zero level for no point.
    ZeroNoPoint,
    /// Takes a tie's c however far from zero.
    AnyFar,
    /// Sends back a c of 2^31.
    TopOut,
    /// Sends back a c of -2^31.
    BottomOut,
    /// Takes a c of 2^31 + 1.
    TopOver,
    /// Takes a c of -2^31 - 1.
    BottomOver,
    /// Takes a tie by its first walk alone.
    OneWay,
    /// Lets a tie's first walk come to anything.
    AnyC,
    /// Lets a tie's second walk come to anything.
    AnyBack,
    /// Lets a tie's walks come to less.
    AtMostC,
    /// Goes over a strict bound in a tie's walk.
    StrictTie,
    /// Takes < for ≤.
    NotStrict,
    /// Lets a walk go on from any point.
    Unchained,
    /// Lets a walk start at any point.
    AnyStart,
    /// Lets a walk end at any point.
    AnyEnd,
    /// Takes a walk of T + 2 bounds.
    LongWalk,
    /// Sends back a walk of T + 1 bounds.
    ShortWalk,
    /// Takes a walk as long as on the largest sheet.
    MostBounds,
    /// Adds up a walk in 32 bits.
    ShortTotal,
    /// Goes over entries that aren't listed.
    OffList,
    /// Goes over ≠ entries as if they were =.
    OverUnequal,
    /// Goes back over ≤.
    AtMostBack,
    /// Goes back over <.
    UnderBack,
    /// Doesn't go back over =.
    EqualForward,
    /// Goes back with the same gap.
    SameSign,
    /// Goes over an unknown as if it were 0.
    OverUnknown,
    /// Goes over an application as if it were its first argument.
    OverApplication,
    /// Goes over the zero level as if it were a term.
    OverZero,
    /// Goes over the step's own tie.
    OwnTie,
    /// Goes over steps that aren't there yet.
    LaterTie,
    /// Ties other terms than applications as if they were some.
    NotApplied,
    /// Ties applications of two symbols.
    AnySymbol,
    /// Ties applications of one argument and of two.
    AnyCount,
    /// Ties applications whose arguments are tied at another gap.
    OtherGap,
    /// Ties applications whose arguments aren't tied.
    AnyArguments,
    /// Looks at the first arguments alone.
    FirstArgument,
    /// Looks at the second arguments alone.
    SecondArgument,
    /// Ties applications whose arguments match crossed.
    Crossed,
    /// Takes a point for tied to itself only by a tie.
    NotItself,
    /// Adds up gaps along ties in 32 bits.
    ShortGap,
    /// Closes by a walk that comes to zero.
    NotUnder,
    /// Closes by a walk that comes to anything.
    AnyTotal,
    /// Closes by a ≠ entry that isn't listed.
    UnequalOffList,
    /// Closes by an entry of any relation.
    AnyRelation,
    /// Closes by a ≠ entry on terms that aren't tied.
    Untied,
    /// Closes by a ≠ entry on terms tied at any c.
    OtherC,
    /// Closes by a ≠ entry on terms tied at -c.
    TurnedC,
    /// Lets listed entries not be behind the closing step.
    NotBehind,
    /// Gathers no entries through the ties of paths.
    WalksOnly,
    /// Gathers no entries through the ties that are walked over.
    PathsOnly,
    /// Gathers the entries of a tie's own walks alone.
    OneDeep,
    /// Gathers no entries through the path of second arguments.
    FirstPath,
    /// Leaves out the first tie of a path.
    ShortPath,
    /// Takes a path by way of the point that stands for the group, there and back.
    Detour,
    /// Takes all ties of a group for a path.
    WholeGroup,
    /// Gathers no entries of a tie's second walk.
    ThereOnly,
    /// Gathers the entries of all ties, whether the closing step rests on them or not.
    EveryTie,
}

impl Slip {
    /// Every slip, with its name on the command line.
    pub const ALL: [(Slip, &'static str); 83] = [
        (Slip::ListFirst, "list-first"),
        (Slip::Level, "level"),
        (Slip::Falling, "falling"),
        (Slip::AtL, "at-l"),
        (Slip::ListPlace, "list-place"),
        (Slip::EmptyRefused, "empty-refused"),
        (Slip::EmptyAll, "empty-all"),
        (Slip::YesPlace, "yes-place"),
        (Slip::FromOne, "from-one"),
        (Slip::BlamesLast, "blames-last"),
        (Slip::LastOfNone, "last-of-none"),
        (Slip::Unclosed, "unclosed"),
        (Slip::Stops, "stops"),
        (Slip::BlamesNext, "blames-next"),
        (Slip::FewSteps, "few-steps"),
        (Slip::StepKinds, "step-kinds"),
        (Slip::BoundKinds, "bound-kinds"),
        (Slip::Cuts, "cuts"),
        (Slip::ShortC, "short-c"),
        (Slip::UnusedB, "unused-b"),
        (Slip::UnusedC, "unused-c"),
        (Slip::UnusedFirst, "unused-first"),
        (Slip::UnusedSecond, "unused-second"),
        (Slip::Again, "again"),
        (Slip::AgainApplied, "again-applied"),
        (Slip::VeryPoints, "very-points"),
        (Slip::ZeroNoPoint, "zero-no-point"),
        (Slip::AnyFar, "any-far"),
        (Slip::TopOut, "top-out"),
        (Slip::BottomOut, "bottom-out"),
        (Slip::TopOver, "top-over"),
        (Slip::BottomOver, "bottom-over"),
        (Slip::OneWay, "one-way"),
        (Slip::AnyC, "any-c"),
        (Slip::AnyBack, "any-back"),
        (Slip::AtMostC, "at-most-c"),
        (Slip::StrictTie, "strict-tie"),
        (Slip::NotStrict, "not-strict"),
        (Slip::Unchained, "unchained"),
        (Slip::AnyStart, "any-start"),
        (Slip::AnyEnd, "any-end"),
        (Slip::LongWalk, "long-walk"),
        (Slip::ShortWalk, "short-walk"),
        (Slip::MostBounds, "most-bounds"),
        (Slip::ShortTotal, "short-total"),
        (Slip::OffList, "off-list"),
        (Slip::OverUnequal, "over-unequal"),
        (Slip::AtMostBack, "at-most-back"),
        (Slip::UnderBack, "under-back"),
        (Slip::EqualForward, "equal-forward"),
        (Slip::SameSign, "same-sign"),
        (Slip::OverUnknown, "over-unknown"),
        (Slip::OverApplication, "over-application"),
        (Slip::OverZero, "over-zero"),
        (Slip::OwnTie, "own-tie"),
        (Slip::LaterTie, "later-tie"),
        (Slip::NotApplied, "not-applied"),
        (Slip::AnySymbol, "any-symbol"),
        (Slip::AnyCount, "any-count"),
        (Slip::OtherGap, "other-gap"),
        (Slip::AnyArguments, "any-arguments"),
        (Slip::FirstArgument, "first-argument"),
        (Slip::SecondArgument, "second-argument"),
        (Slip::Crossed, "crossed"),
        (Slip::NotItself, "not-itself"),
        (Slip::ShortGap, "short-gap"),
        (Slip::NotUnder, "not-under"),
        (Slip::AnyTotal, "any-total"),
        (Slip::UnequalOffList, "unequal-off-list"),
        (Slip::AnyRelation, "any-relation"),
        (Slip::Untied, "untied"),
        (Slip::OtherC, "other-c"),
        (Slip::TurnedC, "turned-c"),
        (Slip::NotBehind, "not-behind"),
        (Slip::WalksOnly, "walks-only"),
        (Slip::PathsOnly, "paths-only"),
        (Slip::OneDeep, "one-deep"),
        (Slip::FirstPath, "first-path"),
        (Slip::ShortPath, "short-path"),
        (Slip::Detour, "detour"),
        (Slip::WholeGroup, "whole-group"),
        (Slip::ThereOnly, "there-only"),
        (Slip::EveryTie, "every-tie"),
    ];

    /// The slip of that name.
    pub fn from_name(name: &str) -> Option<Slip> {
        let named = |&&(_, its_name): &&(Slip, &str)| its_name == name;
        Slip::ALL.iter().find(named).map(|&(slip, _)| slip)
    }

    /// What is taken for the steps, where this slip is one of reading them.
    pub fn misread(self, steps: &mut Vec<Step>) {
        let ends = steps.iter().position(Step::closes);
        match (self, ends) {
            (Slip::FewSteps, _) => steps.truncate(MOST + 1),
            (Slip::Stops, Some(end)) => steps.truncate(end + 1),
            _ => {}
        }
        for step in steps {
            let walks = [&mut step.first, &mut step.second];
            match self {
                Slip::StepKinds => step.kind %= 4,
                Slip::ShortC => step.c = i64::from(step.c as i32),
                Slip::Cuts => walks.into_iter().for_each(|walk| walk.truncate(MOST + 1)),
                Slip::BoundKinds => {
                    let bounds = walks.into_iter().flatten();
                    bounds.for_each(|bound| bound.kind %= 6);
                }
                _ => {}
            }
        }
    }
}
