//! The shortcuts that pass bad sheets, and one that fails good ones, to show that a tester of panels bites.
//!
//! Rests on "Shortcuts that pass bad sheets", and the last one on "with the same symbol".

/// A way to be wrong.
#[derive(Clone, Copy, Debug, PartialEq, Eq)]
pub enum Shortcut {
    /// Judges gaps and functions apart.
    Apart,
    /// Passes equalities once each way.
    Once,
    /// Passes equalities from the functions to the gaps only.
    OneHalf,
    /// Ties two terms only by = entries, and by functions of terms so tied.
    OnlyEqual,
    /// Reads < as "≤ minus 1".
    MinusOne,
    /// Names the fewest entries that clash, where one or two do.
    Fewest,
    /// Blames every entry up to the one at which the clash was met.
    MetLast,
    /// Writes values in which untied terms may be level.
    Level,
    /// Takes functions with as many arguments for one, whatever their symbols.
    AnySymbol,
}

impl Shortcut {
    /// Every shortcut, those of the document in its order.
    pub const ALL: [Shortcut; 9] = [
        Shortcut::Apart,
        Shortcut::Once,
        Shortcut::OneHalf,
        Shortcut::OnlyEqual,
        Shortcut::MinusOne,
        Shortcut::Fewest,
        Shortcut::MetLast,
        Shortcut::Level,
        Shortcut::AnySymbol,
    ];

    /// The name on the command line.
    pub fn name(self) -> &'static str {
        match self {
            Shortcut::Apart => "apart",
            Shortcut::Once => "once",
            Shortcut::OneHalf => "one-half",
            Shortcut::OnlyEqual => "only-equal",
            Shortcut::MinusOne => "minus-one",
            Shortcut::Fewest => "fewest",
            Shortcut::MetLast => "met-last",
            Shortcut::Level => "level",
            Shortcut::AnySymbol => "any-symbol",
        }
    }

    /// The shortcut of that name.
    pub fn from_name(name: &str) -> Option<Shortcut> {
        Shortcut::ALL
            .into_iter()
            .find(|shortcut| shortcut.name() == name)
    }
}
