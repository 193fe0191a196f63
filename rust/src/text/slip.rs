//! Slips that a reader of texts can make, to show that a tester of readers bites.
//!
//! Each goes against a sentence of request 1 of document 02, or of "Request 1: text" of the paper on
//! byte forms.

/// A way to read wrongly.
#[derive(Clone, Copy, Debug, PartialEq, Eq)]
pub enum Slip {
    /// Lets leading zeros through.
    LeadingZero,
    /// Lets the term -0 through.
    MinusZero,
    /// Lets a number end in a shift.
    ShiftedNumber,
    /// Lets a term end in two shifts.
    SecondShift,
    /// Takes a text without its last newline.
    Unended,
    /// Sends a text that ends too early back at its last byte.
    EndAtLast,
    /// Looks at the whole form before sizes and depths.
    FormFirst,
    /// Sends back a bracket that is 16 deep.
    Shallow,
    /// Takes a bracket that is 17 deep.
    Deep,
    /// Takes x100.
    UnknownOver,
    /// Takes f256.
    SymbolOver,
    /// Sends back -32,768.
    NoSign,
    /// Sends a number out of range back at its last digit.
    LastDigit,
    /// Gives 23 before 22 at one byte.
    TermFirst,
    /// Sends a term too many back a byte late.
    TermLate,
    /// Completes x0 at the 0 of x05.
    ZeroEnds,
    /// Sends a line too many back a byte late.
    LineLate,
    /// Sends a line too many back with 23 whatever its first byte is.
    AnyLine,
    /// Takes x0-0 for another term than x0+0.
    TwoZeros,
    /// Takes x0+0 for x0.
    NoZero,
    /// Takes f(x, y) for f(y, x).
    Crossed,
    /// Numbers a term again that was met.
    Again,
    /// Numbers unknowns before all other terms.
    UnknownsFirst,
    /// Puts the shift behind a comparison into the entry.
    ShiftInEntry,
    /// Takes a room that is a byte too small.
    RoomUnder,
    /// Sends back a room that is just large enough.
    RoomOver,
    /// Looks at the room after the text.
    RoomLast,
    /// Clears the room past the sheet.
    Clears,
    /// Writes to the room before the text is read.
    Writes,
}

impl Slip {
    /// Every slip, with its name on the command line.
    pub const ALL: [(Slip, &'static str); 29] = [
        (Slip::LeadingZero, "leading-zero"),
        (Slip::MinusZero, "minus-zero"),
        (Slip::ShiftedNumber, "shifted-number"),
        (Slip::SecondShift, "second-shift"),
        (Slip::Unended, "unended"),
        (Slip::EndAtLast, "end-at-last"),
        (Slip::FormFirst, "form-first"),
        (Slip::Shallow, "shallow"),
        (Slip::Deep, "deep"),
        (Slip::UnknownOver, "unknown-over"),
        (Slip::SymbolOver, "symbol-over"),
        (Slip::NoSign, "no-sign"),
        (Slip::LastDigit, "last-digit"),
        (Slip::TermFirst, "term-first"),
        (Slip::TermLate, "term-late"),
        (Slip::ZeroEnds, "zero-ends"),
        (Slip::LineLate, "line-late"),
        (Slip::AnyLine, "any-line"),
        (Slip::TwoZeros, "two-zeros"),
        (Slip::NoZero, "no-zero"),
        (Slip::Crossed, "crossed"),
        (Slip::Again, "again"),
        (Slip::UnknownsFirst, "unknowns-first"),
        (Slip::ShiftInEntry, "shift-in-entry"),
        (Slip::RoomUnder, "room-under"),
        (Slip::RoomOver, "room-over"),
        (Slip::RoomLast, "room-last"),
        (Slip::Clears, "clears"),
        (Slip::Writes, "writes"),
    ];

    /// The slip of that name.
    pub fn from_name(name: &str) -> Option<Slip> {
        let named = |&&(_, its_name): &&(Slip, &str)| its_name == name;
        Slip::ALL.iter().find(named).map(|&(slip, _)| slip)
    }
}
