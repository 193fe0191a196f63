//! Which bytes begin a text of the form, sizes and depths left aside.
//!
//! What a text must still have is kept as a stack of wants, the next one on top, and each byte
//! rewrites the top. Any want can be met, so bytes begin a text as long as each finds a want that
//! takes it.

use super::Slip;
use Want::*;

/// What comes next.
#[derive(Clone, Copy, PartialEq, Eq)]
enum Want {
    /// Any number of lines.
    Lines,
    /// A term, with its shift if it has one.
    Term,
    /// Digits without a leading zero.
    Number,
    /// The same, but not 0.
    NotZero,
    /// Any number of digits.
    Digits,
    /// A sign and a number, or nothing.
    Shift,
    /// A comma and a term, or nothing.
    Second,
    /// One of `=` `!=` `<=` `<`.
    Comparison,
    /// The rest of `<=`, or of `<` nothing.
    MaybeEqual,
    /// This byte.
    Byte(u8),
}

/// The byte at which no text of the form goes on so, or the length of a text that ends too early.
pub fn fault(text: &[u8], slip: Option<Slip>) -> Option<usize> {
    let mut wants = vec![Lines];
    let fault = text.iter().position(|&byte| !take(&mut wants, byte, slip));
    // A text has at least one line.
    let whole = wants == [Lines] && !text.is_empty();
    fault.or(if whole { None } else { Some(text.len()) })
}

/// Whether some text goes on with this byte; and if so, what comes behind it.
fn take(wants: &mut Vec<Want>, byte: u8, slip: Option<Slip>) -> bool {
    let slips = |into| slip == Some(into);
    while let Some(want) = wants.pop() {
        // What takes the byte is replaced by what comes behind that, the first of it last.
        let behind: &[Want] = match (want, byte) {
            (Lines, _) => {
                wants.extend([Lines, Byte(b'\n'), Term, Comparison, Term]);
                continue;
            }
            (Term, b'x') => &[Shift, Number],
            (Term, b'f') => &[Shift, Byte(b')'), Second, Term, Byte(b'('), Number],
            (Term, b'-') if slips(Slip::MinusZero) => &[Number],
            (Term, b'-') => &[NotZero],
            (Term, b'0'..=b'9') => {
                if slips(Slip::ShiftedNumber) {
                    wants.push(Shift);
                }
                wants.push(Number);
                continue;
            }
            (Number, b'0') if slips(Slip::LeadingZero) => &[Digits],
            (Number, b'0') => &[],
            (Number | NotZero, b'1'..=b'9') | (Digits, b'0'..=b'9') => &[Digits],
            (Shift, b'+' | b'-') if slips(Slip::SecondShift) => &[Shift, Number],
            (Shift, b'+' | b'-') => &[Number],
            (Second, b',') => &[Term],
            (Comparison, b'=') | (MaybeEqual, b'=') => &[],
            (Comparison, b'!') => &[Byte(b'=')],
            (Comparison, b'<') => &[MaybeEqual],
            (Byte(wanted), _) if byte == wanted => &[],
            (Digits | Shift | Second | MaybeEqual, _) => continue,
            _ => return false,
        };
        wants.extend(behind);
        return true;
    }
    false
}
