//! A second opinion on a sheet: a panel that shares nothing with the proved one but document 01,
//! "What should be built, and its rules" (and the frames in which `batch` is asked). The two are
//! compared on random sheets, and their speed is measured against each other. Beside it is a reader
//! of sheets typed as text, resting on request 1 of document 02, which is compared on random texts,
//! and a check and a writer of reasons, resting on requests 4 and 5.
//!
//! - `sheet` reads the fields and sends bad sheets back;
//! - `groups`, `gaps`, `knots`, `order` and `functions` know what is tied and how to tie more;
//! - `entries` has sets and lists of entries;
//! - `verdict` judges a set of entries with those, each set from scratch;
//! - `panel` finds the first list or the values, and writes the answer record;
//! - `meaning` checks values against the document's meaning, and shares nothing with the judging
//!   but the reading of fields;
//! - `shortcut` names the document's shortcuts, which a panel can take on purpose;
//! - `text` reads a sheet typed as text, and names the slips that a reader can make on purpose;
//! - `reason` reads, checks and writes reasons, and names the lapses that a writer can have on
//!   purpose, and the slips that a check can make;
//! - `random` makes sheets, texts and reasons to try, for the programs that compare and time panels;
//! - `comparing` is what the programs that compare have in common.

#![forbid(unsafe_code)]
#![warn(missing_docs)]

pub mod comparing;
mod entries;
mod functions;
mod gaps;
mod groups;
mod knots;
pub mod meaning;
mod order;
mod panel;
pub mod random;
pub mod reason;
pub mod sheet;
mod shortcut;
pub mod text;
mod verdict;

pub use panel::Panel;
pub use shortcut::Shortcut;
