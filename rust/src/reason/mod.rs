//! Reasons for a clash: their record, a check of them, and a writer.
//!
//! Rests on "What a written reason may say" of document 01, on requests 4 and 5 of document 02, and
//! on the paper on byte forms for the record and for what a step rests on.
//!
//! - `step` has the steps and their bounds;
//! - `record` reads and writes the reason record;
//! - `forest` knows which points are tied, how far apart, and by which ties;
//! - `survey` checks a reason from anybody, and shares nothing with the writer but the three above;
//! - `surveyor` answers as that check should, with a refusal, a yes or the first wrong step;
//! - `slip` names the slips that a surveyor can make on purpose, and does those of reading the steps;
//! - `finder` finds a reason, by a method of its own;
//! - `writer` answers as the panel should, with the reason or a refusal;
//! - `lapse` names the lapses that a writer can have on purpose, and does those that spoil a reason
//!   which is already found.

mod finder;
mod forest;
mod lapse;
mod record;
mod slip;
mod step;
mod survey;
mod surveyor;
mod writer;

pub use finder::renumber;
pub use lapse::Lapse;
pub use record::{Reason, ROOM};
pub use slip::Slip;
pub use step::{Bound, Step};
pub use survey::{behind, needless, survey, Wrong};
pub use surveyor::Surveyor;
pub use writer::Writer;
