//! What the second opinion is held to.

mod common;
mod damaged;
mod document;
mod form;
mod naive;
mod program;
mod random;
mod reasons;
mod surveyor;
mod texts;
mod wide;
