//! What krl's libraries for C share: what they take from C, what they hand out, and what they give
//! back as a process ends.
//!
//! Nothing here knows krl. Each library has its own codes and faults, by [`Fault`].
#![allow(clippy::missing_errors_doc, reason = "each error is a `Misuse`, or that of its type")]

mod answer;
mod at_exit;
mod codes;
pub mod fork;
mod handle;
mod input;
mod misuse;

pub use answer::{Fault, answer, put_out, quiet, sentence};
pub use at_exit::AtExit;
pub use handle::{Handle, KEPT, Kind};
pub use input::{Versioned, options_at, text};
pub use misuse::Misuse;
