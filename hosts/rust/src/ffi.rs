//! The calls of the library, as C has them.
mod declared;
mod reply;

pub(crate) use declared::*;
pub(crate) use reply::{code, done};
