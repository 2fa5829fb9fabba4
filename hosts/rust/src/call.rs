//! What callers give and get: ranges and changes, and why a call is refused.
pub(crate) mod error;
pub(crate) mod mutation;
pub(crate) mod range;
