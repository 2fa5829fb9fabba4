//! The library of the rules, whose functions are proved, within types that keep what it asks for.
pub(crate) mod client_handle;
pub(crate) mod gate;
pub(crate) mod handle;
pub(crate) mod hits;
pub(crate) mod losses;
pub(crate) mod partition;
#[cfg(krl_rules)]
mod rules;
pub(crate) mod server_handle;
