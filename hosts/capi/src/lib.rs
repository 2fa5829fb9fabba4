//! The client of the crate `krl` as a library for C: `include/krl_client.h` describes each call.
//!
//! Whatever comes from C is examined here: pointers, lengths, texts, handles, and the process that
//! makes the call. What is past these checks is Rust that needs no `unsafe`.
mod calls;
mod client;
mod code;
mod fault;
mod input;
mod options;
mod pin;
mod reason;
mod status;
#[cfg_attr(not(feature = "tls"), path = "no_tls.rs")]
mod tls;
mod writes;

#[cfg(test)]
mod header_test;

pub use calls::*;
