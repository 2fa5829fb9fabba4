//! The readers of the crate `krl_cache` as a library for C: `include/krl_cache.h` describes each call.
//!
//! Whatever comes from C is examined here: pointers, lengths, texts, handles, and the process that
//! makes the call. What is past these checks is Rust that needs no `unsafe`.
mod calls;
mod code;
mod fault;
mod key;
mod options;
mod room;
mod statistics;

#[cfg(test)]
mod header_test;

pub use calls::*;
