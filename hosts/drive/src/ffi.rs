//! The declarations of `krl.h` that `krl` has, and those that only a test needs.
#![allow(dead_code)]

#[path = "../../rust/src/ffi/declared.rs"]
mod declared;

pub use declared::*;
