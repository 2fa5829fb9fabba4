//! This process: what it prints and logs, what it does just now, and how it replaces files.
pub mod log;
pub mod output;
pub mod reload;
pub mod role;

use std::error::Error;

/// What a command or a server returns that may fail: why is reported to the operator.
pub type Done<T = ()> = Result<T, Box<dyn Error>>;
