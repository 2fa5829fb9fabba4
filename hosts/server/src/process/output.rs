//! What a command prints.
use krl::store::StoreError;
use krl_cli::BROKEN_PIPE;
use std::error::Error;
use std::fmt;
use std::io::{self, ErrorKind, Write};
use std::process::ExitCode;

/// The exit status if the command line, the environment or the configuration file is wrong.
pub const USAGE: u8 = 2;

/// Standard output can't be written.
#[derive(Debug)]
pub struct NotPrinted {
    error: io::Error,
    /// What the command should do is done all the same.
    is_done: bool,
}

/// Prints what a command has found.
pub fn print(text: &str) -> Result<(), NotPrinted> {
    krl_cli::print(text).map_err(NotPrinted::before_work)
}

/// Prints what a command has done.
pub fn print_done(text: &str) -> Result<(), NotPrinted> {
    krl_cli::print(text).map_err(|error| NotPrinted { error, is_done: true })
}

/// Writes a line to standard error. If that can't be written, it is lost.
pub fn report(text: &str) {
    let _ = writeln!(io::stderr(), "krl-server: {text}");
}

/// What made a store fail, without naming the store again.
pub fn cause(error: &StoreError) -> String {
    error.source().map_or_else(|| error.to_string(), ToString::to_string)
}

/// The numbers of clients, as `3, 5, 7`.
pub fn numbers(clients: &[u8]) -> String {
    clients.iter().map(u8::to_string).collect::<Vec<_>>().join(", ")
}

impl NotPrinted {
    /// Of a command that has nothing else to do.
    pub fn before_work(error: io::Error) -> NotPrinted {
        NotPrinted { error, is_done: false }
    }

    /// The exit status, and whether to report why: that nobody reads the output is not reported.
    pub fn exit_status(&self) -> (ExitCode, bool) {
        match self.error.kind() {
            ErrorKind::BrokenPipe => (ExitCode::from(BROKEN_PIPE), false),
            _ => (ExitCode::FAILURE, true),
        }
    }
}

impl fmt::Display for NotPrinted {
    fn fmt(&self, f: &mut fmt::Formatter<'_>) -> fmt::Result {
        if self.is_done {
            f.write_str("it is done, but ")?;
        }
        write!(f, "standard output can't be written: {}", self.error)
    }
}

impl Error for NotPrinted {}
