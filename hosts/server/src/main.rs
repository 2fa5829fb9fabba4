//! A krl server over SQLite, and what its operator needs. `krl-server --help` lists its commands,
//! and `docs/OPERATING.md` describes how it is run.
//!
//! Each module uses those before it in this order: `settings`, `process`, `status`, `daemon`,
//! `commands`.
mod commands;
mod daemon;
mod process;
mod settings;
mod status;

use process::output::{self, NotPrinted, USAGE};
use settings::BadSetting;
use std::error::Error;
use std::process::ExitCode;

fn main() -> ExitCode {
    commands::run().unwrap_or_else(|error| failed(error.as_ref()))
}

/// Reports why a command has failed, and gives its exit status.
fn failed(error: &(dyn Error + 'static)) -> ExitCode {
    let (status, is_news) = match error.downcast_ref::<NotPrinted>() {
        Some(error) => error.exit_status(),
        None if error.is::<BadSetting>() => (ExitCode::from(USAGE), true),
        None => (ExitCode::FAILURE, true),
    };
    if is_news {
        output::report(&krl_cli::sentence(error));
    }
    status
}
