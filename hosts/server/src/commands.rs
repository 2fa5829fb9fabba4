//! What an operator types.
mod ask;
mod certificates;
mod check;
mod command_line;
mod evict;
mod export;
mod import;
mod live_reshard;
mod map;
mod map_changes;
mod next_map;
mod options;
mod published_map;
mod reshard;
mod restore;
mod stores;

use crate::daemon::serve;
use crate::process::Done;
use crate::process::output::{self, NotPrinted};
use crate::settings::Settings;
use crate::status::paths;
use clap::{CommandFactory, Parser};
use command_line::{Command, CommandLine};
use krl_cli::print_completion;
use std::process::ExitCode;

/// Runs the command of the command line.
pub fn run() -> Done<ExitCode> {
    match CommandLine::parse().command {
        Command::Serve(options) => return Ok(serve::serve(&Settings::of(&options)?)),
        Command::Config(options) => {
            let settings = Settings::of(&options)?;
            // What `serve` would refuse is refused here too.
            settings.access.tls()?;
            output::print(&settings.to_string())?;
        }
        Command::Status(options) => ask::page(&options, paths::STATUS)?,
        Command::Clients(options) => ask::page(&options, paths::CLIENTS)?,
        Command::Health { port, ready } => return ask::health(&port.port()?, ready),
        Command::Locks(options) => ask::locks(&options)?,
        Command::Evict { address, tls, number, lock_file, shard } => {
            evict::evict((&address, shard), &tls, number, &lock_file)?;
        }
        Command::Backup { address, tls, file } => {
            ask::backup(&tls.status_port(&address)?, &file)?;
        }
        Command::Restore { file, store, clients_are_stopped } => {
            restore::restore(&file, &store, clients_are_stopped)?;
        }
        Command::Split { store, at, new_store, allow_empty, map } => {
            reshard::split(&store, at, &new_store, allow_empty, &map)?.write_and_print()?;
        }
        Command::Merge { lower, upper, new_store, map } => {
            reshard::merge(&lower, &upper, &new_store, &map)?.write_and_print()?;
        }
        Command::Reshard { change } => live_reshard::reshard(&change)?,
        Command::Map { command } => command.run()?,
        Command::Import { file, store, existing, json } => {
            import::import(&file, json, &store, existing)?;
        }
        Command::Export { file, json } => export::export(&file, json)?,
        Command::Check { file, days } => return check::check(&file, days),
        Command::Completion { shell } => {
            print_completion(shell, CommandLine::command()).map_err(NotPrinted::before_work)?;
        }
    }
    Ok(ExitCode::SUCCESS)
}
