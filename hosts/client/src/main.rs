//! The client of krl for the command line. `krl-client --help` describes what it does.
mod arguments;
mod bench;
mod commands;
mod completing;
mod deleting;
mod exporting;
mod failure;
mod holding;
mod importing;
mod output;
mod pinging;
mod place;
mod prompt;
mod reading;
mod session;
mod signals;
mod suggestion;
mod waiting;
mod watching;
mod words;

use crate::arguments::{Arguments, Command, Options};
use crate::commands::Context;
use crate::failure::Failure;
use crate::output::Printer;
use crate::session::Session;
use crate::signals::Signals;
use clap::CommandFactory;
use clap_complete::Shell;
use std::ops::Range;
use std::process::ExitCode;

/// The exit status if a word can't be understood.
const USAGE: i32 = 2;

fn main() -> ExitCode {
    let arguments = Arguments::read().unwrap_or_else(|error| misunderstood(&error));
    let ended = run(&arguments).unwrap_or_else(|failure| {
        failure.report();
        failure.status()
    });
    ExitCode::from(ended)
}

/// Reports what was wrong with the words, or prints the help that they ask for, and ends.
fn misunderstood(error: &clap::Error) -> ! {
    let suggestion = suggestion::of(error, &Arguments::command());
    // If nobody takes it, the exit status is enough.
    let _ = error.print();
    if let Some(suggestion) = suggestion {
        output::print_note(&suggestion);
    }
    std::process::exit(if error.use_stderr() { USAGE } else { 0 })
}

fn run(arguments: &Arguments) -> Result<u8, Failure> {
    let options = &arguments.options;
    let signals = Signals::take()?;
    match &arguments.command {
        Some(Command::Bench(words)) => return bench::run(options, words, &signals),
        Some(Command::Import(words)) => return importing::import(options, words, &signals),
        Some(Command::Completion { shell }) => return print_completion(*shell),
        Some(Command::Client(command)) if reading::run(options, command)? => return Ok(0),
        Some(Command::Client(_)) | None => {}
    }
    let session = Session::join(options, &keys_of(arguments.command.as_ref())?)?;
    signals.ends(&session.client);
    let context = Context { session: &session, printer: Printer::of(options), signals: &signals };
    let ended = match &arguments.command {
        Some(command) => run_one(command, options, &context),
        None => prompt::run(&mut |command| run_one(command, options, &context)),
    };
    session.leave();
    ended
}

/// The keys that the command needs. The prompt may need any.
fn keys_of(command: Option<&Command>) -> Result<Range<u64>, Failure> {
    match command {
        Some(Command::Client(command)) => command.keys(),
        Some(Command::Bench(_) | Command::Import(_) | Command::Completion { .. }) | None => {
            Ok(words::ALL)
        }
    }
}

fn print_completion(shell: Shell) -> Result<u8, Failure> {
    krl_cli::print_completion(shell, Arguments::command())?;
    Ok(0)
}

fn run_one(command: &Command, options: &Options, context: &Context<'_>) -> Result<u8, Failure> {
    let ended = match command {
        Command::Client(command) => context.run(command),
        Command::Bench(words) => bench::run(options, words, context.signals),
        Command::Import(words) => importing::import(options, words, context.signals),
        Command::Completion { shell } => print_completion(*shell),
    };
    context.signals.settle();
    ended
}
