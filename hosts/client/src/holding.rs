//! Holding a range while a command runs.
use crate::commands::Context;
use crate::failure::{Failure, SIGNALLED};
use crate::signals::Taken;
use krl::Client;
use krl::operate::ShardStatus;
use nix::errno::Errno;
use nix::sys::wait::{Id, WaitPidFlag, waitid};
use nix::unistd::Pid;
use std::ffi::OsString;
use std::io;
use std::ops::Range;
use std::os::unix::process::ExitStatusExt;
use std::process::{Child, Command, ExitStatus};

/// The variable by which the command knows the incarnation of the client that holds the range.
const INCARNATION: &str = "KRL_INCARNATION";

/// Pins the range, runs the command, and returns its exit status. It fails if the range was not
/// pinned until the command had ended.
pub fn hold(
    context: &Context<'_>,
    keys: Range<u64>,
    for_update: bool,
    words: &[OsString],
) -> Result<u8, Failure> {
    let client = &context.session.client;
    let (_, pin) =
        if for_update { client.pin_for_update(keys) } else { client.pin_for_read(keys) }?;
    let [name, arguments @ ..] = words else {
        return Err(Failure::Usage("a command is expected after --".into()));
    };
    let incarnation = incarnation_of(client);
    let start = || Command::new(name).args(arguments).env(INCARNATION, &incarnation).spawn();
    let (mut command, number, signals) = context.signals.to_command(start).map_err(|error| {
        let why = format!("{} can't be run: {error}", name.to_string_lossy());
        Failure::NotStarted(why, error.kind())
    })?;
    let status = wait(&mut command, number, signals).map_err(|error| {
        let why = format!("waiting for {} failed: {error}", name.to_string_lossy());
        Failure::NotStarted(why, error.kind())
    })?;
    if pin.holds() { Ok(status_of(status)) } else { Err(Failure::NotHeld(status)) }
}

/// The incarnation of the client; of a client of shards, that of each shard, as `SHARD:NUMBER`.
fn incarnation_of(client: &Client) -> String {
    let shown = |it: &ShardStatus| match client.map() {
        None => it.incarnation.to_string(),
        Some(_) => format!("{}:{}", it.shard, it.incarnation),
    };
    client.status().iter().map(shown).collect::<Vec<_>>().join(",")
}

/// Waits for the command. Its process number is its own until no signal goes to it any more.
fn wait(command: &mut Child, number: Pid, signals: Taken<'_>) -> io::Result<ExitStatus> {
    let has_ended = WaitPidFlag::WEXITED | WaitPidFlag::WNOWAIT;
    loop {
        match waitid(Id::Pid(number), has_ended) {
            Ok(_) => break,
            Err(Errno::EINTR) => {}
            Err(error) => return Err(error.into()),
        }
    }
    drop(signals);
    command.wait()
}

/// The command's exit status, or 128 and the number of the signal that ended it.
fn status_of(status: ExitStatus) -> u8 {
    let of_signal = || status.signal().and_then(|signal| u8::try_from(signal).ok());
    match status.code() {
        Some(code) => u8::try_from(code).unwrap_or(u8::MAX),
        None => of_signal().map_or(u8::MAX, |signal| SIGNALLED.saturating_add(signal)),
    }
}
