//! What a user at a terminal learns while the program waits.
use crate::output::print_note;
use std::io::{self, IsTerminal};
use std::sync::mpsc::{RecvTimeoutError, channel};
use std::thread;
use std::time::Duration;

/// A wait that takes longer is reported.
const LONG: Duration = Duration::from_secs(1);

/// Does something. If that takes long, a user at a terminal learns what it waits for.
pub fn with_note_if_long<T>(
    waits_for: impl FnOnce() -> String + Send,
    does: impl FnOnce() -> T,
) -> T {
    if !io::stderr().is_terminal() {
        return does();
    }
    let (ends, ended) = channel::<()>();
    thread::scope(|scope| {
        scope.spawn(move || {
            if ended.recv_timeout(LONG) == Err(RecvTimeoutError::Timeout) {
                print_note(&waits_for());
            }
        });
        let done = does();
        drop(ends);
        done
    })
}

/// Shows a user at a terminal what the program does now.
pub fn note_at_terminal(what: &str) {
    if io::stderr().is_terminal() {
        print_note(what);
    }
}
