//! Watching a range: it is printed, and again whenever it changes.
use crate::commands::Context;
use crate::failure::Failure;
use crate::signals::Taken;
use krl::{Client, Error, ErrorKind, Row, Waited};
use std::ops::Range;
use std::time::Duration;

/// How often a watch looks whether a signal ends it.
const SIGNAL_CHECK_INTERVAL: Duration = Duration::from_millis(200);

/// Prints the range, and again after each change, this many times or until a signal.
///
/// Between two changes the client holds the range, and the server is asked nothing.
pub fn watch(context: &Context<'_>, keys: &Range<u64>, count: Option<u64>) -> Result<(), Failure> {
    let client = &context.session.client;
    let mut rows = client.read(keys.clone())?;
    let signals = context.signals.to_loop();
    context.printer.change(0, &rows)?;
    // A signal is seen soon, also while the server is away.
    let client = client.within(SIGNAL_CHECK_INTERVAL);
    let mut ended = Ok(());
    for number in 1..=count.unwrap_or(u64::MAX) {
        match next_change(&client, keys, &rows, &signals) {
            Ok(Some(changed)) => rows = changed,
            Ok(None) => break,
            Err(refused) => {
                ended = Err(refused.into());
                break;
            }
        }
        ended = context.printer.change(number, &rows);
        if ended.is_err() {
            break;
        }
    }
    ended
}

/// The rows of the range once they have changed, or `None` if a signal came before.
fn next_change(
    client: &Client,
    keys: &Range<u64>,
    rows: &[Row],
    signals: &Taken<'_>,
) -> Result<Option<Vec<Row>>, Error> {
    while !signals.is_ended() {
        if client.wait_for_change(keys.clone(), rows, SIGNAL_CHECK_INTERVAL)? == Waited::Unchanged {
            continue;
        }
        match client.read(keys.clone()) {
            Ok(read) if read != rows => return Ok(Some(read)),
            // It is as it was, or another client still has it.
            Ok(_) => {}
            Err(refused) if is_waiting(refused.kind) => {}
            Err(refused) => return Err(refused),
        }
    }
    Ok(None)
}

/// Whether an answer may still come.
fn is_waiting(refused: ErrorKind) -> bool {
    matches!(refused, ErrorKind::TimedOut | ErrorKind::Unserved(_))
}
