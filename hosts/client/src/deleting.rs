//! Deleting the rows of a range.
use crate::commands::{Context, applied};
use crate::failure::Failure;
use krl::Outcome;
use krl_cli::Progress;
use std::ops::Range;

/// Deletes the rows that the range has at one moment, one after the other. Those that others delete
/// before are not counted, and those that others insert meanwhile stay.
pub fn delete(context: &Context<'_>, keys: Range<u64>) -> Result<(), Failure> {
    let client = &context.session.client;
    let rows = client.read(keys)?;
    let progress = Progress::new("deleting rows", Some(rows.len() as u64));
    let mut deleted = 0;
    for row in &rows {
        let outcome = client.delete(row.key);
        let outcome =
            outcome.map_err(|refused| Failure::of_write(refused, row.key, client.number()));
        let is_deleted = outcome.and_then(|outcome| match outcome {
            Outcome::Absent => Ok(false),
            outcome => applied(context.session, outcome, row.key).map(|()| true),
        });
        let before = |why| format!("{why}; rows deleted before: {deleted}");
        deleted += usize::from(is_deleted.map_err(|failure| failure.reworded(before))?);
        progress.step();
    }
    drop(progress);
    context.printer.deleted(deleted)
}
