//! Rows of a file into a table.
use crate::arguments::{Format, ImportWords, Options};
use crate::commands::applied;
use crate::failure::Failure;
use crate::output::Printer;
use crate::session::Session;
use crate::signals::Signals;
use crate::words;
use krl::{Outcome, Row};
use krl_cli::{Existing, FileFormat, Line, Progress, read_file};
use std::sync::atomic::{AtomicUsize, Ordering};
use std::sync::{Mutex, MutexGuard, PoisonError};
use std::thread;

/// What has become of the rows of a file, as the clients continue.
#[derive(Default)]
struct Imported {
    written: AtomicUsize,
    /// The table had a row of that key, and kept it.
    kept: AtomicUsize,
    /// The first failure. Each client ends after the row that it writes then.
    failure: Mutex<Option<Failure>>,
}

/// Writes the rows of the file to the table, and returns the exit status. No row is written if one
/// can't be read.
pub fn import(options: &Options, words: &ImportWords, signals: &Signals) -> Result<u8, Failure> {
    let printer = Printer::of(options);
    let format = match printer.format {
        Format::Json => FileFormat::JsonLines,
        Format::Text => FileFormat::of_name(&words.file),
    };
    let lines = read_file(&words.file, format, printer.values)?;
    let sessions = Session::join_some(options, &words::ALL, usize::from(words.clients))?;
    for session in &sessions {
        signals.ends(&session.client);
    }
    let (written, kept, ended) = write_all(&sessions, &lines, words.existing);
    Session::leave_all(sessions, options.timeout);
    let rest = match words.existing {
        Existing::Refuse if written > 0 => ", and --existing keep writes the rest",
        _ => "",
    };
    let before = |why| format!("{why}; rows written before: {written}{rest}");
    ended.map_err(|failure| failure.reworded(before))?;
    printer.imported(written, kept)?;
    Ok(0)
}

/// Each client writes a part of the lines, whose keys lie next to each other. Returns how many
/// rows were written and how many the table kept.
fn write_all(
    sessions: &[Session],
    lines: &[Line],
    existing: Existing,
) -> (usize, usize, Result<(), Failure>) {
    let progress = Progress::new("writing rows", Some(lines.len() as u64));
    let imported = Imported::default();
    let part = lines.len().div_ceil(sessions.len().max(1)).max(1);
    thread::scope(|scope| {
        for (session, lines) in sessions.iter().zip(lines.chunks(part)) {
            let (imported, progress) = (&imported, &progress);
            scope.spawn(move || imported.write_lines(session, lines, existing, progress));
        }
    });
    let Imported { written, kept, failure } = imported;
    let failure = failure.into_inner().unwrap_or_else(PoisonError::into_inner);
    (written.into_inner(), kept.into_inner(), failure.map_or(Ok(()), Err))
}

impl Imported {
    /// Writes the lines, until a client has failed.
    fn write_lines(
        &self,
        session: &Session,
        lines: &[Line],
        existing: Existing,
        progress: &Progress,
    ) {
        for line in lines {
            if lock(&self.failure).is_some() {
                return;
            }
            match write(session, &line.row, existing) {
                Ok(true) => self.written.fetch_add(1, Ordering::Relaxed),
                Ok(false) => self.kept.fetch_add(1, Ordering::Relaxed),
                Err(failure) => {
                    let failure = failure.reworded(|why| format!("line {}: {why}", line.place));
                    lock(&self.failure).get_or_insert(failure);
                    return;
                }
            };
            progress.step();
        }
    }
}

/// Writes a row. Returns whether the table has changed by it.
fn write(session: &Session, row: &Row, existing: Existing) -> Result<bool, Failure> {
    let outcome = match existing {
        Existing::Replace => session.client.set(row.key, row.value),
        Existing::Refuse | Existing::Keep => session.client.insert(row.key, row.value),
    };
    let number = session.client.number();
    let outcome = outcome.map_err(|refused| Failure::of_write(refused, row.key, number))?;
    match outcome {
        Outcome::Exists if existing == Existing::Keep => Ok(false),
        Outcome::Exists => applied(session, outcome, row.key)
            .map(|()| true)
            .map_err(|failure| failure.reworded(|why| format!("{why}: {}", Existing::CHOICES))),
        _ => applied(session, outcome, row.key).map(|()| true),
    }
}

fn lock<T>(mutex: &Mutex<T>) -> MutexGuard<'_, T> {
    mutex.lock().unwrap_or_else(PoisonError::into_inner)
}
