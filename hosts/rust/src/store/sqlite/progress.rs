//! How far a store over SQLite has come.
//!
//! Each batch counts one more commit of the last start. The number of a batch in the journal counts
//! by itself. Any other batch writes its number next to the start. The greatest of these numbers is
//! how far the store has come.
use super::transaction::WriteTransaction;
use super::{positive, run, signed};
use crate::model::change::Change;
use crate::model::history::{History, Mark};
use crate::store::StoreError;
use rusqlite::{Connection, Row as SqlRow, params};

const LAST: &str = "SELECT bits, max(commits, (SELECT coalesce(max(batch), 0) FROM journal))
    FROM start ORDER BY place DESC LIMIT 1";
const STARTS: &str = "SELECT bits, commits FROM start ORDER BY place";

const COUNT: &str = "UPDATE start SET commits = ?1 WHERE place = (SELECT max(place) FROM start)";
const START: &str = "INSERT INTO start (bits, commits) VALUES (randomblob(16), 1)";

// In stores of version 5 the records count commits as well.
const HAS_COMMITS: &str = "SELECT count(*) FROM pragma_table_info('record') WHERE name = 'commits'";
const COUNT_IN_START: &str = "
    UPDATE start SET commits = max(commits, (SELECT coalesce(max(commits), 0) FROM record))
    WHERE place = (SELECT max(place) FROM start);
    ALTER TABLE record DROP COLUMN commits;";

// It changes with each commit of another connection, and with none of this one.
const DATA_VERSION: &str = "PRAGMA data_version";

/// The state of a store, as a value of it has loaded it and changed it since.
#[derive(Clone, Copy, Debug, PartialEq, Eq)]
pub(super) struct Known {
    /// SQLite's number of the state.
    pub version: i64,
    /// The last mark in it.
    pub last: Option<Mark>,
}

impl Known {
    /// The current state. The number is read first: a commit of another connection between the two
    /// reads makes the next commit compare the marks.
    pub fn read(connection: &Connection) -> Result<Known, StoreError> {
        let version = data_version(connection)?;
        Ok(Known { version, last: last_mark(connection)? })
    }
}

/// SQLite's number of the state of the file.
pub(super) fn data_version(connection: &Connection) -> Result<i64, StoreError> {
    Ok(connection.prepare_cached(DATA_VERSION)?.query_row([], |row| row.get(0))?)
}

/// Counts a batch that is not in the journal, which is empty. Returns how far the store has come
/// with it: if a server starts by it, then by one commit of that start.
pub(super) fn count(
    transaction: &WriteTransaction<'_>,
    last: Option<Mark>,
    changes: &[Change],
) -> Result<Option<Mark>, StoreError> {
    let starts = changes.iter().any(|change| matches!(change, Change::Started { .. }));
    let Some(mark) = last else {
        return if starts { start(transaction) } else { Ok(None) };
    };
    let commits = mark.commits + u64::from(!starts);
    run(transaction, COUNT, params![signed(commits)?])?;
    if starts { start(transaction) } else { Ok(Some(Mark { commits, ..mark })) }
}

fn start(transaction: &WriteTransaction<'_>) -> Result<Option<Mark>, StoreError> {
    run(transaction, START, &[])?;
    last_mark(transaction)
}

/// How far the store has come, unless no server has started on it.
pub(super) fn last_mark(connection: &Connection) -> Result<Option<Mark>, StoreError> {
    let mut last = connection.prepare_cached(LAST)?;
    let mut rows = last.query([])?;
    rows.next()?.map(mark_of).transpose()
}

/// All starts, each with its commits.
pub(super) fn history(connection: &Connection) -> Result<Option<History>, StoreError> {
    let mut starts = connection.prepare(STARTS)?;
    let (mut rows, mut marks) = (starts.query([])?, Vec::new());
    while let Some(row) = rows.next()? {
        marks.push(mark_of(row)?);
    }
    if let (Some(last), Some(mark)) = (marks.last_mut(), last_mark(connection)?) {
        *last = mark;
    }
    Ok(History::new(marks))
}

fn mark_of(row: &SqlRow<'_>) -> Result<Mark, StoreError> {
    Ok(Mark { start: u128::from_le_bytes(row.get(0)?), commits: positive(row.get(1)?)? })
}

/// Moves the count of a store of version 5 from its records to its last start.
pub(super) fn count_in_start(transaction: &WriteTransaction<'_>) -> Result<(), StoreError> {
    let columns: i64 = transaction.query_row(HAS_COMMITS, [], |row| row.get(0))?;
    if columns > 0 {
        transaction.execute_batch(COUNT_IN_START)?;
    }
    Ok(())
}
