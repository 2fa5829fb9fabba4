//! Batches that are on the disk and not yet in the other tables.
//!
//! A write changes a row and its client's record, which lie in two pages, and each of sixteen writes
//! of a batch changes pages of its own. So a commit adds its batch to a table of batches, the
//! journal, as one row: that takes one or two pages however many writes there are, and one statement.
//!
//! What many batches come to is then brought into the other tables, a few rows with each commit, in
//! the order of their keys, so that neighbors are written together and no commit waits for a long
//! fold. Only when all of it is there, those batches are removed, the oldest first. Until then a
//! reader makes all the changes of the journal over what the tables have: it does not matter which
//! of them are there already, since the last change of each row and of each record is made last.
//!
//! The start of a server, and whatever is committed by a value that has not read the journal, fold
//! all of it first. So the journal has batches of the last start only, and each is named by its
//! number: how many batches were committed since that start.
mod batch;

use super::merged::Merged;
use super::transaction::WriteTransaction;
use super::{has_table, run, signed};
use crate::model::change::Change;
use crate::model::snapshot::Snapshot;
use crate::store::StoreError;
use rusqlite::{Connection, params};
use std::mem;
use std::ops::Range;

const ADD: &str = "INSERT INTO journal (batch, changes) VALUES (?1, ?2)";
const ALL: &str = "SELECT changes FROM journal ORDER BY batch";
const REMOVE: &str = "DELETE FROM journal WHERE batch < ?1";
const CLEAR: &str = "DELETE FROM journal";

/// This many changes are gathered before they are folded: the more, the more of them are of one row
/// or of neighbors. A start reads at most some two times as many, in a few milliseconds.
const GATHERED_CHANGES: usize = 4096;

/// A commit folds this many rows more than it has changes: so a fold ends before the next one is
/// due.
///
/// Of 200,000 writes evenly over 100,000 rows, by turns in a file in memory, one commit in 10,000 took
/// longer than 1.0 ms with 8 rows, 1.3 with 32 and 1.5 with 128, and than 10.6 if a fold was made at
/// once. Where each commit had 16 writes, the middle one took 51 µs with 8, since most of them fold
/// then, and 10 with 32.
const FOLDED_ROWS: usize = 32;

/// A commit removes this many folded batches at most.
const REMOVED_BATCHES: u64 = 256;

/// What the journal of the file has, as the value that writes it knows it.
#[derive(Debug)]
pub(super) struct Journal {
    /// What the batches come to that are not folded yet, and of how many changes.
    gathered: Merged,
    changes: usize,
    /// What has to be written yet of the batches that are folded.
    folding: Merged,
    /// The batches that are folded, and removed when nothing of them has to be written any more.
    folded: Range<u64>,
}

impl Journal {
    /// An empty one, to which the batch of this number is added next.
    pub fn empty(next: u64) -> Journal {
        let (gathered, folding) = (Merged::default(), Merged::default());
        Journal { gathered, changes: 0, folding, folded: next..next }
    }

    /// Whether a batch of these changes is added to the journal.
    pub fn takes(changes: &[Change]) -> bool {
        !changes.iter().any(|it| matches!(it, Change::Started { .. } | Change::Shard(_)))
    }

    /// Adds the batch of this number, and folds some of what was there. If it fails, the
    /// transaction has to be rolled back, and the journal read again.
    pub fn add(
        mut self,
        transaction: &WriteTransaction<'_>,
        changes: &[Change],
        number: u64,
    ) -> Result<Journal, StoreError> {
        run(transaction, ADD, params![signed(number)?, batch::to_bytes(changes)?])?;
        self.fold_some(transaction, changes.len())?;
        for change in changes {
            self.gathered.add(change);
        }
        self.changes += changes.len();
        let is_folded = self.folding.is_empty() && self.folded.is_empty();
        if is_folded && self.changes >= GATHERED_CHANGES {
            self.folding = mem::take(&mut self.gathered);
            self.folded.end = number + 1;
            self.changes = 0;
        }
        Ok(self)
    }

    fn fold_some(
        &mut self,
        transaction: &WriteTransaction<'_>,
        changes: usize,
    ) -> Result<(), StoreError> {
        if !self.folding.is_empty() {
            return self.folding.take_part(FOLDED_ROWS + changes).write(transaction);
        }
        if self.folded.is_empty() {
            return Ok(());
        }
        self.folded.start = self.folded.end.min(self.folded.start + REMOVED_BATCHES);
        run(transaction, REMOVE, params![signed(self.folded.start)?])
    }
}

/// Makes the changes of the journal in what was read of the other tables. A file of an older
/// version has none.
pub(super) fn apply(connection: &Connection, snapshot: &mut Snapshot) -> Result<(), StoreError> {
    if !has_table(connection, "journal")? {
        return Ok(());
    }
    each_change(connection, |change| snapshot.apply(&change))
}

/// Takes all that the journal has out of it: what the batches come to, in the same transaction.
pub(super) fn take_all(transaction: &WriteTransaction<'_>) -> Result<Merged, StoreError> {
    let mut merged = Merged::default();
    each_change(transaction, |change| merged.add(&change))?;
    run(transaction, CLEAR, &[])?;
    Ok(merged)
}

fn each_change(connection: &Connection, mut take: impl FnMut(Change)) -> Result<(), StoreError> {
    let mut all = connection.prepare_cached(ALL)?;
    let mut rows = all.query([])?;
    while let Some(row) = rows.next()? {
        let changes = row.get_ref(0)?.as_blob().ok().and_then(batch::from_bytes);
        let damaged = || StoreError::failed("the journal of the store is damaged");
        changes.ok_or_else(damaged)?.into_iter().for_each(&mut take);
    }
    Ok(())
}

#[cfg(test)]
mod tests;
