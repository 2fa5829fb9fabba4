//! A transaction that writes to a store.
use super::run;
use crate::store::StoreError;
use rusqlite::Connection;
use std::ops::Deref;

const BEGIN: &str = "BEGIN IMMEDIATE";
const COMMIT: &str = "COMMIT";
const ROLLBACK: &str = "ROLLBACK";

/// A transaction that has the store's lock for writers. It is rolled back unless it is committed.
///
/// Its statements are prepared once for all transactions of a connection, while those of rusqlite
/// are compiled each time: that takes a commit of one write a tenth of its processor time.
pub(crate) struct WriteTransaction<'c>(&'c Connection);

impl WriteTransaction<'_> {
    /// Begins one. SQLite refuses it if this connection has one already.
    pub fn begin(connection: &Connection) -> Result<WriteTransaction<'_>, StoreError> {
        run(connection, BEGIN, &[])?;
        Ok(WriteTransaction(connection))
    }

    /// Returns once all of it is on the disk.
    pub fn commit(self) -> Result<(), StoreError> {
        run(&self, COMMIT, &[])
    }
}

impl Deref for WriteTransaction<'_> {
    type Target = Connection;

    fn deref(&self) -> &Connection {
        self.0
    }
}

impl Drop for WriteTransaction<'_> {
    fn drop(&mut self) {
        if !self.0.is_autocommit() {
            // A connection that can't roll back refuses the next transaction.
            let _ = run(self.0, ROLLBACK, &[]);
        }
    }
}
