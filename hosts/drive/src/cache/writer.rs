//! A writer: one transaction after the other, over a connection that is made again when it breaks.
use super::check::End;
use super::notes::Notes;
use super::transactions::{Transaction, commit_prepared};
use crate::log::now;
use crate::lossy::Draws;
use krl_testing::database::Sql;
use std::io;
use std::path::Path;
use std::sync::atomic::{AtomicBool, Ordering};
use std::thread;
use std::time::Duration;

/// A writer pauses for at most this many milliseconds between two transactions.
const LONGEST_PAUSE: u64 = 10;

/// A writer of its own number, from 1 on.
pub struct Writer<'d> {
    pub number: u64,
    pub database: &'d str,
    pub folder: &'d Path,
    pub is_over: &'d AtomicBool,
}

impl Writer<'_> {
    /// Writes until it is over.
    pub fn run(&self) -> io::Result<()> {
        let mut notes = Notes::create(self.folder, &self.name())?;
        let mut draws = Draws(now() ^ self.number);
        let (mut connection, mut token) = (None, self.number << 40);
        while !self.is_over.load(Ordering::Relaxed) {
            let Some(sql) = connection.take().or_else(|| self.connect()) else {
                thread::sleep(Duration::from_millis(20));
                continue;
            };
            token += 1;
            let transaction = Transaction::draw(&mut draws, &self.name(), token);
            notes.begun(token, now())?;
            let end = transaction.run(&sql);
            notes.ended(token, now(), end)?;
            connection = match end {
                End::Done => Some(sql),
                // One that failed is still open.
                End::NotDone => sql.try_run("ROLLBACK").is_ok().then_some(sql),
                End::Unknown => None,
            };
            thread::sleep(Duration::from_millis(draws.below(LONGEST_PAUSE)));
        }
        Ok(())
    }

    /// A connection, when all is ended that an earlier one has prepared.
    fn connect(&self) -> Option<Sql> {
        let sql = Sql::connect(self.database).ok()?;
        sql.try_run("SET lock_timeout = '3s'").ok()?;
        commit_prepared(&sql, &self.name())?;
        Some(sql)
    }

    fn name(&self) -> String {
        format!("writer-{}", self.number)
    }
}
