//! What a server commits, and what waits for that.
//!
//! Nothing is judged while a commit is made. So all that was judged before it may leave after it:
//! a message, which the library keeps until the changes on which it rests are confirmed, and a
//! frame of the host itself, which waits in its connection.
use super::greeting::Doubt;
use super::{ASKS_STORE, EventLoop};
use crate::lease::clocks::Now;
use crate::model::change::Change;
use crate::server::error::ServeError;
use std::time::{Duration, Instant};

/// What the next commit has to make, and to answer.
#[derive(Debug, Default)]
pub(super) struct Gathered {
    pub changes: Vec<Change>,
    /// The connections whose clients have seen what the store lacks.
    pub doubts: Vec<Doubt>,
}

/// A commit that the store has to make before the loop judges anything more.
#[derive(Debug)]
#[must_use]
pub(crate) struct Commit {
    changes: Vec<Change>,
    doubts: Vec<Doubt>,
    /// By which number the table of leases knows it.
    number: u64,
    began: Instant,
}

impl Commit {
    /// What the store has to make, in this order. Nothing means that it is asked whether it is
    /// still this server's.
    pub fn changes(&self) -> &[Change] {
        &self.changes
    }
}

impl EventLoop {
    /// How long what is to be committed waits at most for writers that are about to write again.
    pub(super) fn waits_for_writers(&self) -> Duration {
        self.group.patience(&self.gathered.changes)
    }

    /// Whether there is something to commit, or the store has to be asked whether it is still this
    /// server's.
    pub(super) fn is_due(&self) -> bool {
        let Gathered { changes, doubts } = &self.gathered;
        let has_gathered = !changes.is_empty() || !doubts.is_empty();
        has_gathered || self.leases.owes_terms() || self.reads.are_waiting()
    }

    /// Begins a commit, unless nothing has to be committed: then the host frames may leave. If a
    /// commit fails, nothing leaves that waits for it.
    ///
    /// An empty commit is made too, if the store has to be asked whether it is still this server's:
    /// before terms leave, before rows leave that were asked for, before a store is called an older
    /// one, and now and then. A server after which another one has started would find that at its
    /// next commit, and its clients might wait for it until then.
    pub fn take_commit(&mut self, now: Now) -> Result<Option<Commit>, ServeError> {
        let since_asked = now.monotonic.saturating_duration_since(self.asked_store);
        if !(self.is_due() || since_asked >= ASKS_STORE) {
            self.connections.committed();
            return Ok(None);
        }
        let number = self.leases.commit().map_err(ServeError::Refused)?;
        let Gathered { changes, doubts } = std::mem::take(&mut self.gathered);
        Ok(Some(Commit { changes, doubts, number, began: now.monotonic }))
    }

    /// The store has made this commit. What rests on it may leave.
    pub fn committed(&mut self, commit: Commit, now: Now) -> Result<(), ServeError> {
        let Commit { changes, doubts, number, began } = commit;
        self.server.confirm(&changes).map_err(ServeError::Refused)?;
        self.leases.committed(number).map_err(ServeError::Refused)?;
        self.asked_store = began;
        // A peer that does not take what leaves now has not stood still during the commit.
        self.connections.set_now(now);
        if !changes.is_empty() {
            if let Some(history) = &mut self.history {
                history.commit();
            }
            let took = now.monotonic.saturating_duration_since(began);
            self.timings.committed(changes.len(), took);
            self.group.committed(&changes, took);
            self.log.committed(&changes, |client| self.connections.at_of(client));
            self.count(&changes);
            self.see_members(&changes);
        }
        for doubt in &doubts {
            self.alarm_older_store(doubt, now);
        }
        self.send_terms();
        self.answer_reads()?;
        self.connections.committed();
        Ok(())
    }
}
