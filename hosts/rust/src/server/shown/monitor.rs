//! What a server lets other threads see of it while it runs.
use crate::model::shard_bounds::ShardBounds;
use crate::model::snapshot::Snapshot;
use crate::server::questions::{BUSY, Question, Questions, Unanswered};
use crate::server::shown::liveness::{LONGEST_TURN, Liveness};
use crate::server::shown::locks::{Locks, LocksError, locks};
use crate::server::shown::metrics::metrics;
use crate::server::shown::status::Status;
use crate::server::shown::timings::{Measured, Timings};
use crate::store::StoreError;
use std::fmt;
use std::ops::RangeBounds;
use std::sync::{Arc, Mutex, PoisonError};
use std::time::Duration;

/// A view of a server that may live in another thread, and longer than the server.
#[derive(Clone)]
pub struct Monitor {
    pub(crate) status: Arc<Mutex<Status>>,
    pub(crate) timings: Arc<Timings>,
    pub(crate) questions: Questions,
    pub(crate) longest_store_wait: Duration,
}

/// Why a server returned no snapshot.
#[derive(Debug)]
#[non_exhaustive]
pub enum SnapshotError {
    /// The server has ended, or ends before its turn comes to this.
    Ended,
    /// The server's loop did not come to it in time: it is busy, or hangs.
    Busy,
    /// The store failed. The server continues.
    Store(StoreError),
}

impl Monitor {
    /// What the server looks like now, or a few milliseconds ago; if it has ended, at its end.
    #[must_use]
    pub fn status(&self) -> Status {
        self.status.lock().unwrap_or_else(PoisonError::into_inner).clone()
    }

    /// Has the server renew no lease from now on, since the next map has this shard in place of its
    /// own: clients that follow the map have left by then. Each other one is refused by that shard,
    /// and is evicted when its lease has ended. With `None` it renews leases again. A server without
    /// leases evicts nobody. Returns whether the server's loop takes it: not if it has ended, or is
    /// too busy.
    #[must_use = "a loop that is too busy does not take it"]
    pub fn give_way(&self, next: Option<ShardBounds>) -> bool {
        self.questions.ask(Question::GiveWay(next)).is_ok()
    }

    /// What the server has measured since it started.
    #[must_use]
    pub fn measured(&self) -> Measured {
        self.timings.read()
    }

    /// How long ago the server's loop last ended a turn. An idle loop makes twenty turns a second.
    #[must_use]
    pub fn since_last_turn(&self) -> Duration {
        self.timings.since_last_turn()
    }

    /// All that the store has at one moment between two commits. The server serves nobody while
    /// its store reads that, which is once through the table. Waits until the server's turn comes
    /// to it.
    ///
    /// # Errors
    ///
    /// `Ended` if the server has ended; `Busy` if its loop does not answer within 30 seconds and
    /// twice the longest wait for its store; `Store` if its store can't read what it keeps.
    pub fn snapshot(&self) -> Result<Snapshot, SnapshotError> {
        // The call before it, and its own.
        let longest = self.longest_store_wait.saturating_mul(2).saturating_add(LONGEST_TURN);
        let answered = self.questions.answer(Question::Snapshot, longest);
        answered.map_err(SnapshotError::from)?.map_err(SnapshotError::Store)
    }

    /// Who holds which slots that meet this range, at most this many (64 if fewer are asked for),
    /// and who waits there. Slots of a client are reported one by one, even if neighbors have one
    /// mode.
    ///
    /// The server reports them between its turns, in pages of up to 1,024 slots and some
    /// milliseconds each, so that its clients do not wait for that. It may look at its whole table
    /// for each client.
    ///
    /// # Errors
    ///
    /// `BadRange` if the range begins above its end or ends above 2^63; `Ended` if the server has
    /// ended; `Busy` if its loop does not answer within ten seconds.
    pub fn locks(&self, points: impl RangeBounds<u64>, most: usize) -> Result<Locks, LocksError> {
        locks(&self.questions, points, most)
    }

    /// Whether the server's loop continues, and if not, where it hangs.
    #[must_use]
    pub fn liveness(&self) -> Liveness {
        let waited = self.timings.waits_for_store();
        Liveness::judge(self.timings.since_last_step(), waited, self.longest_store_wait)
    }

    /// What the server shows and has measured, in Prometheus' text format.
    #[must_use]
    pub fn metrics(&self) -> String {
        metrics(&self.status(), &self.measured(), self.since_last_turn())
    }
}

impl fmt::Debug for Monitor {
    fn fmt(&self, f: &mut fmt::Formatter<'_>) -> fmt::Result {
        f.debug_struct("Monitor").field("status", &self.status()).finish_non_exhaustive()
    }
}

impl From<Unanswered> for SnapshotError {
    fn from(why: Unanswered) -> SnapshotError {
        match why {
            Unanswered::Ended => SnapshotError::Ended,
            Unanswered::Busy => SnapshotError::Busy,
        }
    }
}

impl fmt::Display for SnapshotError {
    fn fmt(&self, f: &mut fmt::Formatter<'_>) -> fmt::Result {
        match self {
            SnapshotError::Ended => f.write_str("the server has ended"),
            SnapshotError::Busy => f.write_str(BUSY),
            SnapshotError::Store(error) => error.fmt(f),
        }
    }
}

impl std::error::Error for SnapshotError {
    fn source(&self) -> Option<&(dyn std::error::Error + 'static)> {
        match self {
            SnapshotError::Ended | SnapshotError::Busy => None,
            SnapshotError::Store(error) => Some(error),
        }
    }
}
