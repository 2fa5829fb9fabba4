//! Whether a server's loop continues.
use crate::model::change::Change;
use crate::model::history::History;
use crate::model::snapshot::Snapshot;
use crate::server::shown::timings::Timings;
use crate::store::{Store, StoreError};
use std::fmt;
use std::sync::Arc;
use std::time::Duration;

/// The longest turn of a loop that does not wait for its store. Judging the longest report takes
/// some seconds.
pub(crate) const LONGEST_TURN: Duration = Duration::from_secs(30);

/// A shorter wait for the store is not reported.
const SHORT_WAIT: Duration = Duration::from_secs(1);

/// Whether a server's loop continues, and if not, where it hangs.
#[derive(Clone, Copy, Debug, PartialEq, Eq)]
#[non_exhaustive]
pub enum Liveness {
    /// The loop runs, or has begun a turn that is not too long.
    Turns,
    /// The loop waits for its store, for over a second, and not longer than that may take.
    WaitsForStore {
        /// For how long.
        waited: Duration,
    },
    /// The loop waits for its store, longer than that may take.
    StoreHangs {
        /// For how long.
        waited: Duration,
        /// How long it may take: see [`Store::longest_wait`].
        longest: Duration,
    },
    /// The loop has gone no step further for too long, and does not wait for its store.
    Hangs {
        /// How long ago it ended its last turn, or its store answered.
        since_last_step: Duration,
    },
}

impl Liveness {
    /// Whether the server continues. One that does not needs a restart.
    #[must_use]
    pub fn is_alive(self) -> bool {
        matches!(self, Liveness::Turns | Liveness::WaitsForStore { .. })
    }

    /// The loop made its last step this long ago, and has waited for its store for `waited`, if it
    /// does, which may take `longest`.
    pub(crate) fn judge(
        since_last_step: Duration,
        waited: Option<Duration>,
        longest: Duration,
    ) -> Liveness {
        match waited {
            Some(waited) if waited > longest => Liveness::StoreHangs { waited, longest },
            Some(waited) if waited >= SHORT_WAIT => Liveness::WaitsForStore { waited },
            None if since_last_step > LONGEST_TURN => Liveness::Hangs { since_last_step },
            _ => Liveness::Turns,
        }
    }
}

impl fmt::Display for Liveness {
    fn fmt(&self, f: &mut fmt::Formatter<'_>) -> fmt::Result {
        match self {
            Liveness::Turns => f.write_str("ok"),
            Liveness::WaitsForStore { waited } => {
                write!(f, "ok: the loop has waited for its store for {} ms", waited.as_millis())
            }
            Liveness::StoreHangs { waited, longest } => write!(
                f,
                "the loop has waited for its store for {} ms, which may take {} ms at most",
                waited.as_millis(),
                longest.as_millis()
            ),
            Liveness::Hangs { since_last_step } => {
                write!(f, "the loop made its last step {} ms ago", since_last_step.as_millis())
            }
        }
    }
}

/// A store whose server shows when it waits for it.
pub(crate) struct TimedStore<S> {
    store: S,
    timings: Arc<Timings>,
}

impl<S: Store> TimedStore<S> {
    pub fn new(store: S, timings: Arc<Timings>) -> TimedStore<S> {
        TimedStore { store, timings }
    }

    fn timed<T>(&mut self, call: impl FnOnce(&mut S) -> T) -> T {
        self.timings.store_called();
        let answer = call(&mut self.store);
        self.timings.store_answered();
        answer
    }
}

impl<S: Store> Store for TimedStore<S> {
    fn load(&mut self) -> Result<Snapshot, StoreError> {
        self.timed(S::load)
    }

    fn commit(&mut self, changes: &[Change]) -> Result<(), StoreError> {
        self.timed(|store| store.commit(changes))
    }

    fn snapshot(&mut self) -> Result<Snapshot, StoreError> {
        self.timed(S::snapshot)
    }

    fn history(&mut self) -> Result<Option<History>, StoreError> {
        self.timed(S::history)
    }

    fn longest_wait(&self) -> Duration {
        self.store.longest_wait()
    }
}

#[cfg(test)]
mod tests {
    use super::*;

    const MS: Duration = Duration::from_millis(1);

    #[test]
    fn a_server_is_alive_for_as_long_as_its_store_may_take() {
        let longest = 5_000 * MS;
        let judge = |turn: u32, waited: Option<u32>| {
            Liveness::judge(turn * MS, waited.map(|waited| waited * MS), longest)
        };
        assert_eq!(judge(40, None), Liveness::Turns);
        assert_eq!(judge(60_000, Some(999)), Liveness::Turns);
        assert_eq!(judge(4_000, Some(3_100)), Liveness::WaitsForStore { waited: 3_100 * MS });
        assert!(judge(60_000, Some(5_000)).is_alive(), "it was slow before it asked");
        let hangs = judge(5_100, Some(5_001));
        assert_eq!(hangs, Liveness::StoreHangs { waited: 5_001 * MS, longest });
        assert!(!hangs.is_alive());
        assert_eq!(judge(30_000, None), Liveness::Turns);
        assert!(!judge(30_001, None).is_alive());
    }
}
