//! How long calls wait.
use std::sync::atomic::{AtomicU64, Ordering};
use std::time::Duration;

/// No call waits longer than this, a year.
pub(crate) const MAX_WAIT: Duration = Duration::from_secs(365 * 24 * 3600);

/// How long a client waits for an answer by default. It is longer than a server waits by default
/// for a client that was killed: a lease of ten seconds and a quarter.
pub(crate) const TIMEOUT: Duration = Duration::from_secs(15);

/// How long calls wait that have no time of their own. Any thread may change it.
#[derive(Debug)]
pub(crate) struct Timeout {
    nanoseconds: AtomicU64,
}

impl Timeout {
    pub fn new(timeout: Duration) -> Timeout {
        Timeout { nanoseconds: AtomicU64::new(nanoseconds(timeout)) }
    }

    pub fn get(&self) -> Duration {
        Duration::from_nanos(self.nanoseconds.load(Ordering::Relaxed))
    }

    pub fn set(&self, timeout: Duration) {
        self.nanoseconds.store(nanoseconds(timeout), Ordering::Relaxed);
    }
}

fn nanoseconds(timeout: Duration) -> u64 {
    u64::try_from(timeout.min(MAX_WAIT).as_nanos()).unwrap_or(u64::MAX)
}
