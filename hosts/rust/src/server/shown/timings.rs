//! How long things take in a server, as histograms.
//!
//! A measurement costs one increment of an atomic in the server's thread, and no memory.
use std::sync::atomic::{AtomicU64, Ordering};
use std::time::{Duration, Instant};

/// The upper bounds of the buckets for times, in microseconds: 10 microseconds to 10 seconds.
const MICROSECONDS: [u64; 19] = [
    10, 20, 50, 100, 200, 500, 1_000, 2_000, 5_000, 10_000, 20_000, 50_000, 100_000, 200_000,
    500_000, 1_000_000, 2_000_000, 5_000_000, 10_000_000,
];

/// The upper bounds of the buckets for the changes of one commit.
const CHANGES: [u64; 9] = [1, 2, 4, 8, 16, 32, 64, 128, 256];

const MAX_BUCKETS: usize = MICROSECONDS.len() + 1;

/// A histogram: how many measurements lie in each bucket, and their sum.
#[derive(Debug)]
struct Histogram {
    bounds: &'static [u64],
    counts: [AtomicU64; MAX_BUCKETS],
    sum: AtomicU64,
}

impl Histogram {
    const fn new(bounds: &'static [u64]) -> Histogram {
        assert!(bounds.len() < MAX_BUCKETS);
        Histogram {
            bounds,
            counts: [const { AtomicU64::new(0) }; MAX_BUCKETS],
            sum: AtomicU64::new(0),
        }
    }

    fn add(&self, value: u64) {
        let bucket = self.bounds.partition_point(|bound| *bound < value);
        self.counts[bucket].fetch_add(1, Ordering::Relaxed);
        self.sum.fetch_add(value, Ordering::Relaxed);
    }

    fn add_time(&self, time: Duration) {
        self.add(u64::try_from(time.as_micros()).unwrap_or(u64::MAX >> 1));
    }

    fn read(&self) -> Counts {
        let mut below = 0;
        let mut buckets = Vec::with_capacity(self.bounds.len());
        for (bound, count) in self.bounds.iter().zip(&self.counts) {
            below += count.load(Ordering::Relaxed);
            buckets.push((*bound, below));
        }
        let beyond = self.counts[self.bounds.len()].load(Ordering::Relaxed);
        Counts { buckets, count: below + beyond, sum: self.sum.load(Ordering::Relaxed) }
    }
}

/// The measurements of one kind, as they were counted at one moment.
#[derive(Clone, Debug, Default, PartialEq, Eq)]
pub struct Counts {
    /// The upper bound of each bucket, ascending, with the count of all measurements up to it.
    pub buckets: Vec<(u64, u64)>,
    /// How many measurements there were.
    pub count: u64,
    /// Their sum.
    pub sum: u64,
}

/// What a server has measured since it started. Times are in microseconds.
#[derive(Clone, Debug, Default, PartialEq, Eq)]
#[non_exhaustive]
pub struct Measured {
    /// From when a client's request for a lock came first until it was granted.
    pub grants: Counts,
    /// From when a callback was first sent to a client until a release of that client came.
    pub releases: Counts,
    /// The time of each commit of the store.
    pub commits: Counts,
    /// The number of changes of each commit.
    pub commit_changes: Counts,
    /// The time of each turn of the server's loop, without the time for which it waited.
    pub turns: Counts,
}

/// The histograms of one server. Its thread measures, and any thread reads.
#[derive(Debug)]
pub(crate) struct Timings {
    grants: Histogram,
    releases: Histogram,
    commits: Histogram,
    commit_changes: Histogram,
    turns: Histogram,
    began: Instant,
    last_turn: AtomicU64,
    /// When the store was called that has not answered, in milliseconds, plus 1; 0 if there is no
    /// such call.
    store_called: AtomicU64,
    /// When the store answered last.
    store_answered: AtomicU64,
}

impl Timings {
    pub fn new() -> Timings {
        Timings {
            grants: Histogram::new(&MICROSECONDS),
            releases: Histogram::new(&MICROSECONDS),
            commits: Histogram::new(&MICROSECONDS),
            commit_changes: Histogram::new(&CHANGES),
            turns: Histogram::new(&MICROSECONDS),
            began: Instant::now(),
            last_turn: AtomicU64::new(0),
            store_called: AtomicU64::new(0),
            store_answered: AtomicU64::new(0),
        }
    }

    /// A request for a lock was granted after this time.
    pub fn granted(&self, time: Duration) {
        self.grants.add_time(time);
    }

    /// A client has released something this long after it was called back.
    pub fn released(&self, time: Duration) {
        self.releases.add_time(time);
    }

    /// The store has made a commit of this many changes, which took this long.
    pub fn committed(&self, changes: usize, time: Duration) {
        self.commits.add_time(time);
        self.commit_changes.add(changes as u64);
    }

    /// The loop has made a turn, from then to then.
    pub fn turned(&self, began: Instant, ended: Instant) {
        self.turns.add_time(ended.saturating_duration_since(began));
        let at = ended.saturating_duration_since(self.began).as_millis();
        let at = u64::try_from(at).unwrap_or(u64::MAX);
        self.last_turn.store(at, Ordering::Relaxed);
    }

    /// How long ago the last turn ended, to a millisecond; if there was none, the server's start.
    pub fn since_last_turn(&self) -> Duration {
        self.since(self.last_turn.load(Ordering::Relaxed))
    }

    /// The store is called.
    pub fn store_called(&self) {
        self.store_called.store(self.now() + 1, Ordering::Relaxed);
    }

    /// The store has answered.
    pub fn store_answered(&self) {
        self.store_answered.store(self.now(), Ordering::Relaxed);
        // A thread that sees that it does not wait any more also sees when it was answered.
        self.store_called.store(0, Ordering::Release);
    }

    /// For how long the store has not answered, if it was called.
    pub fn waits_for_store(&self) -> Option<Duration> {
        let called = self.store_called.load(Ordering::Acquire).checked_sub(1)?;
        Some(self.since(called))
    }

    /// How long ago the last turn ended, or the store answered last, whichever was later.
    pub fn since_last_step(&self) -> Duration {
        self.since_last_turn().min(self.since(self.store_answered.load(Ordering::Relaxed)))
    }

    /// In milliseconds since the start.
    fn now(&self) -> u64 {
        u64::try_from(self.began.elapsed().as_millis()).unwrap_or(u64::MAX - 1)
    }

    fn since(&self, then: u64) -> Duration {
        self.began.elapsed().saturating_sub(Duration::from_millis(then))
    }

    pub fn read(&self) -> Measured {
        Measured {
            grants: self.grants.read(),
            releases: self.releases.read(),
            commits: self.commits.read(),
            commit_changes: self.commit_changes.read(),
            turns: self.turns.read(),
        }
    }
}

#[cfg(test)]
mod tests {
    use super::*;

    const MS: Duration = Duration::from_millis(1);

    #[test]
    fn a_measurement_lies_in_the_first_bucket_that_admits_it() {
        let histogram = Histogram::new(&CHANGES);
        for value in [1, 2, 3, 256, 257] {
            histogram.add(value);
        }
        let counts = histogram.read();
        let buckets =
            [(1, 1), (2, 2), (4, 3), (8, 3), (16, 3), (32, 3), (64, 3), (128, 3), (256, 4)];
        assert_eq!(counts, Counts { buckets: buckets.to_vec(), count: 5, sum: 519 });
    }

    #[test]
    fn a_turn_is_the_last_one() {
        let timings = Timings::new();
        std::thread::sleep(20 * MS);
        assert!(timings.since_last_turn() >= 20 * MS);
        timings.turned(Instant::now(), Instant::now());
        assert!(timings.since_last_turn() < 20 * MS);
        timings.committed(3, 5 * MS);
        let measured = timings.read();
        assert_eq!((measured.turns.count, measured.commits.count), (1, 1));
        assert_eq!((measured.commit_changes.count, measured.commit_changes.sum), (1, 3));
    }
}
