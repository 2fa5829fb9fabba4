//! What a table counts.
use crate::rows::Loaded;
use std::sync::atomic::{AtomicU64, Ordering};

#[derive(Debug, Default)]
pub(crate) struct Counters {
    pub hits: Counter,
    pub misses: Counter,
    pub loads: Counter,
    pub kept: Counter,
    pub unkept: Counter,
    pub away: Counter,
    /// Those of earlier definitions.
    pub evictions: Counter,
}

#[derive(Debug, Default)]
pub(crate) struct Counter(AtomicU64);

impl Counter {
    pub fn add(&self, count: usize) {
        self.0.fetch_add(count as u64, Ordering::Relaxed);
    }

    pub fn get(&self) -> u64 {
        self.0.load(Ordering::Relaxed)
    }
}

impl Counters {
    /// Notes a question for rows that are to be kept, and which of them were.
    pub fn note_load(&self, loaded: &[Loaded]) {
        let kept = loaded.iter().filter(|(_, held)| held.is_some()).count();
        self.loads.add(1);
        self.kept.add(kept);
        self.unkept.add(loaded.len() - kept);
    }
}

/// What was done for a table since it was opened. The numbers are read one after another, so they
/// may be of different moments.
#[derive(Clone, Copy, Debug, Default, PartialEq, Eq)]
#[non_exhaustive]
pub struct Statistics {
    /// Keys that were answered from memory.
    pub hits: u64,
    /// Keys that were answered by the database.
    pub misses: u64,
    /// Questions to the database for rows that are to be kept.
    pub loads: u64,
    /// Keys whose rows were kept.
    pub kept: u64,
    /// Keys whose rows were not kept: a transaction was about to change them, or others had taken
    /// them back.
    pub unkept: u64,
    /// Keys that were answered by the database while there was a fault: they are among the misses.
    /// [`Table::fault`] reports it.
    ///
    /// [`Table::fault`]: crate::Table::fault
    pub away: u64,
    /// Keys whose rows were dropped because there was no room for them.
    pub evictions: u64,
    /// Keys whose rows are in memory now; of some of them it is known that there are none.
    pub keys: u64,
    /// About how many bytes they take.
    pub bytes: u64,
}
