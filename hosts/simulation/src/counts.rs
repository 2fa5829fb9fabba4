//! How calls ended, and what else there was.
use std::fmt;

/// How calls ended, and what else there was in a run or in several.
#[derive(Clone, Copy, Debug, Default, PartialEq, Eq)]
pub struct Counts {
    /// Reads that were answered.
    pub reads: u64,
    /// Reads that the cache answered.
    pub cached: u64,
    /// Writes that were answered, those under a pin among them.
    pub writes: u64,
    /// Ranges that were pinned.
    pub pins: u64,
    /// Writes under a pin that were answered.
    pub bound: u64,
    /// Watched ranges whose callers learned of a change.
    pub watched: u64,
    /// Clients that left.
    pub left: u64,
    /// Clients that an operator evicted.
    pub evicted: u64,
    /// Calls that were refused, or whose time was over.
    pub refused: u64,
    /// How many times a server was started.
    pub starts: u64,
    /// How many times the store went back.
    pub went_back: u64,
    /// Faults.
    pub faults: u64,
}

impl Counts {
    /// Adds those of another run.
    pub fn add(&mut self, other: &Counts) {
        self.reads += other.reads;
        self.cached += other.cached;
        self.writes += other.writes;
        self.pins += other.pins;
        self.bound += other.bound;
        self.watched += other.watched;
        self.left += other.left;
        self.evicted += other.evicted;
        self.refused += other.refused;
        self.starts += other.starts;
        self.went_back += other.went_back;
        self.faults += other.faults;
    }
}

impl fmt::Display for Counts {
    fn fmt(&self, f: &mut fmt::Formatter<'_>) -> fmt::Result {
        let Counts { reads, cached, writes, pins, bound, watched, .. } = self;
        let Counts { left, evicted, refused, starts, went_back, faults, .. } = self;
        write!(
            f,
            "{reads} reads, {cached} from caches, {writes} writes, {pins} pins, {bound} writes under \
             them, {watched} changes awaited, {left} left, {evicted} evicted, {refused} calls \
             refused, {starts} starts, {went_back} older stores, {faults} faults"
        )
    }
}
