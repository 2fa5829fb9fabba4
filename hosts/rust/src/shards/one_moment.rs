//! Scans of several caches at one moment.
use crate::lease::boot_clock::Moment;
use crate::model::row::Row;
use crate::proved::client_handle::{Cache, CacheGuard, Scan};
use std::ops::Range;

/// A range, and the cache that may know it.
pub(crate) struct Known<'c> {
    pub cache: &'c Cache,
    pub keys: Range<u64>,
}

/// Puts the rows of all ranges one after another, as they are at one moment, if each cache knows
/// its range. Otherwise it answers `false`. The ranges, and so the caches, are in the order of
/// their shards.
pub(crate) fn scan(known: &[Known<'_>], rows: &mut Vec<Row>) -> bool {
    scan_and_do(known, rows, || ())
}

/// The same, and does something between two scans.
///
/// All caches are held before the first scan. Otherwise a client might give up what was scanned,
/// and the next one be granted what was written after that: rows of two moments.
fn scan_and_do(known: &[Known<'_>], rows: &mut Vec<Row>, mut between: impl FnMut()) -> bool {
    let held: Vec<CacheGuard<'_>> = known.iter().map(|known| known.cache.hold()).collect();
    for (place, Known { keys, .. }) in known.iter().enumerate() {
        if place > 0 {
            between();
        }
        if held[place].scan_after(keys, rows, Moment::now) != Ok(Scan::Rows) {
            return false;
        }
    }
    true
}

#[cfg(test)]
mod tests;
