//! How many scans the cache of a client has answered, by where they begin.
use crate::proved::gate::{Alone, PLACES, place};
use std::ops::Range;
use std::sync::atomic::{AtomicU32, Ordering};

/// The number of counts.
pub(crate) const REGIONS: usize = 256;

/// This many neighboring keys share a count, also with keys far away.
pub(crate) const REGION_KEYS: u64 = 64;

/// The scans that the cache has answered. Each thread counts in a place of its own, as long as there
/// are not more threads than places: then some counts may be lost.
pub(crate) struct Hits(Box<[Alone<Counts>]>);

struct Counts {
    all: AtomicU32,
    regions: [AtomicU32; REGIONS],
}

/// The region of a key.
pub(crate) fn region_of(key: u64) -> usize {
    let region = key / REGION_KEYS % REGIONS as u64;
    usize::try_from(region).unwrap_or(0)
}

/// The keys around this one that have one count and follow one another.
pub(crate) fn region_around(key: u64) -> Range<u64> {
    let start = key - key % REGION_KEYS;
    start..start + REGION_KEYS
}

/// The regions of a range, each once.
pub(crate) fn regions_of(keys: &Range<u64>) -> impl Iterator<Item = usize> + use<> {
    let last = keys.end.saturating_sub(1).max(keys.start);
    let regions = keys.start / REGION_KEYS..=last / REGION_KEYS;
    regions.take(REGIONS).map(|region| region_of(region * REGION_KEYS))
}

impl Hits {
    /// A scan of these keys was answered.
    pub fn count(&self, keys: &Range<u64>) {
        let counts = &self.0[place()].0;
        for count in [&counts.all, &counts.regions[region_of(keys.start)]] {
            // An addition that loses no count of two threads in one place would take each scan
            // some nanoseconds more.
            count.store(count.load(Ordering::Relaxed).wrapping_add(1), Ordering::Relaxed);
        }
    }

    /// How many scans were answered so far. The number wraps around.
    pub fn all(&self) -> u32 {
        self.sum(|counts| &counts.all)
    }

    /// How many of them began in this region. The number wraps around.
    pub fn in_region(&self, region: usize) -> u32 {
        self.sum(|counts| &counts.regions[region])
    }

    fn sum(&self, count: impl Fn(&Counts) -> &AtomicU32) -> u32 {
        let counts = self.0.iter().map(|place| count(&place.0).load(Ordering::Relaxed));
        counts.fold(0, u32::wrapping_add)
    }
}

impl Default for Hits {
    fn default() -> Hits {
        let none =
            || Counts { all: AtomicU32::new(0), regions: [const { AtomicU32::new(0) }; REGIONS] };
        Hits((0..PLACES).map(|_| Alone(none())).collect())
    }
}

#[cfg(test)]
mod tests {
    use super::*;

    #[test]
    fn each_scan_is_counted_where_it_begins() {
        let hits = Hits::default();
        (0..5).for_each(|_| hits.count(&(130..1000)));
        hits.count(&(0..9));
        let of = |key| hits.in_region(region_of(key));
        assert_eq!([of(128), of(191), of(127), of(192), of(63)], [5, 5, 0, 0, 1]);
        assert_eq!(hits.all(), 6);
    }

    #[test]
    fn the_keys_around_a_key_are_of_its_region() {
        for (key, keys) in [(0, 0..64), (63, 0..64), (64, 64..128), (1000, 960..1024)] {
            assert_eq!(region_around(key), keys);
            assert!(keys.clone().all(|other| region_of(other) == region_of(key)));
        }
    }

    #[test]
    fn a_range_has_each_of_its_regions_once() {
        let regions = |keys: Range<u64>| regions_of(&keys).collect::<Vec<_>>();
        assert_eq!(regions(0..64), [0]);
        assert_eq!(regions(63..65), [0, 1]);
        assert_eq!(regions(255 * 64..257 * 64), [255, 0]);
        assert_eq!(regions(5..5), [0], "a message may have an empty slot");
        let mut all = regions(100..1 << 63);
        all.sort_unstable();
        assert_eq!(all, (0..REGIONS).collect::<Vec<_>>());
    }
}
