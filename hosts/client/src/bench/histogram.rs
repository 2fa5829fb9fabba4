//! How often calls took how long.
use std::time::Duration;

/// The logarithm of the number of buckets for each power of two: a time is accurate to 3 %.
const DIVISION_BITS: u32 = 5;

/// A bucket for each division of each power of two of a `u64`.
const BUCKETS: usize = (64 - DIVISION_BITS as usize + 1) << DIVISION_BITS;

/// Times in buckets: of one nanosecond each below 64 nanoseconds, and above of a width of 1/32 of
/// the times in them at most.
#[derive(Clone, Debug)]
pub struct Histogram {
    counts: Vec<u64>,
    count: u64,
    max: u64,
}

impl Default for Histogram {
    fn default() -> Histogram {
        Histogram { counts: vec![0; BUCKETS], count: 0, max: 0 }
    }
}

impl Histogram {
    /// Counts a time.
    pub fn record(&mut self, time: Duration) {
        let time = u64::try_from(time.as_nanos()).unwrap_or(u64::MAX);
        if let Some(count) = self.counts.get_mut(bucket_of(time)) {
            *count += 1;
            self.count += 1;
            self.max = self.max.max(time);
        }
    }

    /// Counts a time if it is to be counted.
    pub fn record_if(&mut self, is_counted: bool, time: Duration) {
        if is_counted {
            self.record(time);
        }
    }

    /// Counts all that the other one has counted.
    pub fn add(&mut self, other: &Histogram) {
        for (count, more) in self.counts.iter_mut().zip(&other.counts) {
            *count += more;
        }
        self.count += other.count;
        self.max = self.max.max(other.max);
    }

    /// How many times were counted.
    pub fn count(&self) -> u64 {
        self.count
    }

    /// The longest time.
    pub fn max(&self) -> Duration {
        Duration::from_nanos(self.max)
    }

    /// The time that this many of a thousand calls did not exceed, rounded up to the end of its
    /// bucket; zero if nothing was counted.
    pub fn quantile(&self, of_thousand: u64) -> Duration {
        let rank = (u128::from(self.count) * u128::from(of_thousand)).div_ceil(1000).max(1);
        let mut seen = 0;
        for (bucket, count) in self.counts.iter().enumerate() {
            seen += u128::from(*count);
            if seen >= rank {
                return Duration::from_nanos(greatest_in(bucket).min(self.max));
            }
        }
        Duration::ZERO
    }
}

/// The bucket of a time: how far the time is shifted, and what is left of it, 32 to 63; or the time
/// itself below 32.
fn bucket_of(time: u64) -> usize {
    let bits = u64::BITS - time.leading_zeros();
    let shift = bits.saturating_sub(DIVISION_BITS + 1);
    // Both are small: 58 at most, and 63 at most.
    ((shift as usize) << DIVISION_BITS) + usize::try_from(time >> shift).unwrap_or(0)
}

/// The greatest time of a bucket.
fn greatest_in(bucket: usize) -> u64 {
    let bucket = bucket as u64;
    let shift = (bucket >> DIVISION_BITS).saturating_sub(1);
    let rest = bucket - (shift << DIVISION_BITS);
    (rest << shift) | ((1 << shift) - 1)
}

#[cfg(test)]
mod tests {
    use super::*;

    fn of(times: impl IntoIterator<Item = u64>) -> Histogram {
        let mut histogram = Histogram::default();
        times.into_iter().for_each(|time| histogram.record(Duration::from_nanos(time)));
        histogram
    }

    #[test]
    fn buckets_follow_one_another_and_are_narrow() {
        assert_eq!(bucket_of(u64::MAX), BUCKETS - 1);
        assert_eq!(greatest_in(BUCKETS - 1), u64::MAX);
        let mut least = 0;
        for bucket in 0..BUCKETS {
            let greatest = greatest_in(bucket);
            assert_eq!([bucket_of(least), bucket_of(greatest)], [bucket; 2]);
            assert!((greatest - least) <= least / 32, "{least} to {greatest}");
            least = greatest.wrapping_add(1);
        }
        assert_eq!(least, 0, "the buckets end at the greatest number");
    }

    #[test]
    fn quantiles_are_the_times_of_their_ranks() {
        let small = of(1..=10);
        let quantiles = [1, 100, 500, 510, 999, 1000].map(|it| small.quantile(it).as_nanos());
        assert_eq!(quantiles, [1, 1, 5, 6, 10, 10]);
        let large = of((1..=100_000).map(|time| time * 1000));
        for of_thousand in [1, 500, 990, 999] {
            let exact = of_thousand * 100_000;
            let found = u64::try_from(large.quantile(of_thousand).as_nanos()).unwrap();
            assert!((exact..=exact + exact / 32).contains(&found), "{found} for {exact}");
        }
        assert_eq!(large.max(), Duration::from_millis(100));
        assert_eq!(large.quantile(1000), large.max());
    }

    #[test]
    fn few_slow_calls_show_only_in_the_last_quantile() {
        let few_slow = of((0..9980).map(|_| 10).chain((0..20).map(|_| 5_000_000)));
        let quantiles = [500, 990, 999].map(|it| few_slow.quantile(it).as_nanos());
        assert_eq!(quantiles, [10, 10, 5_000_000]);
    }

    #[test]
    fn what_is_not_to_be_counted_is_not() {
        let mut histogram = of([7]);
        histogram.record_if(false, Duration::from_nanos(9));
        histogram.record_if(true, Duration::from_nanos(8));
        assert_eq!((histogram.count(), histogram.max()), (2, Duration::from_nanos(8)));
    }

    #[test]
    fn an_empty_one_has_no_times() {
        let empty = Histogram::default();
        assert_eq!([empty.quantile(500), empty.max()], [Duration::ZERO; 2]);
    }

    #[test]
    fn two_are_added() {
        let mut all = of(1..=5);
        all.add(&of(6..=10));
        assert_eq!(all.count(), 10);
        assert_eq!(all.quantile(500), Duration::from_nanos(5));
        assert_eq!(all.max(), Duration::from_nanos(10));
    }
}
