//! What is measured, and how the rounds are put together.
use std::collections::BTreeMap;

/// What is measured of a system, in the order of the table.
#[derive(Clone, Copy, Debug, PartialEq, Eq, PartialOrd, Ord)]
pub enum What {
    /// A scan of 100 rows from the cache.
    CachedScan,
    /// The middle one of the first scans of 100 rows.
    FirstScan,
    /// What it takes to bring 10,000 rows into an empty cache.
    Warming,
    /// Calls of the mix.
    Calls,
    /// The same if no row may be stale.
    FreshCalls,
    /// The middle one of the writes of one writer.
    Write,
    /// Writes of this many writers.
    Writes(u8),
}

/// In which unit a figure is shown. Times are measured in seconds, and rates in calls a second.
#[derive(Clone, Copy, Debug, PartialEq, Eq)]
pub enum Unit {
    Micros,
    Millis,
    PerSecond,
}

/// The figures of one round.
pub type Round = BTreeMap<What, f64>;

impl What {
    pub fn unit(self) -> Unit {
        match self {
            What::CachedScan | What::FirstScan | What::Write => Unit::Micros,
            What::Warming => Unit::Millis,
            What::Calls | What::FreshCalls | What::Writes(_) => Unit::PerSecond,
        }
    }
}

impl Unit {
    /// The better one of two figures.
    fn better(self, one: f64, other: f64) -> f64 {
        if self == Unit::PerSecond { one.max(other) } else { one.min(other) }
    }

    /// How many times as long as the first one the second one takes.
    pub fn times_as_long(self, first: f64, second: f64) -> f64 {
        if self == Unit::PerSecond { first / second } else { second / first }
    }
}

/// What was measured of a system in all rounds.
#[derive(Clone, Debug, Default)]
pub struct Figures {
    pub rounds: Vec<Round>,
    /// The rows that the mixes of all rounds read, and how many of them were stale.
    pub rows: u64,
    pub stale: u64,
}

impl Figures {
    /// The figure of the best round, and of the middle one; none if it was never measured.
    pub fn best_and_middle(&self, what: What) -> Option<(f64, f64)> {
        let mut all: Vec<f64> =
            self.rounds.iter().filter_map(|it| it.get(&what)).copied().collect();
        all.sort_unstable_by(f64::total_cmp);
        let best = all.iter().copied().reduce(|one, other| what.unit().better(one, other))?;
        Some((best, *all.get(all.len() / 2)?))
    }
}

#[cfg(test)]
mod tests {
    use super::*;

    #[test]
    fn the_best_round_is_the_fastest() {
        let round = |time, rate| [(What::FirstScan, time), (What::Calls, rate)].into();
        let rounds = vec![round(9.0, 3.0), round(7.0, 2.0), round(8.0, 1.0)];
        let figures = Figures { rounds, ..Figures::default() };
        assert_eq!(figures.best_and_middle(What::FirstScan), Some((7.0, 8.0)));
        assert_eq!(figures.best_and_middle(What::Calls), Some((3.0, 2.0)));
        assert_eq!(figures.best_and_middle(What::Writes(4)), None);
        assert!((What::Calls.unit().times_as_long(10.0, 5.0) - 2.0).abs() < 1e-9);
        assert!((What::Write.unit().times_as_long(10.0, 5.0) - 0.5).abs() < 1e-9);
    }
}
