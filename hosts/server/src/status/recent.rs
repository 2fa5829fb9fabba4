//! What has happened lately: rates, and the histograms of the last minutes.
//!
//! A server counts from its start. Samples of its counts, which are taken outside its loop, show
//! how much of that is new.
use crate::process::role::State;
use krl::operate::{Counts, Measured};
use krl::operate::{Monitor, Status};
use serde_json::{Value, json};
use std::collections::VecDeque;
use std::sync::{Arc, Mutex, MutexGuard, PoisonError};
use std::time::{Duration, Instant};

/// How often [`Recent::look`] is to be called.
pub const RECENT_PERIOD: Duration = Duration::from_secs(1);

/// How long samples lie apart.
const SAMPLE_PERIOD: Duration = Duration::from_secs(5);

/// Rates are those of a time of this length, or a little longer.
const RATES_OVER: Duration = Duration::from_secs(10);

/// The histograms are those of a time of this length at most.
const HISTOGRAMS_OVER: Duration = Duration::from_secs(300);

/// The samples of the server that serves.
#[derive(Clone, Debug, Default)]
pub struct Recent(Arc<Mutex<VecDeque<Sample>>>);

/// What a server had counted at a moment.
#[derive(Clone, Debug)]
struct Sample {
    at: Instant,
    epoch: u64,
    counted: Counted,
    measured: Measured,
}

#[derive(Clone, Copy, Debug, Default, PartialEq, Eq)]
struct Counted {
    taken: u64,
    sent: u64,
    changes: u64,
    commits: u64,
}

/// How many in a second.
#[derive(Clone, Copy, Debug, Default, PartialEq)]
pub struct Rates {
    /// The time over which they were counted.
    pub over: Duration,
    pub taken: f64,
    pub sent: f64,
    pub changes: f64,
    pub commits: f64,
}

/// The histograms of the last minutes.
#[derive(Clone, Debug, Default, PartialEq, Eq)]
pub struct Histograms {
    /// The time over which they were counted.
    pub over: Duration,
    pub commits: Counts,
    pub grants: Counts,
    pub releases: Counts,
}

impl Recent {
    /// Takes a sample if one is due. A process that does not serve has none.
    pub fn look(&self, state: &State, now: Instant) {
        match state {
            State::Serves { monitor, .. } => self.sample(monitor, now),
            _ => self.lock().clear(),
        }
    }

    fn sample(&self, monitor: &Monitor, now: Instant) {
        let is_due = |last: &Sample| now.saturating_duration_since(last.at) >= SAMPLE_PERIOD;
        if self.lock().back().is_none_or(is_due) {
            self.take(Sample::of(monitor, &monitor.status(), now));
        }
    }

    fn take(&self, sample: Sample) {
        let mut samples = self.lock();
        let now = sample.at;
        samples.retain(|it| {
            it.epoch == sample.epoch && now.saturating_duration_since(it.at) <= HISTOGRAMS_OVER
        });
        samples.push_back(sample);
    }

    /// The rates of a server that has this status now, if there is an older sample of it.
    pub fn rates(&self, status: &Status, now: Instant) -> Option<Rates> {
        let samples = self.lock();
        let is_old = |it: &&Sample| now.saturating_duration_since(it.at) >= RATES_OVER;
        let base = samples.iter().rev().find(is_old).or(samples.front())?;
        let over = now.saturating_duration_since(base.at);
        if base.epoch != status.epoch || over < RECENT_PERIOD {
            return None;
        }
        Some(Counted::of(status).since(base.counted, over))
    }

    /// The histograms of a server that has measured this, since the oldest sample of it.
    pub fn histograms(&self, measured: &Measured, epoch: u64, now: Instant) -> Option<Histograms> {
        let samples = self.lock();
        let base = samples.front().filter(|it| it.epoch == epoch)?;
        Some(Histograms {
            over: now.saturating_duration_since(base.at),
            commits: since(&measured.commits, &base.measured.commits),
            grants: since(&measured.grants, &base.measured.grants),
            releases: since(&measured.releases, &base.measured.releases),
        })
    }

    fn lock(&self) -> MutexGuard<'_, VecDeque<Sample>> {
        self.0.lock().unwrap_or_else(PoisonError::into_inner)
    }
}

impl Sample {
    fn of(monitor: &Monitor, status: &Status, at: Instant) -> Sample {
        let (epoch, counted) = (status.epoch, Counted::of(status));
        Sample { at, epoch, counted, measured: monitor.measured() }
    }
}

impl Counted {
    fn of(status: &Status) -> Counted {
        let Status { taken, sent, changes, commits, .. } = *status;
        Counted { taken, sent, changes, commits }
    }

    fn since(self, base: Counted, over: Duration) -> Rates {
        let rate = |now: u64, then: u64| {
            let grown = u32::try_from(now.saturating_sub(then)).unwrap_or(u32::MAX);
            f64::from(grown) / over.as_secs_f64()
        };
        Rates {
            over,
            taken: rate(self.taken, base.taken),
            sent: rate(self.sent, base.sent),
            changes: rate(self.changes, base.changes),
            commits: rate(self.commits, base.commits),
        }
    }
}

impl Rates {
    pub fn as_json(&self) -> Value {
        json!({
            "over_seconds": self.over.as_secs_f64(),
            "messages_taken": self.taken,
            "messages_sent": self.sent,
            "changes": self.changes,
            "commits": self.commits,
        })
    }
}

/// What was counted since then.
fn since(now: &Counts, then: &Counts) -> Counts {
    let then_up_to = then.buckets.iter().map(|(_, count)| *count).chain(std::iter::repeat(0));
    let buckets = now.buckets.iter().zip(then_up_to);
    Counts {
        buckets: buckets.map(|(&(bound, now), then)| (bound, now.saturating_sub(then))).collect(),
        count: now.count.saturating_sub(then.count),
        sum: now.sum.saturating_sub(then.sum),
    }
}

#[cfg(test)]
mod tests {
    use super::*;

    fn sample(at: Instant, epoch: u64, commits: u64) -> Sample {
        let counted = Counted { commits, ..Counted::default() };
        let counts = Counts { buckets: vec![(10, commits)], count: commits, sum: 7 * commits };
        let mut measured = Measured::default();
        measured.commits = counts;
        Sample { at, epoch, counted, measured }
    }

    fn status(epoch: u64, commits: u64) -> Status {
        let mut status = Status::default();
        (status.epoch, status.commits) = (epoch, commits);
        status
    }

    #[test]
    fn rates_are_those_of_the_last_ten_seconds() {
        let (recent, start) = (Recent::default(), Instant::now());
        let after = |seconds| start + Duration::from_secs(seconds);
        assert_eq!(recent.rates(&status(1, 9), start), None);
        recent.take(sample(after(0), 1, 100));
        assert_eq!(recent.rates(&status(1, 100), start), None, "it is no time ago");
        let rates = recent.rates(&status(1, 108), after(4)).unwrap();
        assert_eq!((rates.over, rates.commits), (Duration::from_secs(4), 2.0));
        for seconds in [5, 10, 15, 20] {
            recent.take(sample(after(seconds), 1, 100 + 10 * seconds));
        }
        let rates = recent.rates(&status(1, 340), after(22)).unwrap();
        assert_eq!((rates.over, rates.commits), (Duration::from_secs(12), 140.0 / 12.0));
        assert_eq!(recent.rates(&status(2, 0), after(22)), None, "it is another server");
    }

    #[test]
    fn histograms_are_those_of_the_last_minutes() {
        let (recent, start) = (Recent::default(), Instant::now());
        let after = |seconds| start + Duration::from_secs(seconds);
        for seconds in (0..=600).step_by(5) {
            recent.take(sample(after(seconds), 1, seconds));
        }
        assert_eq!(recent.lock().len(), 61);
        let measured = sample(after(601), 1, 700).measured;
        let histograms = recent.histograms(&measured, 1, after(601)).unwrap();
        let expected = Counts { buckets: vec![(10, 400)], count: 400, sum: 2800 };
        assert_eq!((histograms.over, histograms.commits), (Duration::from_secs(301), expected));
        recent.take(sample(after(605), 2, 0));
        assert_eq!(recent.lock().len(), 1, "another server counts from zero");
        recent.look(&State::Starts, after(606));
        assert_eq!(recent.histograms(&measured, 2, after(606)), None);
    }
}
