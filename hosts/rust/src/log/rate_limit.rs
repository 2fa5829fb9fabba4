//! Events that come again and again, and are reported now and then.
use std::time::{Duration, Instant};

/// How long an event that repeats waits until it is reported again.
const REPORT_INTERVAL: Duration = Duration::from_secs(1);

/// Admits an event once a second, and counts those in between: for a log that strangers may fill.
#[derive(Debug, Default)]
pub struct RateLimit {
    logged: Option<Instant>,
    passed_over: u64,
}

impl RateLimit {
    /// Returns how many events were passed over since the last one that was reported, if this one
    /// is to be reported.
    pub fn admits(&mut self, now: Instant) -> Option<u64> {
        if self.logged.is_some_and(|logged| now.saturating_duration_since(logged) < REPORT_INTERVAL)
        {
            self.passed_over += 1;
            return None;
        }
        self.logged = Some(now);
        Some(std::mem::take(&mut self.passed_over))
    }
}

#[cfg(test)]
mod tests {
    use super::*;

    #[test]
    fn a_repeated_event_is_logged_once_a_second_and_counted() {
        let (mut limit, start) = (RateLimit::default(), Instant::now());
        assert_eq!(limit.admits(start), Some(0));
        for _ in 0..5 {
            assert_eq!(limit.admits(start + REPORT_INTERVAL / 2), None);
        }
        assert_eq!(limit.admits(start + REPORT_INTERVAL), Some(5));
        assert_eq!(limit.admits(start + REPORT_INTERVAL), None);
        assert_eq!(limit.admits(start + 3 * REPORT_INTERVAL), Some(1));
        assert_eq!(limit.admits(start + 4 * REPORT_INTERVAL), Some(0));
    }
}
