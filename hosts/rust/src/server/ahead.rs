//! Incarnations of the future: a client whose clock is far ahead takes a number that no clock that
//! is right gives for years.
use std::time::{Duration, SystemTime, UNIX_EPOCH};

/// How far a client's clock may be ahead of the server's.
const MAX_AHEAD: Duration = Duration::from_secs(24 * 60 * 60);

/// The greatest incarnation that a server registers now. Incarnations are moments, in nanoseconds
/// since 1970. One that follows the registered one is taken, so that a client that was registered
/// far ahead can be evicted and started again.
pub(crate) fn latest(registered: u64, now: SystemTime) -> u64 {
    let now = now.duration_since(UNIX_EPOCH).unwrap_or_default();
    let nanoseconds = |time: Duration| u64::try_from(time.as_nanos()).unwrap_or(u64::MAX);
    nanoseconds(now).max(registered).saturating_add(nanoseconds(MAX_AHEAD))
}

#[cfg(test)]
mod tests {
    use super::*;

    #[test]
    fn an_incarnation_is_a_day_ahead_at_most_or_follows_the_registered_one() {
        const DAY: u64 = 86_400_000_000_000;
        let now = UNIX_EPOCH + Duration::from_nanos(10 * DAY);
        assert_eq!(latest(0, now), 11 * DAY);
        assert_eq!(latest(10 * DAY + 1, now), 11 * DAY + 1);
        assert_eq!(latest(7000 * DAY, now), 7001 * DAY);
        assert_eq!(latest(u64::MAX - 1, now), u64::MAX);
        assert_eq!(latest(5, UNIX_EPOCH - Duration::from_secs(1)), DAY + 5);
    }
}
