//! Whether a client that joins gives up, since nothing listens at its only address.
use std::time::{Duration, Instant};

/// How long the address has to refuse connections before a client that joins gives up: a server may
/// be about to start.
const PATIENCE: Duration = Duration::from_secs(1);

/// The attempts to connect in a row that were refused, since nothing listens.
#[derive(Debug, Default)]
pub(crate) struct RefusedConnects {
    /// When the first one was refused.
    since: Option<Instant>,
    /// Whether the last one was refused when the patience had ended.
    are_final: bool,
}

impl RefusedConnects {
    /// A connection was not made, or has ended.
    pub fn note(&mut self, is_refused: bool, now: Instant) {
        if !is_refused {
            *self = RefusedConnects::default();
            return;
        }
        let since = *self.since.get_or_insert(now);
        self.are_final = now.saturating_duration_since(since) >= PATIENCE;
    }

    /// Whether each attempt was refused until the patience ended, and one since.
    pub fn are_final(&self) -> bool {
        self.are_final
    }

    /// This pause, or a shorter one, so that the last attempt comes as the patience ends.
    pub fn shorten(&self, pause: Duration, now: Instant) -> Duration {
        let ends = self.since.map(|since| since + PATIENCE);
        ends.map_or(pause, |ends| pause.min(ends.saturating_duration_since(now)))
    }
}

#[cfg(test)]
mod tests {
    use super::*;

    #[test]
    fn the_address_is_tried_once_more_when_the_patience_ends() {
        let start = Instant::now();
        let mut refused = RefusedConnects::default();
        assert_eq!(refused.shorten(2 * PATIENCE, start), 2 * PATIENCE, "nothing was refused");
        refused.note(true, start);
        let almost = start + PATIENCE.saturating_sub(Duration::from_millis(1));
        refused.note(true, almost);
        assert!(!refused.are_final());
        assert_eq!(refused.shorten(PATIENCE, almost), Duration::from_millis(1));
        refused.note(true, start + PATIENCE);
        assert!(refused.are_final());
    }

    #[test]
    fn the_patience_begins_again_after_anything_else() {
        let start = Instant::now();
        let mut refused = RefusedConnects::default();
        refused.note(true, start);
        refused.note(false, start + PATIENCE);
        refused.note(true, start + PATIENCE);
        assert!(!refused.are_final());
        refused.note(true, start + 2 * PATIENCE);
        assert!(refused.are_final());
    }
}
