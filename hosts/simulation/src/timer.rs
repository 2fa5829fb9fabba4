//! When something is due, with one event in the queue for it.
use std::time::Duration;

/// When a process continues by itself. Putting it off leaves the event in the queue: that event
/// finds out.
#[derive(Clone, Copy, Debug)]
pub struct Timer {
    due: Duration,
    /// The moment of the event that counts.
    armed: Duration,
}

/// What an event of a timer finds.
#[derive(Clone, Copy, Debug, PartialEq, Eq)]
pub enum Fired {
    /// Another event counts.
    Stale,
    /// It was put off, and another event is needed.
    Later(Duration),
    /// It is due.
    Due,
}

impl Timer {
    /// Nothing is due.
    pub const IDLE: Timer = Timer { due: Duration::MAX, armed: Duration::MAX };

    /// When it is due.
    #[must_use]
    pub fn due(&self) -> Duration {
        self.due
    }

    /// It is due at this moment. Returns whether an event at that is needed.
    pub fn set(&mut self, due: Duration) -> bool {
        self.due = due;
        let is_sooner = due < self.armed;
        if is_sooner {
            self.armed = due;
        }
        is_sooner
    }

    /// The event for this moment has come.
    pub fn fires(&mut self, armed: Duration, now: Duration) -> Fired {
        if armed != self.armed {
            return Fired::Stale;
        }
        self.armed = Duration::MAX;
        if now < self.due {
            self.armed = self.due;
            return Fired::Later(self.due);
        }
        Fired::Due
    }
}

#[cfg(test)]
mod tests {
    use super::*;

    #[test]
    fn a_timer_has_one_event_that_counts() {
        let at = Duration::from_millis;
        let mut timer = Timer::IDLE;
        assert!(timer.set(at(20)) && !timer.set(at(30)) && timer.set(at(10)));
        assert_eq!(timer.fires(at(20), at(20)), Fired::Stale);
        assert_eq!(timer.fires(at(10), at(10)), Fired::Due);
        assert!(timer.set(at(40)) && !timer.set(at(50)));
        assert_eq!(timer.fires(at(40), at(40)), Fired::Later(at(50)));
        assert_eq!(timer.fires(at(50), at(50)), Fired::Due);
        assert_eq!(timer.fires(at(50), at(50)), Fired::Stale);
    }
}
