//! What a process does just now: it starts, stands by, or serves.
use krl::operate::Liveness;
use krl::operate::Monitor;
use std::fmt;
use std::io;
use std::sync::{Arc, Mutex, MutexGuard, PoisonError};
use std::thread;
use std::time::{Duration, SystemTime, UNIX_EPOCH};

/// What the process does, as its status port shows it.
#[derive(Clone, Debug, Default)]
pub struct Role(Arc<Mutex<State>>);

/// What the process does.
#[derive(Clone, Debug, Default)]
pub enum State {
    /// It has neither served nor found who does.
    #[default]
    Starts,
    /// Another server serves, which clients reach at this address.
    StandsBy { leader: String },
    /// It serves.
    Serves { monitor: Monitor, since: SystemTime },
}

impl Role {
    pub fn state(&self) -> State {
        self.lock().clone()
    }

    pub fn serves(&self, monitor: Monitor) {
        *self.lock() = State::Serves { monitor, since: SystemTime::now() };
    }

    /// Another server serves. Returns whether that is news.
    pub fn stands_by(&self, leader: &str) -> bool {
        let mut state = self.lock();
        let is_known = matches!(&*state, State::StandsBy { leader: known } if known == leader);
        *state = State::StandsBy { leader: leader.to_string() };
        !is_known
    }

    /// It no longer serves, and does not know who does.
    pub fn ends(&self) {
        *self.lock() = State::Starts;
    }

    /// Has a thread of its own look at the state again and again, with this pause after each look.
    pub fn watch(
        self,
        name: &str,
        pause: Duration,
        mut look: impl FnMut(State) + Send + 'static,
    ) -> io::Result<()> {
        let looks = move || {
            loop {
                look(self.state());
                thread::sleep(pause);
            }
        };
        thread::Builder::new().name(name.to_string()).spawn(looks)?;
        Ok(())
    }

    fn lock(&self) -> MutexGuard<'_, State> {
        self.0.lock().unwrap_or_else(PoisonError::into_inner)
    }
}

impl State {
    /// The word for it.
    pub fn word(&self) -> &'static str {
        match self {
            State::Starts => "starts",
            State::StandsBy { .. } => "stands by",
            State::Serves { .. } => "serves",
        }
    }

    /// Whether the server's loop continues, if it serves.
    pub fn liveness(&self) -> Option<Liveness> {
        let State::Serves { monitor, .. } = self else { return None };
        Some(monitor.liveness())
    }

    /// Since when it serves, in seconds since 1970.
    pub fn since(&self) -> Option<u64> {
        let State::Serves { since, .. } = self else { return None };
        since.duration_since(UNIX_EPOCH).ok().map(|since| since.as_secs())
    }
}

impl fmt::Display for State {
    fn fmt(&self, f: &mut fmt::Formatter<'_>) -> fmt::Result {
        match self {
            State::Starts => f.write_str("starts: it looks which server serves"),
            State::StandsBy { leader } => write!(f, "stands by: the server at {leader} serves"),
            State::Serves { .. } => f.write_str("serves"),
        }
    }
}

#[cfg(test)]
mod tests {
    use super::*;

    #[test]
    fn who_serves_is_news_once() {
        let role = Role::default();
        assert_eq!(role.state().word(), "starts");
        assert!(role.stands_by("10.0.0.1:7400") && !role.stands_by("10.0.0.1:7400"));
        assert!(role.stands_by("10.0.0.2:7400"));
        assert_eq!(role.state().to_string(), "stands by: the server at 10.0.0.2:7400 serves");
        assert_eq!(role.state().since(), None);
        role.ends();
        assert!(role.stands_by("10.0.0.2:7400"));
    }
}
