//! Whether a server still answers on a connection, or the client has to make another one.
use std::time::{Duration, Instant};

/// How long a server may be silent.
#[derive(Clone, Copy, Debug, PartialEq, Eq)]
struct Patience {
    /// After so long it is asked.
    ask: Duration,
    /// After so long it is left, though it was asked.
    leave: Duration,
}

/// There are other servers, and one of them may serve.
const AMONG_SEVERAL: Patience =
    Patience { ask: Duration::from_millis(250), leave: Duration::from_secs(1) };

/// There is one address, which is often that of a proxy or of an address translator: it may have
/// lost the connection, and take another one. A server that is only slow loses nothing by it.
const ALONE: Patience = Patience { ask: Duration::from_secs(1), leave: Duration::from_secs(5) };

/// What to do about a server that is silent.
#[derive(Clone, Copy, Debug, PartialEq, Eq)]
pub(crate) enum Silent {
    No,
    /// It is to be asked.
    Ask,
    /// It has not answered.
    Leave,
}

/// How long a server has been silent on one connection.
#[derive(Clone, Copy, Debug)]
pub(crate) struct Silence {
    patience: Patience,
    last_received: Instant,
    asked: Instant,
}

impl Silence {
    /// A new connection to one of this many servers, which begins with a question: each server
    /// answers it, or ends the connection.
    pub fn new(now: Instant, servers: usize) -> Silence {
        let patience = if servers > 1 { AMONG_SEVERAL } else { ALONE };
        Silence { patience, last_received: now, asked: now }
    }

    /// Something came.
    pub fn note_received(&mut self, now: Instant) {
        self.last_received = now;
    }

    pub fn look(&mut self, now: Instant) -> Silent {
        let Patience { ask, leave } = self.patience;
        let silent = now.saturating_duration_since(self.last_received);
        if silent >= leave {
            Silent::Leave
        } else if silent >= ask && now.saturating_duration_since(self.asked) >= ask {
            self.asked = now;
            Silent::Ask
        } else {
            Silent::No
        }
    }
}

#[cfg(test)]
mod tests {
    use super::*;

    #[test]
    fn a_silent_server_is_asked_and_then_left() {
        let start = Instant::now();
        let at = |milliseconds| start + Duration::from_millis(milliseconds);
        let mut silence = Silence::new(start, 2);
        silence.note_received(at(5000));
        assert_eq!(silence.look(at(5249)), Silent::No);
        assert_eq!(silence.look(at(5250)), Silent::Ask);
        assert_eq!(silence.look(at(5300)), Silent::No, "it has just been asked");
        assert_eq!(silence.look(at(5500)), Silent::Ask);
        silence.note_received(at(5600));
        assert_eq!(silence.look(at(5700)), Silent::No);
        assert_eq!(silence.look(at(6600)), Silent::Leave);
    }

    #[test]
    fn the_only_server_is_given_more_time() {
        let start = Instant::now();
        let at = |milliseconds| start + Duration::from_millis(milliseconds);
        let mut silence = Silence::new(start, 1);
        assert_eq!(silence.look(at(999)), Silent::No);
        assert_eq!(silence.look(at(1000)), Silent::Ask);
        assert_eq!(silence.look(at(4999)), Silent::Ask);
        assert_eq!(silence.look(at(5000)), Silent::Leave);
    }
}
