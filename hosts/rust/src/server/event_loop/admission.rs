//! Requests for locks that are kept for a moment while many wait.
//!
//! After each message that acts and is not a release, the library calls back every client that
//! keeps another one waiting. So the cost of a message is the number of requests that wait, times the
//! number of clients that block each of them. Where many clients write what many read, requests
//! would come faster than they are granted, and the server would do little else than to call back.
//!
//! So while several requests wait that came lately, others are kept, and taken in the order in which
//! they came. A request that has waited for long does not count: it may wait for a pin, whose holder
//! may wait for a request that is kept. So none is kept for long: after each such time the next ones
//! are taken in any case. To the library, a request that is kept is a message that comes later.
use super::EventLoop;
use crate::lease::clocks::Now;
use crate::server::error::ServeError;
use crate::wire::message::{Kind, Message};
use std::collections::VecDeque;
use std::time::{Duration, Instant};

/// How many recent requests may wait before others are kept.
pub(super) const MAX_RECENT_REQUESTS: usize = 8;

/// How long a request counts as one that came lately.
pub(super) const LATELY: Duration = Duration::from_millis(50);

/// The requests that are kept, in the order in which they came: one of each client at most.
#[derive(Debug, Default)]
pub(super) struct KeptRequests(VecDeque<KeptRequest>);

/// A request that is kept.
#[derive(Debug)]
struct KeptRequest {
    connection: u64,
    client: u8,
    message: Vec<u8>,
}

impl KeptRequests {
    /// Keeps a request. One that its client repeats stays in its place.
    fn keep(&mut self, connection: u64, client: u8, message: &[u8]) {
        let message = message.to_vec();
        match self.0.iter_mut().find(|kept| kept.client == client) {
            Some(kept) => (kept.connection, kept.message) = (connection, message),
            None => self.0.push_back(KeptRequest { connection, client, message }),
        }
    }
}

impl EventLoop {
    /// Keeps a message that came on a connection, if it is a new request for a lock and has to wait.
    /// Returns whether it has.
    pub(super) fn keeps(&mut self, connection: u64, message: Message<'_>, now: Now) -> bool {
        let Some(client) = message.client().filter(|_| message.kind() == Kind::Lock) else {
            return false;
        };
        let has_to_wait = self.requests.is_new(client, message)
            && self.connections.is_routed(client, connection)
            && (self.keeps_some() || self.do_many_wait(now.monotonic));
        if has_to_wait {
            self.kept_requests.keep(connection, client, message.bytes());
        }
        has_to_wait
    }

    /// Takes requests that were kept, until many wait again. Returns whether there were any. A
    /// request of an earlier connection of its client is lost.
    pub(super) fn take_kept(&mut self, now: Now) -> Result<bool, ServeError> {
        let mut is_any = false;
        while let Some(request) = self.next_kept(now.monotonic) {
            let KeptRequest { connection, client, message } = request;
            if self.connections.is_routed(client, connection) {
                self.take_message(connection, Message::read(&message), now)?;
            }
            is_any = true;
        }
        Ok(is_any)
    }

    fn next_kept(&mut self, now: Instant) -> Option<KeptRequest> {
        let may_be_taken = self.keeps_some() && !self.do_many_wait(now);
        if may_be_taken { self.kept_requests.0.pop_front() } else { None }
    }

    fn keeps_some(&self) -> bool {
        !self.kept_requests.0.is_empty()
    }

    /// Whether enough recent requests wait for new ones to be kept.
    fn do_many_wait(&self, now: Instant) -> bool {
        self.requests.count_waiting(now, LATELY) >= MAX_RECENT_REQUESTS
    }

    /// How soon after this moment a request that is kept may be taken without a message that comes,
    /// if one is kept.
    pub(super) fn takes_kept_in(&self, now: Instant) -> Option<Duration> {
        let soon = || self.requests.youth_left(now, LATELY).filter(|_| self.do_many_wait(now));
        self.keeps_some().then(|| soon().unwrap_or_default())
    }
}

#[cfg(test)]
mod tests {
    use super::*;

    #[test]
    fn a_request_that_is_repeated_stays_in_its_place() {
        let mut kept = KeptRequests::default();
        kept.keep(10, 1, b"one");
        kept.keep(20, 2, b"two");
        kept.keep(11, 1, b"one again");
        let kept = kept.0.into_iter().map(|it| (it.connection, it.client, it.message));
        let expected = [(11, 1, b"one again".to_vec()), (20, 2, b"two".to_vec())];
        assert_eq!(kept.collect::<Vec<_>>(), expected);
    }
}
