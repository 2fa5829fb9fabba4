//! How long a client may answer from its cache, by the clock of its machine. The rule is the
//! library's; what is sent to the server, and when, is decided here.
use crate::ffi;
use crate::lease::boot_clock::Moment;
use crate::lease::terms::{FOR_EVER, Grant, Older, Sign};
use std::io;
use std::sync::Arc;
use std::sync::atomic::{AtomicU64, Ordering};
use std::time::Duration;

/// A sign goes with messages that leave anyway if the last one is older than the first of these
/// parts of the lease, and by itself if it is older than the second.
const ON_MESSAGES: u64 = 6;
const ALONE: u64 = 3;

/// Whether a sign goes with messages that leave anyway.
#[derive(Clone, Copy, Debug, PartialEq, Eq)]
pub(crate) enum Piggyback {
    OnMessages,
    Alone,
}

/// The end of a client's lease, for the threads that read its cache. They take no lock for it, and need
/// no order: it only rises, and the end that a thread finds inside the gate is no older than what it
/// finds of the cache (`tests/weak_memory`).
#[derive(Debug)]
pub(crate) struct End(AtomicU64);

impl End {
    /// That of no lease: what a client learns for its own use needs none.
    pub fn of_no_lease() -> End {
        End(AtomicU64::new(FOR_EVER))
    }

    /// What a scan of the cache found, if it may be handed over.
    pub fn answer(
        &self,
        mut scan: ffi::LeasedScan,
        clock: impl FnOnce() -> io::Result<Moment>,
    ) -> ffi::Reply {
        let now = self.moment(clock);
        ffi::krl_leased_scan_answer(&mut scan, &self.read(), now)
    }

    /// Whether what else was learned from the cache may be handed over. It has to be asked
    /// **after** that.
    pub fn allows(&self, clock: impl FnOnce() -> io::Result<Moment>) -> bool {
        let now = self.moment(clock);
        ffi::krl_lease_holds(&self.read(), now)
    }

    /// The moment at which the lease has to hold: at none if the clock can't be read. A lease that
    /// does not end needs no clock.
    ///
    /// The clock is read before the end: terms that come between the two were taken by a lease that
    /// held then, so it held when the clock was read.
    fn moment(&self, clock: impl FnOnce() -> io::Result<Moment>) -> u64 {
        if self.read().end == FOR_EVER {
            return 0;
        }
        clock().map_or(FOR_EVER, Moment::nanoseconds)
    }

    fn read(&self) -> ffi::Lease {
        ffi::Lease { end: self.0.load(Ordering::Acquire), length: 0, stamp: 0 }
    }

    fn set(&self, end: u64) {
        self.0.store(end, Ordering::Release);
    }
}

/// The lease of one incarnation of a client.
#[derive(Debug)]
pub(crate) struct Lease {
    client: u8,
    incarnation: u64,
    older: Older,
    /// As the library keeps it.
    state: ffi::Lease,
    end: Arc<End>,
    /// The first sign on this connection, if one was sent there.
    first: Option<Moment>,
    /// The last sign on any connection.
    last: Option<Moment>,
}

impl Lease {
    /// That of an incarnation without terms. It holds nothing: its host sends no Hello of the
    /// library before it has taken terms.
    pub fn new(client: u8, incarnation: u64, older: Older) -> Lease {
        let state = ffi::krl_lease_new();
        let end = Arc::new(End(AtomicU64::new(state.end)));
        Lease { client, incarnation, older, state, end, first: None, last: None }
    }

    /// Whose lease it is.
    pub fn incarnation(&self) -> u64 {
        self.incarnation
    }

    /// Its end, for threads that read the cache.
    pub fn end(&self) -> Arc<End> {
        Arc::clone(&self.end)
    }

    /// How often a sign is due if nothing else is sent, or `None` if the lease does not end.
    pub fn pace(&self) -> Option<Duration> {
        match self.state.length {
            0 | FOR_EVER => None,
            length => Some(Duration::from_nanos(length / ALONE)),
        }
    }

    /// How long the lease continues, or `None` if it does not end. One without terms has not begun.
    pub fn left(&self, now: Moment) -> Option<Duration> {
        match self.state {
            ffi::Lease { length: 0, .. } => Some(Duration::ZERO),
            ffi::Lease { end: FOR_EVER, .. } => None,
            ffi::Lease { end, .. } => {
                Some(Duration::from_nanos(Moment::of_nanoseconds(end).since(now)))
            }
        }
    }

    /// Whether the lease has not ended. After its end the host sends nothing more of this
    /// incarnation, and begins again under a greater one.
    #[cfg(test)]
    pub fn holds(&self, now: Moment) -> bool {
        ffi::krl_lease_holds(&self.state, now.nanoseconds())
    }

    /// The first sign on a new connection. What older connections answer no longer counts: each
    /// server has its own length. None if the clock has not advanced since the last sign.
    pub fn greet(&mut self, now: Moment) -> Option<Sign> {
        let sign = self.sign(now)?;
        self.first = Some(sign.stamp);
        Some(sign)
    }

    /// The greeting again, since it may be lost. The answer to the first one counts as before.
    pub fn greet_again(&mut self, now: Moment) -> Option<Sign> {
        self.sign(now)
    }

    /// The server of this connection answers no signs, and has no leases: an incarnation without
    /// terms lives by a lease that does not end. One that has had terms continues by those, since
    /// the server that granted them may evict it.
    pub fn go_without_terms(&mut self, now: Moment) {
        if self.state.length == 0 {
            let stamp = now.nanoseconds();
            ffi::krl_lease_take_terms(&mut self.state, stamp, FOR_EVER, stamp);
            self.end.set(self.state.end);
        }
    }

    /// The connection has ended. No terms count before the next one is greeted.
    pub fn disconnect(&mut self) {
        self.first = None;
    }

    /// A sign, if one is due.
    pub fn sign_due(&mut self, now: Moment, piggyback: Piggyback) -> Option<Sign> {
        if self.is_due(now, piggyback) { self.sign(now) } else { None }
    }

    /// Whether the last sign is old enough for another one. A lease that does not end needs none.
    fn is_due(&self, now: Moment, piggyback: Piggyback) -> bool {
        let part = match piggyback {
            Piggyback::OnMessages => ON_MESSAGES,
            Piggyback::Alone => ALONE,
        };
        match (self.state.length, self.last) {
            (0 | FOR_EVER, _) | (_, None) => false,
            (length, Some(last)) => now.since(last) >= length / part,
        }
    }

    /// No two signs have one stamp, and none a later one than the clock.
    fn sign(&mut self, now: Moment) -> Option<Sign> {
        if self.last.is_some_and(|last| now <= last) {
            return None;
        }
        self.last = Some(now);
        let &mut Lease { client, incarnation, older, state, .. } = self;
        Some(Sign { client, incarnation, stamp: now, length: state.length, older })
    }

    /// Takes terms, if they answer a sign of this incarnation on this connection. Returns
    /// whether they were taken: from then on the host may send Hello on this connection.
    pub fn take(&mut self, grant: Grant, now: Moment) -> bool {
        if !self.is_answer(grant) {
            return false;
        }
        let (before, stamp) = (self.state, grant.stamp.nanoseconds());
        ffi::krl_lease_take_terms(&mut self.state, stamp, grant.length, now.nanoseconds());
        self.end.set(self.state.end);
        self.state != before
    }

    /// Whether terms answer a sign that this incarnation sent on this connection.
    fn is_answer(&self, grant: Grant) -> bool {
        let is_of_this_connection = match (self.first, self.last) {
            (Some(first), Some(last)) => (first..=last).contains(&grant.stamp),
            _ => false,
        };
        grant.incarnation == self.incarnation && is_of_this_connection
    }
}

#[cfg(test)]
mod tests;
