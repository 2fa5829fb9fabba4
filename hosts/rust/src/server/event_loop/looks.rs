//! What a server's loop looks up for others: who waits, and who holds what.
use super::EventLoop;
use crate::lease::clocks::Now;
use crate::model::change::{Change, Outcome, Write};
use crate::model::lock::HeldSlot;
use crate::server::lock_search::{Page, Search};
use std::time::{Duration, Instant};

/// How long a turn counts what clients hold.
const COUNTS: Duration = Duration::from_millis(2);

/// Counting takes one part in this many of the loop's time: to count one client takes as long as to
/// go through the whole table.
const COUNT_SHARE: u32 = 20;

impl EventLoop {
    /// Who holds and who waits: a page of what is searched, or less if it is late.
    pub fn look_up(&mut self, mut search: Search, now: Now, is_late: impl FnMut() -> bool) -> Page {
        self.look_at_waits(now);
        let held = search.page(|client, from| self.next_held(client, from), is_late);
        Page { held, waits: self.status.waits.clone(), rest: search, took: Duration::ZERO }
    }

    /// A client that was counted to hold nothing, has not registered, or has left: the table is not
    /// searched for it.
    fn next_held(&mut self, client: u8, from: u64) -> Option<HeldSlot> {
        if !self.watch.may_hold(client) {
            return None;
        }
        match self.server.record(client) {
            Ok(Some(record)) if !record.left => self.server.next_held(client, from),
            _ => None,
        }
    }

    /// Sees which clients wait for which.
    pub(super) fn look_at_waits(&mut self, now: Now) {
        if let Ok(waiting) = self.server.waiting() {
            self.status.waits = self.watch.waits(waiting, now.monotonic);
        }
    }

    /// Counts how much the clients hold for which that may have changed: for one at least, and for
    /// more as long as that takes little time.
    pub(super) fn count_held(&mut self, now: impl Fn() -> Instant) {
        let began = now();
        if self.counts_from.is_some_and(|from| began < from) {
            return;
        }
        while self.count_next() && now() - began < COUNTS {}
        let ended = now();
        self.counts_from = Some(ended + (ended - began) * (COUNT_SHARE - 1));
    }

    /// Counts how much one client holds, of those for which that may have changed. Returns whether
    /// there was one.
    pub(super) fn count_next(&mut self) -> bool {
        let Some(client) = self.watch.next_to_count() else { return false };
        if let Ok(slots) = self.server.held(client) {
            self.watch.counted(client, slots);
        }
        self.status.holdings = self.watch.holdings().to_vec();
        true
    }

    /// Sees which clients have joined or left by these changes: what they held is no longer shown.
    pub(super) fn see_members(&mut self, changes: &[Change]) {
        for change in changes {
            match *change {
                Change::Registered { client, .. } => self.watch.joined(client),
                Change::Left { client } => {
                    self.watch.left(client);
                    self.requests.left(client);
                }
                Change::Judged {
                    write: Write::Insert(_) | Write::Delete(_),
                    outcome: Outcome::Applied,
                    ..
                } => {
                    self.watch.slots_change();
                    continue;
                }
                _ => continue,
            }
            self.status.holdings = self.watch.holdings().to_vec();
        }
    }
}
