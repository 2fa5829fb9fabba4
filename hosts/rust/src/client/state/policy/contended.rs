//! Where other clients are at work, so that a write asks for its lock there first.
//!
//! A client that holds nothing where it inserts or puts a row asks for a lock, which is one round
//! trip, and then writes, which is another one. A write may take its lock by itself instead, in one
//! round trip, if nobody waits there and no other client's lock forbids it. Otherwise it is judged
//! `NotHeld`, the round trip was made in vain, and the client asks for the lock after all. So a
//! write takes its lock only where nothing was called back recently, and a few writes take none
//! after one whose lock was not free.
//!
//! A client that the server has not answered yet asks for its lock first too. If it has no right to
//! rows, it learns that before it has sent a write, and knows that nothing was changed.
//!
//! Where the client keeps nothing, callbacks show only what was before: it is called back for
//! nothing there, and other clients that write so often keep nothing either.
use crate::client::state::bound::{Bond, Wanted};
use crate::client::state::{JobId, State};
use crate::model::change::Write;

/// If the lock of a write was not free, this many writes ask for theirs first: it is the first of
/// them.
const WRITES_THAT_ASK_FIRST: u8 = 8;

/// Whether writes try to take their locks, but for where others are at work.
#[derive(Debug, Default)]
pub struct Attempts {
    is_served: bool,
    /// This many writes do not.
    pause: u8,
}

impl Attempts {
    /// The server has answered something that the client asked.
    pub fn note_served(&mut self) {
        self.is_served = true;
    }

    /// The lock of a write was not free.
    pub fn note_not_free(&mut self) {
        self.pause = WRITES_THAT_ASK_FIRST;
    }

    /// Whether the next write tries to take its lock. If it does not, the pause is shorter by one.
    fn try_next(&mut self) -> bool {
        let is_over = self.pause == 0;
        self.pause = self.pause.saturating_sub(1);
        self.is_served && is_over
    }
}

impl State {
    /// Whether the write of this job, for which the client lacks the lock, takes it by itself: if
    /// the client might ask for that lock just now, and has nothing there that it would have to
    /// give back before. Where the client has a pin it holds something already.
    pub(in crate::client::state) fn may_take(&mut self, id: JobId, wanted: &Wanted) -> bool {
        let key = wanted.write.key();
        // A delete needs the locks of two slots, and takes neither.
        !matches!(wanted.write, Write::Delete(_))
            && wanted.bond == Bond::Free
            && self.may_ask(id, key)
            && !self.client.holds(key)
            && !self.is_contended(key)
            && self.attempts.try_next()
    }

    /// Whether other clients may hold what a write of this key needs.
    fn is_contended(&self, key: u64) -> bool {
        self.keeping.keeps(&(key..key + 1))
            && self.held.callbacks.show_contention(key, self.now.monotonic)
    }
}

#[cfg(test)]
mod tests;
