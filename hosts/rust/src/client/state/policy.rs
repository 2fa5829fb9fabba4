//! What a client keeps, gives back, shares, waits for and acknowledges. Each rule is a function whose
//! name is its question. Only how long calls take depends on the answers: what a client may answer
//! is decided by the library of the rules. They are asked in this order:
//!
//! | When | Question | File |
//! | --- | --- | --- |
//! | a job lacks a lock | `may_ask`: is it this job's turn to ask, and does no other job wait for it? | `takings` |
//! | .. to read | `reads_without_lock`: does the server's host send the rows, which are not kept? | `unkept` |
//! | .. to read | `yields_before_read`: what does it give back first, so that it overtakes nobody? | `yielding` |
//! | .. to write | `may_take`: does the write take its lock by itself? | `contended` |
//! | .. to write | `yields_before_change`: what does it give back first? | `yielding` |
//! | it has a part of what it needs | `may_keep`: does it keep that while it waits for the rest? | `takings` |
//! | a job has read | `keeps`: does the client keep what it has read there, or give it back? | `keeping` |
//! | its write was answered | `gives_back_after_write`: does it give back all of the row? | `keeping` |
//! | .. | `shares_after_write`: does it give back what keeps others from reading it? | `sharing` |
//! | a push has come | `acknowledges_later`: can the next message acknowledge it? | `acknowledging` |
//! | a callback has come | what is noted of it, by which the others decide | `callbacks` |
//!
//! `docs/maintainers/INTERNALS.md` has what each saves, and what switches it off.
pub mod acknowledging;
pub mod callbacks;
pub mod contended;
pub mod keeping;
pub mod sharing;
pub mod takings;
pub mod unkept;
pub mod yielding;

use super::{Job, State};
use crate::model::lock::Mode;
use crate::proved::client_handle::Shown;
use std::ops::Range;

impl State {
    /// A write was answered, and the answer names this slot: the client gives it back if it does not
    /// keep it, and shares it if others want it. What a pin keeps is not given back, nor is anything
    /// if there is no memory for it: whoever wants it has it called back then.
    fn end_of_write(&mut self, slot: &Range<u64>) {
        if !self.may_lower_after_write(slot)
            || self.gives_back_after_write(slot) && self.try_forget(slot) == Ok(true)
        {
            return;
        }
        if self.shares_after_write(slot) {
            let _ = self.client.lower(slot, Mode::RangeSU);
        }
    }

    /// Whether the client has just written the row of this slot, and needs no more of it than
    /// others may have.
    fn may_lower_after_write(&self, slot: &Range<u64>) -> bool {
        // The server passes over a release that leaves while a push is on its way.
        self.has_just_written()
            && !self.shows(Shown::awaits_a_push)
            && self.client.may_change(entry_of(slot))
            && !self.open.iter().any(|(_, job)| job.changes(slot))
    }
}

impl Job {
    /// Whether the job changes something of this slot, or pins something there.
    fn changes(&self, slot: &Range<u64>) -> bool {
        match self {
            Job::Write(wanted, _) => slot.contains(&wanted.write.key()),
            Job::Hold(taking, _) => taking.meets(slot),
            _ => false,
        }
    }
}

/// The point at which the row of a slot lies.
fn entry_of(slot: &Range<u64>) -> u64 {
    // No slot is empty, and a message may still say so.
    slot.end.saturating_sub(1)
}
