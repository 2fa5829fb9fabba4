//! What a client gives back before it asks for more of a slot, so that it does not overtake clients
//! that wait.
//!
//! A server puts a request in front of the others if its client already holds something of the
//! slot. The request of a client that holds nothing goes to the end of the queue.
//!
//! A client that reads a slot and then asks to change it would overtake the client that has the
//! slot pinned for an update and asks for X. It would wait for that pin, and the other client would
//! wait after it, until one of the two calls times out. With nothing held, the client that has the
//! update mode writes first.
//!
//! A client that was called back from a gap keeps the entry at its end. Two clients that read the
//! gap again would overtake the one that waits to insert there, each while the other one still
//! reads: at any time one of them reads the gap, and nobody ever inserts. With nothing held, each
//! of them reads the gap again after the insert.
mod reach;

use crate::client::state::request::Request;
use crate::client::state::{JobId, State, is_taken};
use crate::model::code::Code;
use crate::model::lock::Mode;
use crate::model::row::{END, Row};
use crate::proved::client_handle::{Scan, Shown};
use reach::{TooFar, farthest};
use std::ops::Range;

/// This many rows are looked at to find where a gap ends.
const ROWS_AROUND_GAP: usize = 64;

/// A slot that the client reads, and of which another client may have more or wait for more.
#[derive(Clone, Debug, PartialEq, Eq)]
struct OnlyRead {
    span: Range<u64>,
    has_gap: bool,
}

impl OnlyRead {
    /// The mode that the client would have after the grant if it kept what it reads: it continues
    /// to read it.
    fn joined_with(&self, mode: Mode) -> Mode {
        match mode {
            Mode::X if self.has_gap => Mode::RangeXX,
            Mode::RangeIN if self.has_gap => Mode::RangeXS,
            Mode::RangeIN => Mode::RangeIS,
            mode => mode,
        }
    }
}

impl State {
    /// Asks for a lock with which the client may change something, now or later, if it may ask just
    /// now. Returns whether it has. What the client only reads of the first slot it gives back
    /// before, unless it is pinned: the release and the request leave together.
    pub(in crate::client::state) fn ask_to_change(
        &mut self,
        id: JobId,
        points: Range<u64>,
        mode: Mode,
    ) -> Result<bool, Code> {
        if !self.may_ask(id, points.start) {
            return Ok(false);
        }
        let read = self.yields_before_change(points.start, mode);
        self.ask(id, points, mode, read)
    }

    /// Asks for a lock with which the client reads, if it may ask just now. Returns whether it has.
    /// What a callback left of the first slot it gives back before, as above.
    pub(in crate::client::state) fn ask_to_read(
        &mut self,
        id: JobId,
        points: Range<u64>,
    ) -> Result<bool, Code> {
        if !self.may_ask(id, points.start) {
            return Ok(false);
        }
        let left = self.yields_before_read(points.start);
        self.ask(id, points, Mode::RangeSS, left)
    }

    fn ask(
        &mut self,
        by: JobId,
        points: Range<u64>,
        mode: Mode,
        read: Option<OnlyRead>,
    ) -> Result<bool, Code> {
        let (mode, yielded) = match read {
            None => (mode, None),
            // The server passes over a release that leaves while a push is on its way.
            Some(_) if self.shows(Shown::awaits_a_push) => return Ok(false),
            Some(read) => match self.try_forget(&read.span) {
                Ok(true) => (read.joined_with(mode), Some(read.span)),
                Err(Code::Pinned) => (mode, None),
                not_given_back => return not_given_back,
            },
        };
        let has_asked = is_taken(self.client.lock(points.clone(), mode))?;
        if has_asked {
            self.held.request = Some(Request { by, points, yielded });
        }
        Ok(has_asked)
    }

    /// Gives back again what the client gave back before the request that waits. A connection that
    /// has ended may have lost the release, and the request is sent again on the next one.
    pub(in crate::client::state) fn yield_again(&mut self) {
        if let Some(Request { yielded: Some(span), .. }) = &self.held.request
            && self.shows(|shown| shown.is_waiting)
        {
            // Who has pinned there meanwhile waits where the request stands.
            let _ = self.client.forget(span);
        }
    }

    /// The slot of this point, if the client reads there and has no greater mode.
    fn yields_before_change(&self, point: u64, mode: Mode) -> Option<OnlyRead> {
        let is_entry_read = self.client.reads_entry(point);
        // There is no entry to lock: the server answers so at once, wherever the request stands.
        if mode == Mode::X && !is_entry_read {
            return None;
        }
        if self.client.reads_gap(point) {
            return self.slot_with_gap(point);
        }
        let is_alone = || OnlyRead { span: point..point + 1, has_gap: false };
        self.yields_before_read(point).or_else(|| is_entry_read.then(is_alone))
    }

    /// The slot of this point, if a callback left the client only its entry. Another client may
    /// still wait for the gap.
    fn yields_before_read(&self, point: u64) -> Option<OnlyRead> {
        let slot = self.held.callbacks.narrowed_slot(point)?;
        if !self.client.reads_only_entry(slot) {
            return None;
        }
        // The slot has become smaller since, if the client holds the point before.
        let is_smaller = slot.start < point && self.client.holds(point - 1);
        let start = if is_smaller { point } else { slot.start };
        Some(OnlyRead { span: start..slot.end, has_gap: false })
    }

    /// What the client knows of the slot of this point in a gap that it reads.
    fn slot_with_gap(&self, point: u64) -> Option<OnlyRead> {
        let mut rows = Vec::with_capacity(ROWS_AROUND_GAP);
        let below = farthest(point, |length| {
            let nearest = self.known_rows(&(point - length..point), &mut rows)?;
            Ok(nearest.last().map(|row| point - row.key - 1))
        });
        let above = farthest(END - point, |length| {
            let nearest = self.known_rows(&(point..point + length), &mut rows)?;
            Ok(nearest.first().map(|row| row.key - point))
        });
        let entry = point + above;
        if self.client.may_update(entry) {
            return None;
        }
        let is_entry_read = self.client.reads_gap(entry) || self.client.reads_entry(entry);
        Some(OnlyRead { span: point - below..entry + u64::from(is_entry_read), has_gap: true })
    }

    /// The rows of these keys, if the client knows all of them and they are few.
    fn known_rows<'r>(
        &self,
        keys: &Range<u64>,
        rows: &'r mut Vec<Row>,
    ) -> Result<&'r [Row], TooFar> {
        match self.client.known(keys, rows) {
            Ok(Scan::Rows) => Ok(rows),
            _ => Err(TooFar),
        }
    }
}

#[cfg(test)]
mod tests;
