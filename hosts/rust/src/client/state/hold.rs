//! Taking a range part by part, and pinning what is taken.
use super::{Asked, Job, JobId, Reply, State};
use crate::model::code::Code;
use crate::model::lock::Mode;
use crate::model::row::Row;
use crate::proved::client_handle::Scan;
use std::ops::Range;
use std::time::Duration;

/// How long a client that waits for the rest of a range keeps what it has pinned of it after that
/// was called back. What it has waited for in vain may be kept by the one who has called back; so it
/// begins again, with twice the patience each time.
pub const PATIENCE: Duration = Duration::from_millis(500);

/// What a range is held for.
#[derive(Clone, Copy, Debug, PartialEq, Eq)]
pub enum Purpose {
    /// Others may read and pin the range too.
    Read,
    /// Others may read the range, and nobody else may change it next.
    Update,
    /// Nobody else has anything of the range, so a write in it asks for no lock.
    Write,
}

/// Whether the range that is taken is all that its caller waits for.
#[derive(Clone, Copy, Debug, PartialEq, Eq)]
enum Extent {
    Whole,
    /// Others follow, at other servers.
    Part,
}

/// The rows of a range that is held, and its pin.
#[derive(Debug, PartialEq, Eq)]
pub struct Held {
    /// The rows.
    pub rows: Vec<Row>,
    /// The name of the pin.
    pub pin: u64,
}

/// A range that is taken in ascending order.
///
/// Only the part that is held is pinned, and it grows in the same step in which a grant comes. So
/// whoever waits for a point has nothing pinned there or above it, and no two that take a range wait
/// for one another. One that has a range and writes there may wait for a point below others that it
/// has: to such a one the part gives way.
#[derive(Debug)]
pub(super) struct Taking {
    keys: Range<u64>,
    purpose: Purpose,
    extent: Extent,
    /// How long the part that is pinned stays after it was called back.
    patience: Duration,
    /// All points of the range below this one are held and pinned.
    next: u64,
    pin: Option<u64>,
    /// Where the last lock that was asked for begins, until its grant was looked at.
    asked: Option<u64>,
}

impl Taking {
    /// The same, of which nothing is held and nothing is pinned.
    pub(super) fn begun_again(self) -> Taking {
        Taking { next: self.keys.start, pin: None, asked: None, ..self }
    }

    /// The part that was pinned has given way: the range is taken from its start again.
    fn begin_again(&mut self) {
        (self.next, self.pin, self.asked) = (self.keys.start, None, None);
        self.patience = self.patience.saturating_mul(2);
    }

    /// Whether a point of this slot lies in the range.
    pub(super) fn meets(&self, slot: &Range<u64>) -> bool {
        self.keys.start < slot.end && slot.start < self.keys.end
    }
}

impl State {
    /// The rows of a range that is not empty, and a pin of it.
    pub fn hold(&mut self, keys: Range<u64>, purpose: Purpose) -> Asked<Held> {
        self.begin_taking(keys, purpose, Extent::Whole, PATIENCE)
    }

    /// The same of a part of a range, of which others follow at other servers: the pin gives way so
    /// long after it was called back, until it is kept by [`State::keep_pin`].
    pub fn hold_part(
        &mut self,
        keys: Range<u64>,
        purpose: Purpose,
        patience: Duration,
    ) -> Asked<Held> {
        self.begin_taking(keys, purpose, Extent::Part, patience)
    }

    fn begin_taking(
        &mut self,
        keys: Range<u64>,
        purpose: Purpose,
        extent: Extent,
        patience: Duration,
    ) -> Asked<Held> {
        let (next, pin, asked) = (keys.start, None, None);
        let taking = Taking { keys, purpose, extent, patience, next, pin, asked };
        self.add(|reply| Job::Hold(taking, reply))
    }

    pub(super) fn advance_hold(
        &mut self,
        id: JobId,
        mut taking: Taking,
        reply: Reply<Held>,
    ) -> Option<Job> {
        if taking.pin.is_some_and(|pin| !self.held.pins.has(pin)) {
            self.held.takings.ends(id);
            taking.begin_again();
        }
        self.held.takings.begins(id, taking.keys.end);
        let held = self.try_hold(id, &mut taking);
        match &held {
            Ok(None) => {}
            // The pin is the caller's now.
            Ok(Some(Held { pin, .. })) => {
                self.held.takings.ends(id);
                if taking.extent == Extent::Whole {
                    self.keep_pin(*pin);
                }
            }
            Err(_) => self.give_up(id, &taking),
        }
        reply.give(held).map(|reply| Job::Hold(taking, reply))
    }

    /// Frees what is pinned of a range that nobody waits for.
    pub(super) fn give_up(&mut self, id: JobId, taking: &Taking) {
        self.held.takings.ends(id);
        if let Some(pin) = taking.pin {
            self.unpin(pin);
        }
    }

    /// Pins what is held by now, and asks for what comes next.
    fn try_hold(&mut self, id: JobId, taking: &mut Taking) -> Result<Option<Held>, Code> {
        let is_granted = self.has_asked(id) && self.client.status()?.is_granted;
        // A grant is looked at once: a callback may come after it.
        let granted = if is_granted { taking.asked.take() } else { None };
        let mut rows = Vec::new();
        let known = match self.client.scan(&taking.keys, &mut rows, self.now)? {
            Scan::Rows => taking.keys.end,
            Scan::Miss(point) => point,
            Scan::Pending | Scan::Ended => return Ok(None),
        };
        let held = match taking.purpose {
            Purpose::Read => known,
            Purpose::Update | Purpose::Write => self.held_to_change(taking, known, granted)?,
        };
        self.pin_to(id, taking, held)?;
        if let Some(pin) = taking.pin
            && known == taking.keys.end
            && taking.next == taking.keys.end
        {
            return Ok(Some(Held { rows, pin }));
        }
        if self.ask_for_more(id, held..taking.keys.end, taking.purpose)? {
            taking.asked = Some(held);
        }
        Ok(None)
    }

    /// How far the range is held to change it, below the first point that is not known.
    ///
    /// The client shows what it holds of an entry, and so of each row. What it holds of the slot
    /// after the last row shows only by a grant that begins after that row.
    fn held_to_change(
        &mut self,
        taking: &Taking,
        known: u64,
        granted: Option<u64>,
    ) -> Result<u64, Code> {
        if known <= taking.next {
            return Ok(taking.next);
        }
        let mut rows = Vec::new();
        let Scan::Rows = self.client.scan(&(taking.next..known), &mut rows, self.now)? else {
            return Ok(taking.next);
        };
        let mut held = taking.next;
        for row in &rows {
            let is_held = match taking.purpose {
                Purpose::Write => self.client.has_all(row.key),
                Purpose::Read | Purpose::Update => self.client.may_update(row.key),
            };
            if !is_held {
                return Ok(held);
            }
            held = row.key + 1;
        }
        let is_end_held = granted == Some(held) && known == taking.keys.end;
        Ok(if is_end_held { taking.keys.end } else { held })
    }

    fn ask_for_more(
        &mut self,
        id: JobId,
        points: Range<u64>,
        purpose: Purpose,
    ) -> Result<bool, Code> {
        match purpose {
            Purpose::Read => self.ask_to_read(id, points),
            Purpose::Update => self.ask_to_change(id, points, Mode::RangeSU),
            Purpose::Write => self.ask_to_change(id, points, Mode::RangeXX),
        }
    }

    /// Pins the range below this point.
    fn pin_to(&mut self, id: JobId, taking: &mut Taking, end: u64) -> Result<(), Code> {
        // Who has the whole range waits for nothing more.
        let is_whole = end == taking.keys.end;
        if end <= taking.next || !is_whole && !self.may_keep(id, end) {
            return Ok(());
        }
        let points = taking.keys.start..end;
        self.held.takings.keeps(id, &points);
        let wider = self.add_pin_that_gives_way(points, taking.patience)?;
        taking.next = end;
        if let Some(narrower) = taking.pin.replace(wider) {
            // What was called back of it, the wider one remembers.
            self.unpin(narrower);
        }
        Ok(())
    }
}

#[cfg(test)]
mod tests;
