//! Writes: the locks that each needs, and how it was judged.
use super::batch::Report;
use super::bound::Wanted;
use super::{Job, JobId, State};
use crate::call::error::ErrorKind;
use crate::model::change::{Outcome, Write};
use crate::model::code::Code;
use crate::model::lock::Mode;
use crate::proved::client_handle::Scan;
use std::time::{Duration, Instant};

/// A delete keeps the slot of its row for so long, while it waits for the slot after it. Whoever
/// has that one gives it back within some round trips, unless it is pinned.
const KEEPS: Duration = Duration::from_millis(500);

/// The write that is on its way. A client has one at most.
pub(super) struct Written {
    pub id: JobId,
    wanted: Wanted,
    number: u64,
    report: Report,
    /// Something has left since the library's client has the write.
    may_have_left: bool,
}

impl Written {
    pub fn refuse(self, why: ErrorKind) {
        self.report.refuse(why);
    }

    /// The library's client that had the write is gone: one that has not left never will.
    pub fn end_with_its_client(self, why: ErrorKind) {
        let why = if self.may_have_left { why } else { why.of_unsent_write() };
        self.report.refuse(why);
    }

    /// The client ends, and its server has not answered. A write that has not left never will.
    pub fn end_unanswered(self) {
        let why = if self.may_have_left { ErrorKind::TimedOut } else { ErrorKind::Left };
        self.report.refuse(why);
    }

    pub fn note_left(&mut self) {
        self.may_have_left = true;
    }
}

/// The pin by which a delete keeps the slot of its row.
///
/// It needs that slot and the one after it. Without the pin, a client that reads both and a client
/// that deletes may take them from one another in turn, and neither ever has both. As slots are
/// taken in ascending order, no two clients that keep some wait for one another.
#[derive(Clone, Copy, Debug)]
pub(super) struct Kept {
    pin: u64,
    since: Instant,
}

/// How far a write has come.
enum Step {
    Sent(u64),
    Waits,
    Known(Outcome),
    Refused(ErrorKind),
}

impl State {
    /// Ends the job whose write was judged, before another write takes its place.
    pub(super) fn end_written(&mut self) {
        let Ok(shown) = self.client.status() else { return };
        let Some(outcome) = shown.outcome else { return };
        let judged = self.held.written.take_if(|written| written.number == shown.number);
        let Some(Written { id, wanted, report, .. }) = judged else { return };
        if outcome == Outcome::NotHeld {
            // The table was the server's to judge by: the client asks for what it lacks, and writes
            // again.
            self.attempts.note_not_free();
            let younger = self.open.iter().position(|(other, _)| *other > id);
            let place = younger.unwrap_or(self.open.len());
            self.open.insert(place, (id, Job::Write(wanted, report)));
        } else if let Some((next, report)) = self.next_write(&wanted, outcome, report) {
            // The writes of other jobs come in between.
            self.open.push((id, Job::Write(next, report)));
        }
    }

    /// Whether the write that was on its way is judged Applied by now. Its job has not ended yet.
    pub(super) fn has_just_written(&self) -> bool {
        let number = self.held.written.as_ref().map(|written| written.number);
        self.shows(|shown| number == Some(shown.number) && shown.outcome == Some(Outcome::Applied))
    }

    pub(super) fn advance_write(
        &mut self,
        id: JobId,
        mut wanted: Wanted,
        mut report: Report,
    ) -> Option<Job> {
        loop {
            match self.advance_one_write(id, &mut wanted) {
                Step::Waits => return Some(Job::Write(wanted, report)),
                Step::Sent(number) => {
                    let may_have_left = false;
                    self.held.written = Some(Written { id, wanted, number, report, may_have_left });
                    return None;
                }
                Step::Refused(why) => {
                    report.refuse(why.of_unsent_write());
                    return None;
                }
                Step::Known(outcome) => {
                    (wanted, report) = self.next_write(&wanted, outcome, report)?;
                }
            }
        }
    }

    /// Continues with one write. What a delete kept for it is free unless it still waits.
    fn advance_one_write(&mut self, id: JobId, wanted: &mut Wanted) -> Step {
        if !self.may_write(wanted.bond) {
            self.let_go(id, wanted);
            return Step::Refused(ErrorKind::PinIsVoid);
        }
        let step = self.try_write(id, wanted).unwrap_or_else(|code| Step::Refused(code.into()));
        match step {
            Step::Waits => self.let_go_if_late(id, wanted),
            Step::Sent(number) => {
                self.let_go(id, wanted);
                self.note_bond(wanted.bond, number);
            }
            Step::Known(_) | Step::Refused(_) => self.let_go(id, wanted),
        }
        step
    }

    fn try_write(&mut self, id: JobId, wanted: &mut Wanted) -> Result<Step, Code> {
        let is_put = matches!(wanted.write, Write::Put(_));
        // There is no entry to put another value to.
        if is_put && self.has_asked(id) && self.shows(|shown| shown.is_absent) {
            self.held.request = None;
            return Ok(Step::Known(Outcome::Absent));
        }
        match self.client.write(&wanted.write) {
            Ok(number) => Ok(Step::Sent(number)),
            Err(Code::Writing | Code::NotJoined) => Ok(Step::Waits),
            Err(Code::NotHeld) if self.may_take(id, wanted) => {
                self.client.write_with_lock(&wanted.write).map(Step::Sent)
            }
            Err(Code::NotHeld) => self.lock_for(id, wanted),
            Err(code) => Err(code),
        }
    }

    fn lock_for(&mut self, id: JobId, wanted: &mut Wanted) -> Result<Step, Code> {
        let key = wanted.write.key();
        let (points, mode) = match wanted.write {
            Write::Insert(_) => (key..key + 1, Mode::RangeIN),
            Write::Put(_) => (key..key + 1, Mode::X),
            // The client reads this point, and there is no entry.
            Write::Delete(_) if self.is_empty_at(key) => return Ok(Step::Known(Outcome::Absent)),
            // It takes the entry and the gap after it. The second slot is asked for by itself if
            // it was not free.
            Write::Delete(_) if self.client.has_all(key) => {
                self.keep_slot(id, wanted);
                (key + 1..key + 2, Mode::RangeXX)
            }
            Write::Delete(_) => (key..key + 2, Mode::RangeXX),
        };
        self.ask_to_change(id, points, mode)?;
        Ok(Step::Waits)
    }

    /// Keeps the slot of the row that a delete is about, if nothing hinders that just now.
    fn keep_slot(&mut self, id: JobId, wanted: &mut Wanted) {
        let key = wanted.write.key();
        if wanted.kept.is_none() && self.may_keep(id, key + 1) {
            // A client that has all its pins asks for both slots until it has them.
            let Ok(pin) = self.add_pin(key..key + 1) else { return };
            wanted.kept = Some(Kept { pin, since: self.now.monotonic });
            self.held.takings.keeps(id, &(key..key + 1));
        }
    }

    /// Gives back what a delete has kept for too long: who has the other slot keeps it pinned.
    fn let_go_if_late(&mut self, id: JobId, wanted: &mut Wanted) {
        let now = self.now.monotonic;
        let is_late = |kept: Kept| now.saturating_duration_since(kept.since) >= KEEPS;
        if wanted.kept.is_some_and(is_late) {
            self.let_go(id, wanted);
        }
    }

    /// A delete no longer keeps its slot.
    pub(super) fn let_go(&mut self, id: JobId, wanted: &mut Wanted) {
        if let Some(Kept { pin, .. }) = wanted.kept.take() {
            self.held.takings.ends(id);
            self.unpin(pin);
        }
    }

    pub(super) fn is_empty_at(&mut self, key: u64) -> bool {
        let mut rows = Vec::new();
        self.client.scan(&(key..key + 1), &mut rows, self.now) == Ok(Scan::Rows) && rows.is_empty()
    }
}
