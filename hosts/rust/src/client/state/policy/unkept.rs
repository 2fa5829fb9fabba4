//! Reads of rows that the client does not keep: it asks for no lock, and has the server's host send
//! the rows, as a reader does.
//!
//! They are the store's index at a moment between the question and the answer, and a server after
//! which another one has started sends none. So such a read misses no write that was answered before
//! it, by whichever client. A lock would bring more, and it stays so:
//!
//! - A read after a write of the same client whose outcome is not known waits until it is known: the
//!   write is made by then, or never. The library finds such a range `Pending`, and no rows of it
//!   are asked for.
//! - An incarnation that has joined has ended the one before it, whose writes are no longer made. So
//!   no rows are asked for before that.
//! - What another client has pinned to write, nobody else reads. The server's host sends no rows of
//!   which another client holds so much, and the client waits for a lock.
//!
//! A connection has one question on its way. The next job that wants to ask waits for its answer.
use crate::client::state::{Asking, Job, JobId, State};
use crate::model::code::Code;
use crate::wire::read_frame::{ReadRequest, RowPage};
use std::ops::Range;

/// The question that is on its way. Its job is open.
#[derive(Debug)]
pub struct Question {
    by: JobId,
    request: ReadRequest,
    /// It has not left on this connection, or is to be repeated.
    is_due: bool,
}

impl State {
    /// Whether the job reads these keys, which the client does not know, without a lock.
    pub(in crate::client::state) fn reads_without_lock(
        &self,
        job: JobId,
        keys: &Range<u64>,
    ) -> bool {
        let may_ask = self.has_joined() && self.held.needs_lock != Some(job);
        may_ask && !self.keeping.keeps(keys)
    }

    /// Asks the server's host for the rows, if no other question is on its way.
    pub(in crate::client::state) fn ask_for_rows(&mut self, by: JobId, keys: &Range<u64>) {
        if self.held.question.is_none() {
            let number = self.next_name();
            let request = ReadRequest { number, lo: keys.start, hi: keys.end };
            self.held.question = Some(Question { by, request, is_due: true });
        }
    }

    /// The job has ended, and needs no answer.
    pub(in crate::client::state) fn withdraw_question(&mut self, job: JobId) {
        self.held.question.take_if(|question| question.by == job);
    }

    /// The question may not have come, and is sent once more.
    pub(in crate::client::state) fn repeat_question(&mut self) {
        if let Some(question) = &mut self.held.question {
            question.is_due = true;
        }
    }

    /// Appends the question, if it is to be sent.
    pub(in crate::client::state) fn append_question(&mut self, frames: &mut Vec<u8>) {
        if let Some(question) = self.held.question.as_mut().filter(|question| question.is_due) {
            question.is_due = false;
            question.request.append(frames);
        }
    }

    /// Takes the rows that the server's host sends. A read of more rows than it sends at once asks
    /// for a lock, since they would be of several moments; and so does one of rows that another
    /// client still keeps for itself.
    ///
    /// # Errors
    ///
    /// `BadMessage` if they do not answer the question.
    pub fn receive_rows(&mut self, page: RowPage) -> Result<(), Code> {
        self.end_lease_if_over();
        let is_answered = |question: &mut Question| question.request.number == page.number;
        let Some(question) = self.held.question.take_if(is_answered) else { return Ok(()) };
        let Question { by, request, .. } = question;
        let keys = request.lo..request.hi;
        if request.is_answered_by(&page) && page.next == keys.end {
            self.end_read(by, page);
            self.note_read(&keys);
        } else if request.is_answered_by(&page) || request.is_refused_by(&page) {
            self.held.needs_lock = Some(by);
        } else {
            return Err(Code::BadMessage);
        }
        self.advance(Asking::Later);
        Ok(())
    }

    fn end_read(&mut self, job: JobId, page: RowPage) {
        let found = self.open.iter().position(|(id, _)| *id == job);
        let found = found.map(|place| self.open.remove(place).1);
        if let Some(Job::Read(_, reply)) = found {
            reply.end(Ok(page.rows));
        }
    }
}

#[cfg(test)]
mod tests;
