//! Rows for those who do not keep them: readers, which are no clients, and clients that only look.
//!
//! A question waits for the commit that begins next, an empty one if there is nothing to commit, and
//! is answered from the index as that commit has left it. So the answer is the store's index at a
//! moment between the question and the answer; and a server after which another one has started
//! answers nobody, since the store refuses its commit.
use super::EventLoop;
use crate::model::code::Code;
use crate::model::row::Row;
use crate::server::close_reason::CloseReason;
use crate::server::connections::MAX_READERS;
use crate::server::error::ServeError;
use crate::wire::host_frame::FromClient;
use crate::wire::incoming::Incoming;
use crate::wire::read_frame::{PAGE, ReadRequest, append_rows};
use std::collections::BTreeMap;
use std::mem;
use std::ops::Range;
use std::time::{Duration, Instant};

/// Next to clients, readers get one of so many parts of the server's time.
const PARTS: u32 = 4;

/// Clients want no time if none has sent anything for so long.
const QUIET: Duration = Duration::from_millis(1);

/// The questions that wait for a commit, at most one of each connection, and when readers may ask.
#[derive(Debug, Default)]
pub(super) struct Reads {
    waiting: BTreeMap<u64, ReadRequest>,
    /// Room for the rows of one answer, and for its frame.
    room: Vec<Row>,
    frame: Vec<u8>,
    /// When readers have had no more than their part of the time.
    even_at: Option<Instant>,
    /// Until then clients are about to send more.
    busy_until: Option<Instant>,
}

impl Reads {
    /// Whether a question waits.
    pub fn are_waiting(&self) -> bool {
        !self.waiting.is_empty()
    }

    /// Takes a question. It replaces the one of the same connection that waits.
    pub fn put(&mut self, connection: u64, request: ReadRequest) {
        self.waiting.insert(connection, request);
    }

    /// A turn has judged messages of clients.
    pub fn note_clients(&mut self, now: Instant) {
        self.busy_until = Some(now + QUIET);
    }

    /// A turn has taken something from readers since `began`, and has ended. What it did for clients
    /// meanwhile counts as done for readers.
    pub fn answered(&mut self, began: Instant, ended: Instant) {
        self.even_at = Some(ended + (PARTS - 1) * ended.saturating_duration_since(began));
    }

    /// When a turn takes something from readers: next to clients they get a part of the server's
    /// time, and otherwise all of it. A call of a client may take many turns, and between them its
    /// host has to be woken, which may share its processors with those of readers.
    fn due_at(&self) -> Option<Instant> {
        self.even_at.min(self.busy_until)
    }

    pub fn are_due(&self, now: Instant) -> bool {
        self.due_in(now).is_zero()
    }

    /// How soon a turn takes something from readers.
    pub fn due_in(&self, now: Instant) -> Duration {
        self.due_at().map_or(Duration::ZERO, |due_at| due_at.saturating_duration_since(now))
    }
}

impl EventLoop {
    /// Whether the connection may send the frame: its identity may, and a reader speaks for no
    /// client.
    pub(super) fn may_send(&self, connection: u64, frame: &Incoming<'_>) -> bool {
        let is_a_readers = self.connections.is_reader(connection);
        self.connections.identity(connection).may_send(frame)
            && !(is_a_readers && frame.is_of_a_client())
    }

    /// Whether there is a place for the connection. Readers have places of their own, and take none
    /// of the clients'. One without a place is refused, and learns how many there are.
    pub(super) fn has_place(&mut self, connection: u64, frame: &Incoming<'_>) -> bool {
        let begins = !self.connections.is_greeted(connection);
        let is_reader = matches!(frame, Incoming::Host(Some(FromClient::ReaderHello(_))));
        let lacked = if begins && is_reader {
            (!self.connections.enter_reader(connection)).then_some(MAX_READERS)
        } else {
            self.connections.lacks_place(connection)
        };
        if let Some(most) = lacked {
            self.refuse_full(connection, most);
        }
        lacked.is_none()
    }

    pub(super) fn reads(&mut self) -> &mut Reads {
        &mut self.reads
    }

    /// Takes a question. The answer leaves after the commit that begins next. A frame that is too
    /// short for one, or whose range has no keys, ends the connection.
    pub(super) fn receive_read(&mut self, connection: u64, request: Option<ReadRequest>) {
        match request {
            Some(request) if request.lo < request.hi => self.reads.put(connection, request),
            _ => self.connections.end(connection, CloseReason::BadMessage),
        }
    }

    /// Answers the questions that came before the commit that was just made. The library refuses to
    /// show what rests on anything that is not confirmed.
    pub(super) fn answer_reads(&mut self) -> Result<(), ServeError> {
        self.reads.room.resize(PAGE, Row::default());
        for (connection, request) in mem::take(&mut self.reads.waiting) {
            self.answer(connection, request).map_err(ServeError::Refused)?;
        }
        Ok(())
    }

    /// Sends the rows that a question is for, as many as one answer has; or none, if another client
    /// keeps some of them from the one that asks.
    fn answer(&mut self, connection: u64, request: ReadRequest) -> Result<(), Code> {
        let ReadRequest { number, lo, hi } = request;
        let (rows, next) = self.server.rows(lo..hi, &mut self.reads.room)?;
        let count = rows.len();
        let is_shown = self.may_see(connection, &(lo..next))?;
        let (next, count) = if is_shown { (next, count) } else { (lo, 0) };
        let Reads { room, frame, .. } = &mut self.reads;
        frame.clear();
        append_rows(number, next, &room[..count], frame);
        self.connections.send_after_commit(connection, frame);
        Ok(())
    }

    /// Whether the rows of these keys are shown on the connection. A client sees none that a lock
    /// would not let it read just now: others may have pinned them to write. A reader has no number
    /// by which it could hold a lock or wait for one, and sees what is stored.
    fn may_see(&mut self, connection: u64, keys: &Range<u64>) -> Result<bool, Code> {
        if self.connections.is_reader(connection) {
            return Ok(true);
        }
        let client = self.connections.client_of(connection);
        client.map_or(Ok(false), |client| self.server.may_read(client, keys))
    }
}

#[cfg(test)]
mod tests {
    use super::*;

    fn request(number: u64) -> ReadRequest {
        ReadRequest { number, lo: 0, hi: 9 }
    }

    #[test]
    fn each_connection_has_one_question() {
        let mut reads = Reads::default();
        assert!(!reads.are_waiting());
        for (connection, number) in [(3, 1), (2, 1), (3, 2), (9, 1), (3, 3)] {
            reads.put(connection, request(number));
        }
        assert!(reads.are_waiting());
        let waiting: Vec<_> = reads.waiting.into_iter().collect();
        assert_eq!(waiting, [(2, request(1)), (3, request(3)), (9, request(1))]);
    }

    #[test]
    fn next_to_clients_readers_get_a_part_of_the_time() {
        let (mut reads, began) = (Reads::default(), Instant::now());
        reads.note_clients(began);
        assert!(reads.are_due(began), "they have had nothing yet");
        let took = QUIET / 10;
        let ended = began + took;
        reads.answered(began, ended);
        reads.note_clients(ended);
        assert_eq!(reads.due_in(ended), 3 * took);
        assert!(reads.are_due(ended + 3 * took) && !reads.are_due(ended + 2 * took));
        reads.answered(began, ended + 1000 * QUIET);
        assert_eq!(reads.due_in(ended), QUIET, "clients may want no more");
    }
}
