//! Ranges whose changes a caller waits for.
use super::life::Stage;
use super::{Asked, JobId, Reply, State};
use crate::call::error::ErrorKind;
use crate::client::answer::place;
use crate::client::scratch::with_room;
use crate::model::code::Code;
use crate::model::row::Row;
use crate::proved::client_handle::Scan;
use std::mem;
use std::ops::Range;

/// The changes for which callers wait.
#[derive(Default)]
pub(super) struct Watches {
    open: Vec<Watched>,
    /// What the client knows may have changed since they were looked at.
    is_changed: bool,
}

/// A caller waits until the client no longer knows that the range has these rows.
struct Watched {
    id: JobId,
    keys: Range<u64>,
    rows: Vec<Row>,
    reply: Reply<()>,
}

impl Watches {
    /// What the client knows may have changed.
    pub fn note_change(&mut self) {
        self.is_changed = true;
    }

    /// Nobody waits any more: each one ends for this reason.
    pub fn refuse_all(&mut self, why: ErrorKind) {
        self.open.drain(..).for_each(|watched| watched.reply.end(Err(why)));
    }
}

impl State {
    /// Ends when the client no longer knows that the range has these rows. It asks for nothing.
    pub fn watch(&mut self, keys: Range<u64>, rows: Vec<Row>) -> Asked<()> {
        let id = self.next_name();
        let (reply, answer) = place(&self.wakes);
        let reply = Reply(reply);
        if self.life.stage == Stage::Ended {
            reply.end(Err(ErrorKind::Stopped));
        } else {
            self.keeping.note_watched(&keys);
            self.watches.open.push(Watched { id, keys, rows, reply });
            self.watches.note_change();
            self.report_changes();
        }
        Asked { id, answer }
    }

    /// Nobody waits any more for a change that this job watches for.
    pub fn unwatch(&mut self, job: JobId) {
        self.watches.open.retain(|watched| watched.id != job);
    }

    /// The epoch that the client has joined.
    pub fn epoch(&mut self) -> Result<u64, Code> {
        Ok(self.client.status()?.epoch)
    }

    /// Reports a change to those who wait for one, if there may be one.
    pub(super) fn report_changes(&mut self) {
        if !mem::take(&mut self.watches.is_changed) {
            return;
        }
        for watched in mem::take(&mut self.watches.open) {
            if self.knows(&watched.keys, &watched.rows) {
                self.watches.open.push(watched);
            } else {
                watched.reply.end(Ok(()));
            }
        }
    }

    /// Whether the client knows that the range has these rows. While a write of its own is not
    /// answered it has learnt nothing else.
    fn knows(&self, keys: &Range<u64>, rows: &[Row]) -> bool {
        with_room(|room| match self.client.scan(keys, room, self.now) {
            Ok(Scan::Rows) => room.as_slice() == rows,
            Ok(Scan::Pending) => true,
            _ => false,
        })
    }
}
