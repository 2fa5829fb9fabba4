//! What a server's loop shows of itself.
use super::{EventLoop, SHOWN_FOR};
use crate::model::change::Change;
use crate::model::reach::Reach;
use crate::model::room::Room;
use crate::server::shown::status::Status;
use std::sync::{Mutex, PoisonError};
use std::time::Duration;

impl EventLoop {
    /// From now on it shows how many rows the table has, for how many there is room, and how many
    /// slots a grant takes at most.
    pub(crate) fn of_table(mut self, rows: usize, room: Room, reach: Reach) -> EventLoop {
        self.status.rows = rows as u64;
        self.status.room = room;
        self.status.reach = reach;
        self
    }

    /// Counts what is committed.
    pub(super) fn count(&mut self, changes: &[Change]) {
        let rows = self.status.rows;
        self.status.rows = changes.iter().fold(rows, |rows, change| change.rows_after(rows));
        self.status.changes += changes.len() as u64;
        self.status.commits += 1;
    }

    /// Sees whether the server serves, and until it does, whose reports are missing. One that
    /// serves continues to serve.
    pub(super) fn see_phase(&mut self) {
        if self.status.is_serving {
            return;
        }
        self.has_news = true;
        self.status.is_serving = self.server.is_serving();
        // If there is no memory for it, it is shown as it was.
        if let Ok(missing) = self.server.missing() {
            self.status.missing = missing;
        }
        self.log.phase(self.status.is_serving, &self.status.missing);
    }

    pub fn show_if_due(&mut self, shown: &Mutex<Status>) {
        let age = self.turned.saturating_duration_since(self.shown);
        self.is_stale = !std::mem::take(&mut self.has_news) && age < SHOWN_FOR;
        if !self.is_stale {
            self.shown = self.turned;
            self.show(shown);
        }
    }

    pub fn show(&mut self, shown: &Mutex<Status>) {
        self.look_at_clients(self.connections.now());
        self.status.connected = self.connections.clients();
        self.status.connections = self.connections.count() as u64;
        self.status.closed.clone_from(self.connections.closed());
        self.status.held_back = self.held_back.count();
        self.status.unleased = self.leases.unleased();
        self.status.longest_lease = Duration::from_nanos(self.leases.record().longest);
        shown.lock().unwrap_or_else(PoisonError::into_inner).clone_from(&self.status);
    }
}
