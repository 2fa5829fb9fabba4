//! A server over a network and a store.
mod ahead;
pub(crate) mod builder;
pub(crate) mod close_reason;
pub(crate) mod connection;
pub(crate) mod connections;
pub(crate) mod error;
pub(crate) mod event_loop;
mod held_back;
pub(crate) mod listening;
pub(crate) mod lock_search;
pub(crate) mod opening;
mod processes;
pub(crate) mod questions;
pub(crate) mod room_at_start;
pub(crate) mod routing;
pub(crate) mod shard_at_start;
pub(crate) mod shown;
pub(crate) mod sockets;
pub(crate) mod strangers;

use crate::model::reach::Reach;
use crate::model::room::Room;
use crate::net::address::Address;
use crate::server::error::ServeError;
use crate::server::questions::Questions;
use crate::server::shown::monitor::Monitor;
use crate::server::shown::status::Status;
use crate::server::shown::timings::Timings;
use std::convert::Infallible;
use std::fmt;
use std::sync::{Arc, Mutex, PoisonError};
use std::thread::JoinHandle;
use std::time::Duration;

/// A server that runs in a thread of its own. It ends when it is dropped.
pub struct Server {
    address: Address,
    room: Room,
    reach: Reach,
    questions: Questions,
    status: Arc<Mutex<Status>>,
    timings: Arc<Timings>,
    longest_store_wait: Duration,
    thread: Option<JoinHandle<Result<(), ServeError>>>,
}

impl Server {
    /// Where it listens.
    #[must_use]
    pub fn address(&self) -> &Address {
        &self.address
    }

    /// For how many rows it has room.
    #[must_use]
    pub fn room(&self) -> Room {
        self.room
    }

    /// How many slots one grant takes at most.
    #[must_use]
    pub fn reach(&self) -> Reach {
        self.reach
    }

    /// What it looks like now, or a few milliseconds ago. Which clients wait for which, and what a
    /// client holds, is at most 50 milliseconds old, unless counting a large table takes longer.
    /// Nothing is shown of a client that has left or was evicted.
    #[must_use]
    pub fn status(&self) -> Status {
        self.status.lock().unwrap_or_else(PoisonError::into_inner).clone()
    }

    /// A view of the server that may live in another thread: of its status, and of everything else
    /// that it shows.
    #[must_use]
    pub fn monitor(&self) -> Monitor {
        Monitor {
            status: Arc::clone(&self.status),
            timings: Arc::clone(&self.timings),
            questions: self.questions.clone(),
            longest_store_wait: self.longest_store_wait,
        }
    }

    /// Whether it still serves. One that does not has failed: its status shows why, and `stop`
    /// returns the error.
    #[must_use]
    pub fn is_running(&self) -> bool {
        self.thread.as_ref().is_some_and(|thread| !thread.is_finished())
    }

    /// Blocks until the server fails. It can't be stopped meanwhile: this call owns it.
    ///
    /// # Errors
    ///
    /// Always: those of [`Server::serve`].
    pub fn wait(mut self) -> Result<Infallible, ServeError> {
        self.join()?;
        Err(ServeError::Panicked)
    }

    /// Shuts the server down cleanly, and returns how it ended: the messages that wait are judged,
    /// what they change is committed, and the answers are written, as far as the peers take them
    /// within half a second. What it kept stays; its clients answer from their caches.
    ///
    /// # Errors
    ///
    /// Those of [`Server::serve`], if it fails before it has ended.
    pub fn stop(mut self) -> Result<(), ServeError> {
        self.ask_to_stop();
        self.join()
    }

    fn ask_to_stop(&self) {
        self.questions.stop();
    }

    /// Waits until the server has ended, and its address is free.
    fn join(&mut self) -> Result<(), ServeError> {
        let Some(thread) = self.thread.take() else { return Ok(()) };
        thread.join().unwrap_or(Err(ServeError::Panicked))
    }
}

impl fmt::Debug for Server {
    fn fmt(&self, f: &mut fmt::Formatter<'_>) -> fmt::Result {
        f.debug_struct("Server").field("address", self.address()).finish_non_exhaustive()
    }
}

impl Drop for Server {
    fn drop(&mut self) {
        if self.thread.is_some() {
            self.ask_to_stop();
            let _ = self.join();
        }
    }
}
