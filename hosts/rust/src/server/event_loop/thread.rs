//! The thread of a server: its sockets, its store, and what other threads ask, around what
//! [`EventLoop`] decides.
use super::EventLoop;
use super::turn::{Environment, Step, Turn};
use crate::lease::clocks::Now;
use crate::log::event_log;
use crate::server::connections::{Connections, Found};
use crate::server::error::ServeError;
use crate::server::lock_search::Page;
use crate::server::questions::Question;
use crate::server::shown::status::Status;
use crate::server::sockets::Sockets;
use crate::store::Store;
use std::panic::{AssertUnwindSafe, catch_unwind};
use std::sync::mpsc::Receiver;
use std::sync::{Mutex, PoisonError};
use std::time::{Duration, Instant};

/// How long a turn looks up who holds what, if somebody asks.
const LONGEST_LOOKUPS: Duration = Duration::from_millis(10);

/// How long a server that ends waits until what it sent is written.
const LAST_WRITES: Duration = Duration::from_millis(500);

/// The one thread that owns the server and its store. It reads nothing while the store commits.
pub(crate) struct ServerThread<S> {
    pub(super) events: EventLoop,
    pub(super) store: S,
    pub(super) sockets: Sockets,
    asked: Receiver<Question>,
}

impl<S: Store> ServerThread<S> {
    pub fn new(
        events: EventLoop,
        store: S,
        sockets: Sockets,
        asked: Receiver<Question>,
    ) -> ServerThread<S> {
        ServerThread { events, store, sockets, asked }
    }

    /// Serves until it is stopped or fails, and shows how it failed.
    pub fn run_to_the_end(self, shown: &Mutex<Status>) -> Result<(), ServeError> {
        let run = catch_unwind(AssertUnwindSafe(|| self.run(shown)));
        let ended = run.unwrap_or(Err(ServeError::Panicked));
        if let Err(error) = &ended {
            event_log::failed(error);
            let mut shown = shown.lock().unwrap_or_else(PoisonError::into_inner);
            shown.is_serving = false;
            shown.failure = Some(error.to_string());
        }
        ended
    }

    fn run(mut self, shown: &Mutex<Status>) -> Result<(), ServeError> {
        while self.turn()? {
            self.events.show_if_due(shown);
        }
        self.events.show(shown);
        self.sockets.finish(self.events.connections(), Instant::now() + LAST_WRITES);
        self.events.take_failure().map_or(Ok(()), Err)
    }

    /// Makes a turn. Returns whether to continue.
    pub(super) fn turn(&mut self) -> Result<bool, ServeError> {
        let was_to_end = self.events.is_to_end();
        let longest_wait = self.events.longest_wait();
        let began = self.sockets.wait(self.events.connections(), longest_wait)?;
        self.answer_questions();
        let mut turn = Turn::new(was_to_end, began);
        let mut step = turn.judge(&mut self.events, &mut self.sockets)?;
        loop {
            step = match step {
                Step::Gather(rest) => {
                    // The poller waits for whole milliseconds. For less it is asked again and again.
                    let longest_wait = Duration::from_millis(rest.subsec_millis().into());
                    self.sockets.wait(self.events.connections(), longest_wait)?;
                    turn.judge(&mut self.events, &mut self.sockets)?
                }
                Step::Commit(commit) => {
                    self.store.commit(commit.changes())?;
                    turn.committed(commit, &mut self.events, &mut self.sockets)?
                }
                Step::End { goes_on } => return Ok(goes_on),
            };
        }
    }

    /// Answers what other threads have asked.
    fn answer_questions(&mut self) {
        let mut looks_end = None;
        while let Ok(request) = self.asked.try_recv() {
            match request {
                Question::Snapshot(reply) => {
                    // A caller that asks and no longer waits gets no answer.
                    let _ = reply.send(self.store.snapshot());
                }
                Question::Locks(search, reply) => {
                    let began = Now::read();
                    let turn_end = *looks_end.get_or_insert(began.monotonic + LONGEST_LOOKUPS);
                    let end = (began.monotonic + search.longest()).min(turn_end);
                    let is_late = || Instant::now() >= end;
                    let page = self.events.look_up(search, began, is_late);
                    let _ = reply.send(Page { took: began.monotonic.elapsed(), ..page });
                }
                Question::GiveWay(next) => self.events.give_way(next),
                Question::Stop => self.events.stop(Now::read()),
            }
        }
    }
}

impl Environment for Sockets {
    fn now(&self) -> Now {
        Now::read()
    }

    fn read(&mut self, connections: &mut Connections, number: u64) -> Found {
        Sockets::read(self, connections, number)
    }

    fn settle(&mut self, connections: &mut Connections) {
        Sockets::settle(self, connections);
    }
}
