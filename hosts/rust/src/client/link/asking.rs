//! What callers ask of a client, and how they wait for the answer.
use super::{Link, lock};
use crate::call::error::ErrorKind;
use crate::client::answer::Answer;
use crate::client::session::Session;
use crate::client::state::{Asked, BUSY_TICK, State};
use crate::client::writer::WriteState;
use crate::model::refusal::Refusal;
use crate::net::poller::Ready;
use std::sync::MutexGuard;
use std::sync::mpsc::{RecvTimeoutError, TryRecvError};
use std::time::{Duration, Instant};

impl Link {
    /// Asks for something, and waits for the answer until the deadline.
    pub fn ask<T>(
        &self,
        end: Instant,
        ask: impl FnOnce(&mut State) -> Asked<T>,
    ) -> Result<T, ErrorKind> {
        let asked = self.begin(ask);
        self.finish(asked, end)
    }

    /// Begins to wait until the client has joined, and no longer once the server gives a reason for
    /// which the caller gives up.
    pub fn join(&self, gives_up: impl Fn(Refusal, Instant) -> bool + Send + 'static) -> Asked<()> {
        self.call(|session| session.join(Box::new(gives_up)))
    }

    /// Asks for something, and waits for nothing.
    pub fn begin<T>(&self, ask: impl FnOnce(&mut State) -> Asked<T>) -> Asked<T> {
        self.call(|session| ask(session.state()))
    }

    /// Waits until the deadline for the answer to what was begun. Then nobody waits for it any more.
    pub fn finish<T>(&self, asked: Asked<T>, end: Instant) -> Result<T, ErrorKind> {
        let answered = self.answered_by(&asked, end);
        let Asked { id, answer } = asked;
        answered.unwrap_or_else(|| {
            let why = self.with_session(|session| session.give_up(id));
            // It may have come meanwhile.
            answer.try_recv().unwrap_or(Err(why))
        })
    }

    /// The answer to what was begun, if it comes by this moment.
    ///
    /// The caller reads the connection itself until the first tick. The thread of the connection
    /// sends again what is not answered. It may sleep until a tick of a client that was asked
    /// nothing: so one who waits for longer than until the first tick wakes it once.
    pub fn answered_by<T>(&self, asked: &Asked<T>, end: Instant) -> Option<Result<T, ErrorKind>> {
        let answer = &asked.answer;
        let answered = self.read_until(answer, end.min(Instant::now() + BUSY_TICK));
        if answered.is_some() {
            return answered;
        }
        let left = until(end);
        let first = left.min(BUSY_TICK);
        let mut answered = answer.recv_timeout(first);
        if matches!(answered, Err(RecvTimeoutError::Timeout)) && first < left {
            self.hurry();
            answered = answer.recv_timeout(until(end));
        }
        match answered {
            Ok(answered) => Some(answered),
            Err(RecvTimeoutError::Disconnected) => Some(Err(ErrorKind::Stopped)),
            Err(RecvTimeoutError::Timeout) => None,
        }
    }

    /// Reads the connection until the answer has come, if no other caller does so: then no thread
    /// has to wake another one. Returns `None` if there is no answer by the end.
    pub(super) fn read_until<T>(
        &self,
        answer: &Answer<Result<T, ErrorKind>>,
        end: Instant,
    ) -> Option<Result<T, ErrorKind>> {
        let _turn = self.turn.try_lock().ok()?;
        let mut goes_on = true;
        loop {
            match answer.try_recv() {
                Err(TryRecvError::Empty) if goes_on && Instant::now() < end => {}
                answered => {
                    self.leave_reading(goes_on);
                    return match answered {
                        Ok(answered) => Some(answered),
                        Err(TryRecvError::Empty) => None,
                        Err(TryRecvError::Disconnected) => Some(Err(ErrorKind::Stopped)),
                    };
                }
            }
            goes_on = self.read_once(until(end));
        }
    }

    /// Waits for something to come, and takes it. Returns whether to continue so.
    pub(super) fn read_once(&self, longest: Duration) -> bool {
        let Ok(ready) = self.poller.wait(longest) else { return false };
        let goes_on = self.read_ready(ready.into_iter());
        self.wakes.wake_all();
        goes_on
    }

    fn read_ready(&self, ready: impl Iterator<Item = Ready>) -> bool {
        let mut reading = lock(&self.reading);
        let Some(reading) = reading.as_mut().filter(|it| it.failed.is_none()) else { return false };
        match self.read_on(reading, ready) {
            Ok(is_due) => reading.is_due = is_due,
            Err(error) => reading.failed = Some(error),
        }
        reading.failed.is_none() && self.runs()
    }

    /// Wakes the thread of the connection if it has to do something before it would by itself, or
    /// if what woke this one was meant for it.
    pub(super) fn leave_reading(&self, is_whole: bool) {
        let mut reading = lock(&self.reading);
        let is_soon = reading.as_mut().is_some_and(|it| it.is_due < it.sleeps_until);
        if let Some(reading) = reading.as_mut().filter(|_| is_soon) {
            reading.sleeps_until = reading.is_due;
        }
        drop(reading);
        if is_soon || !is_whole {
            self.wake();
        }
    }

    /// Sees whether what is asked can be done, and has the thread of the connection tick.
    fn hurry(&self) {
        self.with_session(Session::end_hopeless);
        self.wake();
    }

    /// Makes a call of the session, and sends what the client has to send.
    fn call<T>(&self, call: impl FnOnce(&mut Session) -> T) -> T {
        let mut session = self.session();
        let answer = call(&mut session);
        if self.send(session) == WriteState::Pending {
            self.wake();
        }
        self.wakes.wake_all();
        answer
    }

    /// Sends what the client has to send, as far as the connection takes it at once. What can't be
    /// sent is lost: a tick sends it again.
    pub fn flush(&self) {
        self.call(|_| ());
    }

    /// Does the same, and lets the session go before it touches the connection. While a part is
    /// left, the thread of the connection has to watch for when more is taken.
    pub(super) fn send(&self, mut session: MutexGuard<'_, Session>) -> WriteState {
        self.writer.put(|frames| session.take(frames));
        drop(session);
        self.writer.write()
    }
}

fn until(end: Instant) -> Duration {
    end.saturating_duration_since(Instant::now())
}
