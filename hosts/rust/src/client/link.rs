//! The thread of a client that keeps its connection, and what it shares with the callers: sockets,
//! locks and the lock file, around what [`crate::client::session`] decides.
use crate::client::backoff;
use crate::client::deadlines::Deadlines;
use crate::client::engine::{self, Shell};
use crate::client::lock_file::LockFile;
use crate::client::session::Session;
use crate::client::standing::Standing;
use crate::client::state::State;
use crate::client::wakes::Wakes;
use crate::client::writer::{WriteState, Writer};
use crate::lease::clocks::Now;
use crate::log::event_log;
use crate::net::address::Address;
use crate::net::carrier::Carrier;
use crate::net::connect_fault::Rejection;
use crate::net::poller::{IoInterest, Poller, Ready, SecondPoller};
use crate::net::readiness::Unread;
use crate::net::servers::Servers;
use crate::proved::client_handle::Cache;
use crate::wire::frames::Frames;
use mio::Waker;
use std::convert::Infallible;
use std::io::{self, ErrorKind};
use std::ops::DerefMut;
use std::sync::{Arc, Condvar, Mutex, MutexGuard, PoisonError, TryLockError};
use std::time::{Duration, Instant};

pub(crate) use awaiting::Awaited;

/// How long a connection may take to be made.
const CONNECT: Duration = Duration::from_secs(1);

/// The one connection, as the poller names it.
const CONNECTION: u64 = 0;

/// What the thread of the connection and the callers share.
///
/// What waits to be written is locked after `session` and never before it, and no stream is touched
/// while `session` is held. A scan of the cache takes none of these locks. Tasks that were answered
/// are woken when none of `session`, `reading` and `lock_file` is held: they may call the client
/// within that.
pub(crate) struct Link {
    servers: Servers,
    session: Mutex<Session>,
    wakes: Wakes,
    cache: Cache,
    writer: Writer,
    waker: Arc<Waker>,
    /// The connection, as it is read.
    reading: Mutex<Option<ReadHalf>>,
    /// A caller has its turn to wait for what comes, while it waits for an answer.
    turn: Mutex<()>,
    poller: SecondPoller,
    thread: Mutex<Thread>,
    changed: Condvar,
    /// When tasks that wait for answers give up.
    deadlines: Deadlines,
    /// None once the client is gone.
    lock_file: Mutex<Option<LockFile>>,
}

/// The state of the thread of the connection.
#[derive(Clone, Copy, Debug, PartialEq, Eq)]
enum Thread {
    Runs,
    IsToEnd,
    HasEnded,
}

/// A connection, as it is read: by the thread, or by a caller that waits for an answer.
struct ReadHalf {
    carrier: Carrier,
    frames: Frames,
    unread: Unread,
    interest: IoInterest,
    /// Until when the thread sleeps if nothing comes.
    sleeps_until: Instant,
    /// When the session has something to do if nothing comes.
    is_due: Instant,
    /// Why it has to end, as a caller has found.
    failed: Option<io::Error>,
}

impl Link {
    /// A client that is not connected, and what its thread waits by.
    pub fn new(
        servers: Servers,
        state: State,
        lock_file: Option<LockFile>,
    ) -> io::Result<(Link, Poller)> {
        let (poller, waker) = Poller::new()?;
        let link = Link {
            cache: state.cache(),
            wakes: state.wakes(),
            session: Mutex::new(Session::new(servers.clone(), state, backoff::seed())),
            servers,
            writer: Writer::default(),
            waker,
            reading: Mutex::new(None),
            turn: Mutex::new(()),
            poller: SecondPoller::of(&poller)?,
            thread: Mutex::new(Thread::Runs),
            changed: Condvar::new(),
            deadlines: Deadlines::default(),
            lock_file: Mutex::new(lock_file),
        };
        Ok((link, poller))
    }

    /// Where the server is, or where it may be.
    pub fn servers(&self) -> &Servers {
        &self.servers
    }

    /// What the client knows. No lock is taken for it.
    pub fn cache(&self) -> &Cache {
        &self.cache
    }

    /// The session as it is now. The clocks are read when nobody else has it. Tasks that a call of it
    /// answers are woken later.
    fn session(&self) -> MutexGuard<'_, Session> {
        let mut session = lock(&self.session);
        session.at(Now::read());
        session
    }

    /// Makes a call of the session now, and wakes the tasks that were answered. What the client sends
    /// leaves later.
    fn with_session<T>(&self, call: impl FnOnce(&mut Session) -> T) -> T {
        let answer = call(&mut self.session());
        self.wakes.wake_all();
        answer
    }

    /// Makes a call of the client now. What it sends leaves later.
    pub fn with_state<T>(&self, call: impl FnOnce(&mut State) -> T) -> T {
        self.with_session(|session| call(session.state()))
    }

    /// How the last connection ended, or why none was made, unless the server has answered on
    /// another one since. It is reported once.
    pub fn take_fault(&self) -> Option<io::Error> {
        self.session().take_fault()
    }

    /// The refused connection for which the client gave up as it was to join, if it did.
    pub fn take_nothing_listens(&self) -> Option<io::Error> {
        self.session().take_nothing_listens()
    }

    /// Whether there is a connection just now.
    pub fn is_connected(&self) -> bool {
        self.session().is_connected()
    }

    /// Why the last connection was rejected, if it was and the server does not take this side now.
    pub fn rejection(&self) -> Option<Rejection> {
        self.session().rejection()
    }

    /// From now on the client waits for a server that is of another shard.
    pub fn follow_map(&self) {
        self.with_session(Session::follow_map);
    }

    /// From now on the client waits no longer for one that is of another shard.
    pub fn keep_to_map(&self) {
        self.with_session(Session::keep_to_map);
    }

    /// Whether what is not kept is to be read from this server.
    pub fn standing(&self) -> Standing {
        self.session().standing()
    }

    /// Gives the client's number free: another process may take it.
    pub fn free_number(&self) {
        lock(&self.lock_file).take();
    }

    /// The thread is to end.
    pub fn end(&self) {
        let mut thread = lock(&self.thread);
        if *thread == Thread::Runs {
            *thread = Thread::IsToEnd;
        }
        drop(thread);
        self.changed.notify_all();
        self.writer.close();
        self.wake();
    }

    /// Has the thread look at the session at once, if it waits for its connection.
    fn wake(&self) {
        // One that is not woken looks by itself a little later.
        let _ = self.waker.wake();
    }

    /// Waits until the thread has ended, or until the deadline. Returns whether it has.
    pub fn has_ended(&self, end: Instant) -> bool {
        let left = end.saturating_duration_since(Instant::now());
        let waited = self
            .changed
            .wait_timeout_while(lock(&self.thread), left, |thread| *thread != Thread::HasEnded);
        !waited.unwrap_or_else(PoisonError::into_inner).1.timed_out()
    }

    /// Keeps the connection until the client ends.
    pub fn run(&self, mut poller: Poller) {
        let _ended = Ended(self);
        while self.runs() {
            let address = self.session().address().clone();
            let Err(end) = self.connect_and_serve(&address, &mut poller);
            self.writer.close();
            let pause = self.with_session(|session| session.disconnected(end));
            self.rest(pause);
        }
    }

    fn runs(&self) -> bool {
        *lock(&self.thread) == Thread::Runs
    }

    /// Waits so long, or until the client ends. Tasks whose deadline comes meanwhile are woken.
    fn rest(&self, pause: Duration) {
        let end = Instant::now() + pause;
        let mut now = Instant::now();
        while now < end && self.runs() {
            let left = end.saturating_duration_since(now).min(self.deadlines.next_in(now));
            let thread = lock(&self.thread);
            let waited =
                self.changed.wait_timeout_while(thread, left, |thread| *thread == Thread::Runs);
            drop(waited.unwrap_or_else(PoisonError::into_inner));
            now = Instant::now();
            self.deadlines.wake_due(now);
        }
    }

    /// Connects, and serves the connection until it ends.
    fn connect_and_serve(&self, address: &Address, poller: &mut Poller) -> io::Result<Infallible> {
        self.with_lock_file(|link, file| engine::begin_again_if_due(link, file))?;
        let carrier = Carrier::connect(address, self.servers.tls(), CONNECT)?;
        let mut first = self.with_lock_file(|link, file| engine::begin_connection(link, file))?;
        carrier.hand_over_process(&mut first);
        self.writer.open(carrier.try_clone()?, first);
        event_log::connected(address);
        let ended = self.serve(carrier, poller);
        if let Some(reading) = lock(&self.reading).take() {
            poller.remove(reading.carrier.stream());
            reading.carrier.shut();
        }
        ended
    }

    /// Takes what the server sends, until the connection ends.
    fn serve(&self, carrier: Carrier, poller: &mut Poller) -> io::Result<Infallible> {
        self.open_reading(carrier, poller)?;
        let mut is_due = self.go_on(std::iter::empty())?;
        while self.runs() {
            let now = Instant::now();
            let due_in = is_due.saturating_duration_since(now);
            poller.wait(due_in.min(self.deadlines.next_in(now)))?;
            is_due = self.go_on(poller.ready())?;
            self.let_caller_read();
            self.deadlines.wake_due(Instant::now());
        }
        Err(ErrorKind::Interrupted.into())
    }

    /// From now on the connection is read, by whoever learns first that something has come.
    fn open_reading(&self, carrier: Carrier, poller: &Poller) -> io::Result<()> {
        let watches = poller.add(CONNECTION, carrier.stream());
        let now = Instant::now();
        *lock(&self.reading) = Some(ReadHalf {
            carrier,
            frames: Frames::to_client(),
            unread: Unread::Something,
            interest: IoInterest::Reads,
            sleeps_until: now,
            is_due: now,
            failed: None,
        });
        watches
    }

    /// Takes what has come on the connection, and continues with what the client was asked. Returns
    /// when that is due again if nothing comes: the thread sleeps until then.
    fn go_on(&self, ready: impl Iterator<Item = Ready>) -> io::Result<Instant> {
        let is_due = self.go_on_reading(ready);
        self.wakes.wake_all();
        is_due
    }

    fn go_on_reading(&self, ready: impl Iterator<Item = Ready>) -> io::Result<Instant> {
        let mut reading = lock(&self.reading);
        let reading = reading.as_mut().ok_or(ErrorKind::NotConnected)?;
        if let Some(error) = reading.failed.take() {
            return Err(error);
        }
        reading.is_due = self.read_on(reading, ready)?;
        reading.sleeps_until = reading.is_due;
        Ok(reading.is_due)
    }

    /// Reads what there is, and continues with what the client was asked after each part.
    fn read_on(
        &self,
        reading: &mut ReadHalf,
        ready: impl Iterator<Item = Ready>,
    ) -> io::Result<Instant> {
        for ready in ready {
            if let Ready::Connection(_, readiness) = ready {
                reading.unread.report(readiness);
            }
        }
        loop {
            let ReadHalf { carrier, frames, unread, .. } = reading;
            let has_come = *unread != Unread::Nothing && unread.note(carrier.fill(frames))?;
            let (written, is_due) = self.proceed(has_come.then_some(frames))?;
            if reading.unread == Unread::Nothing {
                self.watch(reading, written)?;
                return Ok(is_due);
            }
        }
    }

    /// If a caller waits for what comes, it is woken, since it has no other way to
    /// learn of its answer; and it reads the connection until it leaves.
    fn let_caller_read(&self) {
        if matches!(self.turn.try_lock(), Err(TryLockError::WouldBlock)) {
            self.wake();
            drop(lock(&self.turn));
        }
    }

    /// Watches the connection for writes too, while a part waits to be written.
    fn watch(&self, reading: &mut ReadHalf, written: WriteState) -> io::Result<()> {
        let next = match written {
            WriteState::Pending => IoInterest::Both,
            WriteState::Idle => IoInterest::Reads,
        };
        if std::mem::replace(&mut reading.interest, next) != next {
            self.poller.watch(CONNECTION, reading.carrier.stream(), next)?;
        }
        Ok(())
    }

    /// Takes what has come, if something has; continues with what the client was asked, and writes
    /// what it sends. Returns when that is due again if nothing comes.
    fn proceed(&self, came: Option<&mut Frames>) -> io::Result<(WriteState, Instant)> {
        let mut session = self.session();
        if let Some(frames) = came {
            session.receive(frames)?;
        }
        session.proceed()?;
        let is_due = session.due_at();
        Ok((self.send(session), is_due))
    }

    /// Works with the file of the client's number, and wakes the tasks that were answered. A client
    /// whose number is free again sends nothing more.
    fn with_lock_file<T>(
        &self,
        work: impl FnOnce(&mut &Link, &mut LockFile) -> io::Result<T>,
    ) -> io::Result<T> {
        let done = match &mut *lock(&self.lock_file) {
            Some(file) => work(&mut &*self, file),
            None => Err(ErrorKind::Interrupted.into()),
        };
        self.wakes.wake_all();
        done
    }
}

impl Shell for &Link {
    fn session(&mut self) -> impl DerefMut<Target = Session> {
        Link::session(self)
    }
}

/// Says that the thread has ended, even if it panics: nobody waits for it then.
struct Ended<'l>(&'l Link);

impl Drop for Ended<'_> {
    fn drop(&mut self) {
        self.0.writer.close();
        self.0.session().state().end();
        *lock(&self.0.thread) = Thread::HasEnded;
        self.0.changed.notify_all();
        self.0.wakes.wake_all();
    }
}

fn lock<T>(mutex: &Mutex<T>) -> MutexGuard<'_, T> {
    mutex.lock().unwrap_or_else(PoisonError::into_inner)
}

mod asking;
mod awaiting;
#[cfg(test)]
mod tests;
