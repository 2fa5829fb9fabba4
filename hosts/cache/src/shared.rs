//! What all tables of a process share.
use crate::error::ReadError;
use crate::fault_note::FaultNote;
use crate::locks::JoinedLocks;
use crate::session::{Ending, Fate, Session};
use krl_postgres::Connector;
use std::sync::atomic::{AtomicU64, Ordering};
use std::sync::{Mutex, MutexGuard, PoisonError};
use std::time::{Duration, Instant};

/// This many connections are kept for later calls.
const MOST_IDLE: usize = 16;

/// How long a read that is late waits until the database has ended its statement.
const CANCEL: Duration = Duration::from_secs(1);

/// What all tables use.
pub(crate) struct Shared {
    connector: Connector,
    pub locks: JoinedLocks,
    pub memory: usize,
    timeout: Duration,
    idle: Mutex<Vec<Session>>,
    /// Connections whose statements the database has not ended yet.
    late: Mutex<Vec<Ending>>,
    /// How many definitions of tables were found.
    definitions: AtomicU64,
    /// Why the rows of no table are kept.
    pub fault: FaultNote,
}

impl Shared {
    pub fn new(connector: Connector, memory: usize, timeout: Duration) -> Shared {
        Shared {
            connector,
            locks: JoinedLocks::default(),
            memory,
            timeout,
            idle: Mutex::default(),
            late: Mutex::default(),
            definitions: AtomicU64::new(0),
            fault: FaultNote::default(),
        }
    }

    /// Where the database is, as it may be shown.
    pub fn address(&self) -> &str {
        self.connector.address()
    }

    /// Asks the database over a connection that is free, and once again over a new one if that has
    /// ended. What is refused or late is not asked again.
    pub fn ask<T>(
        &self,
        ask: impl Fn(&mut Session) -> Result<T, ReadError>,
    ) -> Result<T, ReadError> {
        let end = Instant::now() + self.timeout;
        if let Some(mut session) = pop(&self.idle) {
            session.set_end(end);
            let answer = session.ask(&ask);
            let fate = session.fate();
            self.put_back(session, fate);
            if answer.is_ok() || fate != Fate::Ended {
                return answer;
            }
        }
        self.wait_for_late(end)?;
        let mut session = Session::connect(&self.connector, end)?;
        let answer = session.ask(&ask);
        let fate = session.fate();
        self.put_back(session, fate);
        answer
    }

    /// Keeps a connection for later calls if it may be used again.
    fn put_back(&self, session: Session, fate: Fate) {
        match fate {
            Fate::Usable => {
                let mut idle = lock(&self.idle);
                if idle.len() < MOST_IDLE {
                    idle.push(session);
                }
            }
            // The others were made before it.
            Fate::Ended => lock(&self.idle).clear(),
            Fate::Late => self.end_late(session.give_up(), Instant::now() + CANCEL),
        }
    }

    /// Has the database end the statement of a connection. If that takes longer, the connection may
    /// be lost, and so may the others: it is kept until that is known, and they are not.
    fn end_late(&self, mut late: Ending, by: Instant) {
        if !late.has_ended(&self.connector, by) && Instant::now() < late.lost {
            lock(&self.late).push(late);
            lock(&self.idle).clear();
        }
    }

    /// **No connection is made as long as another one waits in the database for a read that was
    /// late**, unless that connection is lost: so a database that is slow gets no more of them than
    /// threads read at once.
    fn wait_for_late(&self, end: Instant) -> Result<(), ReadError> {
        let Some(late) = pop(&self.late) else { return Ok(()) };
        let by = end.min(late.lost);
        self.end_late(late, by);
        if Instant::now() < end { Ok(()) } else { Err(ReadError::late()) }
    }

    /// Closes the connections that are lost: the database ends what it did for them.
    pub fn drop_lost(&self) {
        let now = Instant::now();
        lock(&self.late).retain(|late| now < late.lost);
    }

    /// A number that no other definition has.
    pub fn next_definition(&self) -> u64 {
        self.definitions.fetch_add(1, Ordering::Relaxed)
    }
}

fn pop<T>(list: &Mutex<Vec<T>>) -> Option<T> {
    lock(list).pop()
}

fn lock<T>(mutex: &Mutex<T>) -> MutexGuard<'_, T> {
    mutex.lock().unwrap_or_else(PoisonError::into_inner)
}
