//! A client of one server: of its only one, or of that of a shard.
use crate::call::error::ErrorKind;
use crate::client::link::Link;
use crate::client::shared_reader::SharedReader;
use crate::client::state::State;
use crate::client::waiting::Waiting;
use crate::lease::boot_clock::Moment;
use crate::model::row::Row;
use crate::net::poller::Poller;
use crate::proved::client_handle::Scan;
use crate::proved::losses::Tenure;
use std::io;
use std::ops::Range;
use std::sync::{Arc, Mutex, MutexGuard, PoisonError};
use std::thread::{self, JoinHandle};
use std::time::{Duration, Instant};

/// How long a client that is dropped waits until its Bye is kept.
const LEAVE_TIMEOUT: Duration = Duration::from_secs(1);

/// How long a client that has not joined may take to leave.
const NOT_JOINED: Duration = Duration::from_secs(5);

/// A client of one server, with the thread of its connection. It leaves when it is dropped.
pub(crate) struct ShardClient {
    number: u8,
    link: Arc<Link>,
    thread: Mutex<Option<JoinHandle<()>>>,
    /// What the client reads and does not keep, by a connection of its own.
    reader: SharedReader,
}

impl ShardClient {
    /// Starts the thread of the connection.
    pub fn start(number: u8, link: Link, poller: Poller) -> io::Result<ShardClient> {
        let link = Arc::new(link);
        let run = Arc::clone(&link);
        let reader = SharedReader::new(Arc::clone(&link));
        let thread = thread::Builder::new().name(format!("krl-client-{number}"));
        let thread = thread.spawn(move || run.run(poller))?;
        Ok(ShardClient { number, link, thread: Mutex::new(Some(thread)), reader })
    }

    pub fn number(&self) -> u8 {
        self.number
    }

    pub fn link(&self) -> &Arc<Link> {
        &self.link
    }

    /// Puts the rows of the range into `rows` if the cache covers it, and returns whether it does.
    pub fn scan(&self, keys: &Range<u64>, rows: &mut Vec<Row>) -> bool {
        rows.clear();
        keys.is_empty() || self.link.cache().scan(keys, rows, Moment::now) == Ok(Scan::Rows)
    }

    /// The tenure of a range that is not empty, if the client holds it.
    pub fn tenure(&self, keys: &Range<u64>, room: &mut Vec<Row>) -> Option<Tenure> {
        self.link.cache().tenure(keys, room, Moment::now).ok().flatten()
    }

    /// Whether the client has held each range without a break since it had this tenure.
    pub fn held_since(&self, since: &[(Range<u64>, Tenure)]) -> Vec<bool> {
        self.link.cache().held_since(since, Moment::now)
    }

    /// The rows of the range, as the server's store has them, which the client does not keep. Calls
    /// take turns. It ends with `Left` once the client leaves.
    pub async fn read_once(
        &self,
        keys: Range<u64>,
        deadline: Instant,
        waiting: Waiting,
    ) -> Result<Vec<Row>, ErrorKind> {
        self.reader.read(keys, deadline, waiting).await
    }

    /// Leaves, and waits until the deadline for the server to keep that. Then its thread has ended,
    /// and its number is free.
    pub fn leave_by(&self, end: Instant) -> Result<(), ErrorKind> {
        self.link.ask(end, State::leave)?;
        self.end(end);
        Ok(())
    }

    /// Leaves until the deadline, and ends then whether or not the server has answered.
    pub fn end_by(&self, end: Instant) {
        if self.thread().is_some() {
            let _ = self.leave_by(end);
            self.end(end);
        }
    }

    fn thread(&self) -> MutexGuard<'_, Option<JoinHandle<()>>> {
        self.thread.lock().unwrap_or_else(PoisonError::into_inner)
    }

    /// Ends the thread, and gives the number free. A thread that hangs at the deadline ends by
    /// itself later, and sends nothing more.
    pub fn end(&self, end: Instant) {
        self.link.end();
        let thread = self.thread().take();
        if let Some(thread) = thread.filter(|_| self.link.has_ended(end)) {
            // A panic of that thread has been reported by itself.
            let _ = thread.join();
        }
        self.link.free_number();
    }
}

impl Drop for ShardClient {
    fn drop(&mut self) {
        self.end_by(Instant::now() + LEAVE_TIMEOUT);
    }
}

/// Leaves the servers of all these clients at once, and waits for as long as a client that is
/// dropped does.
pub(crate) fn leave_soon(clients: &[&Arc<ShardClient>]) {
    leave_all(clients, Instant::now() + LEAVE_TIMEOUT);
}

/// Leaves the servers of all these clients at once, and waits for each until the deadline. Then each
/// of them has ended and answers nothing, whether or not its server has kept that it left. One that
/// has not joined has nothing, and its server may be gone: it is not waited for so long.
pub(crate) fn leave_all(clients: &[&Arc<ShardClient>], end: Instant) {
    let soon = end.min(Instant::now() + NOT_JOINED);
    let begin = |client: &&Arc<ShardClient>| {
        let has_joined = client.link().with_state(|state| state.has_joined());
        (client.link().begin(State::leave), if has_joined { end } else { soon })
    };
    let leaving: Vec<_> = clients.iter().map(begin).collect();
    for (client, (leaving, end)) in clients.iter().zip(leaving) {
        if client.link().finish(leaving, end).is_ok() {
            client.end(end);
        }
    }
    for client in clients {
        client.link().with_state(State::end_unanswered);
        client.end_by(Instant::now());
    }
}
