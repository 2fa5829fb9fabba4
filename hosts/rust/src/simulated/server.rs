//! A server of a simulation.
use crate::access::Entry;
use crate::identity::Identity;
use crate::lease::clocks::Now;
use crate::lease::terms::Leases;
use crate::model::change::Change;
use crate::model::reach::Reach;
use crate::model::room::Room;
use crate::net::address::Address;
use crate::net::readiness::Readiness;
use crate::net::stream::PeerAddress;
use crate::server::connections::{Connections, Found};
use crate::server::error::ServeError;
use crate::server::event_loop::EventLoop;
use crate::server::event_loop::commits::Commit;
use crate::server::event_loop::turn::{Environment, Step, Turn};
use crate::server::opening::{Decided, Opened};
use crate::server::shown::timings::Timings;
use crate::store::Store;
use std::collections::{BTreeMap, VecDeque};
use std::fmt;
use std::io::{self, ErrorKind, Read};
use std::sync::Arc;
use std::time::Duration;

/// The bytes that have come on a connection and were not read.
#[derive(Debug, Default)]
struct Unread {
    bytes: VecDeque<u8>,
    has_ended: bool,
}

impl Read for Unread {
    fn read(&mut self, buffer: &mut [u8]) -> io::Result<usize> {
        match self.bytes.read(buffer) {
            Ok(0) if !self.has_ended => Err(ErrorKind::WouldBlock.into()),
            read => read,
        }
    }
}

/// What a server is started with.
#[derive(Clone, Copy, Debug)]
pub struct Start {
    /// What it grants its clients.
    pub leases: Option<Leases>,
    /// For how many rows it has room, or `None` for as many as its store keeps.
    pub room: Option<Room>,
}

/// A server. Each call is made at a time by its machine's clock.
pub struct Server {
    events: EventLoop,
    around: Around,
    /// The turn that has begun, if one has.
    turn: Option<Turn>,
    /// The commit that is under way.
    commit: Option<Commit>,
}

/// What is around a server.
struct Around {
    now: Now,
    unread: BTreeMap<u64, Unread>,
    sent: Vec<Sent>,
}

/// What leaves of a server on one connection.
#[derive(Clone, Debug, PartialEq, Eq)]
pub struct Sent {
    /// The connection.
    pub connection: u64,
    /// The bytes.
    pub bytes: Vec<u8>,
    /// Whether the server closes the connection after them.
    pub closes: bool,
}

/// What a server needs next.
#[derive(Clone, Debug, PartialEq, Eq)]
pub enum Next {
    /// [`Server::turn`], after this time or when something comes.
    Turn(Duration),
    /// The store has to make these changes, and then [`Server::committed`].
    Commit(Vec<Change>),
    /// Nothing: it has ended.
    Nothing,
}

impl Environment for Around {
    fn now(&self) -> Now {
        self.now
    }

    fn read(&mut self, connections: &mut Connections, number: u64) -> Found {
        let mut ended = Unread { has_ended: true, ..Unread::default() };
        let unread = self.unread.get_mut(&number).unwrap_or(&mut ended);
        let came = connections.fill(number, unread);
        connections.has_read(number, came, self.now)
    }

    fn settle(&mut self, connections: &mut Connections) {
        while let Some(connection) = connections.next_to_write() {
            let mut bytes = Vec::new();
            connections.write(connection, &mut bytes);
            if !bytes.is_empty() {
                self.sent.push(Sent { connection, bytes, closes: false });
            }
        }
        while let Some(closed) = connections.next_closed() {
            self.unread.remove(&closed.number);
            self.sent.push(Sent { connection: closed.number, bytes: Vec::new(), closes: true });
        }
    }
}

impl Server {
    /// A server over what the store has. Its epoch is committed.
    ///
    /// # Errors
    ///
    /// Those of the store.
    pub fn start(
        store: &mut impl Store,
        start: Start,
        time: Duration,
    ) -> Result<Server, ServeError> {
        let Start { leases, room } = start;
        let reach = Reach::default();
        let decided = Decided { leases, shard: None, room, reach, max_connections: 256 };
        let address = Address::Unix("simulated".into());
        let timings = Arc::new(Timings::new());
        let began = Now::simulated(time);
        let Opened { events, .. } = decided.open(store, &address, timings, || began)?;
        let around = Around { now: began, unread: BTreeMap::new(), sent: Vec::new() };
        Ok(Server { events, around, turn: None, commit: None })
    }

    fn at(&mut self, time: Duration) -> Now {
        let now = Now::simulated(time);
        self.events.connections().set_now(now);
        self.around.now = now;
        now
    }

    /// A client connects, whose number a certificate shows, or nothing. Returns the connection's
    /// number.
    pub fn connect(&mut self, client: Option<u8>, time: Duration) -> u64 {
        self.at(time);
        let of_client = |number: u8| number.to_string().parse().ok();
        let entry = Entry::Known(client.and_then(of_client).unwrap_or(Identity::everybody()));
        let number = self.events.connections().enter(entry, PeerAddress::Gone);
        self.around.unread.insert(number, Unread::default());
        number
    }

    /// Bytes have come on a connection.
    pub fn deliver(&mut self, connection: u64, bytes: &[u8], time: Duration) {
        self.at(time);
        let Some(unread) = self.around.unread.get_mut(&connection) else { return };
        unread.bytes.extend(bytes);
        let readiness = Readiness { reads: true, is_last: unread.has_ended, writes: false };
        self.events.connections().is_ready(connection, readiness);
    }

    /// The other side has ended a connection.
    pub fn hang_up(&mut self, connection: u64, time: Duration) {
        if let Some(unread) = self.around.unread.get_mut(&connection) {
            unread.has_ended = true;
        }
        self.deliver(connection, &[], time);
    }

    /// An operator asks it to end.
    pub fn stop(&mut self, time: Duration) {
        let now = self.at(time);
        self.events.stop(now);
    }

    /// Whether a commit is under way: until it is made, the server makes no turn.
    #[must_use]
    pub fn is_committing(&self) -> bool {
        self.commit.is_some()
    }

    /// Begins a turn, or continues the one whose commit waits for writers.
    ///
    /// # Errors
    ///
    /// The server has failed.
    pub fn turn(&mut self, time: Duration) -> Result<Next, ServeError> {
        let now = self.at(time);
        let begun = self.turn.take();
        let mut turn = begun.unwrap_or_else(|| Turn::new(self.events.is_to_end(), now));
        let step = turn.judge(&mut self.events, &mut self.around)?;
        Ok(self.next(turn, step))
    }

    /// The store has made the commit that was under way.
    ///
    /// # Errors
    ///
    /// The server has failed.
    pub fn committed(&mut self, time: Duration) -> Result<Next, ServeError> {
        self.at(time);
        let Some((turn, commit)) = self.turn.take().zip(self.commit.take()) else {
            return Ok(Next::Turn(Duration::ZERO));
        };
        let step = turn.committed(commit, &mut self.events, &mut self.around)?;
        Ok(self.next(turn, step))
    }

    fn next(&mut self, turn: Turn, step: Step) -> Next {
        match step {
            Step::Gather(rest) => {
                self.turn = Some(turn);
                Next::Turn(rest)
            }
            Step::Commit(commit) => {
                self.turn = Some(turn);
                Next::Commit(self.commit.insert(commit).changes().to_vec())
            }
            Step::End { goes_on: true } if self.events.connections().are_busy() => {
                Next::Turn(Duration::ZERO)
            }
            Step::End { goes_on: true } => Next::Turn(self.events.longest_wait()),
            Step::End { goes_on: false } => Next::Nothing,
        }
    }

    /// What has left since it was asked last: nothing that rests on what is not committed.
    pub fn take_sent(&mut self) -> Vec<Sent> {
        std::mem::take(&mut self.around.sent)
    }

    /// Why it has ended, if nobody has asked it to. It is reported once.
    pub fn take_failure(&mut self) -> Option<ServeError> {
        self.events.take_failure()
    }
}

impl fmt::Debug for Server {
    fn fmt(&self, f: &mut fmt::Formatter<'_>) -> fmt::Result {
        f.debug_struct("Server").finish_non_exhaustive()
    }
}
