//! The sockets of a server. Its one thread reads and writes them all, and waits for none: so no slow
//! peer stops the others.
use crate::access::Access;
use crate::lease::clocks::Now;
use crate::net::poller::{IoInterest, Poller, Ready};
use crate::net::process::{Process, read_with_process};
use crate::net::readiness::Readiness;
use crate::net::stream::{Accepted, Listener, PeerAddress, Stream};
use crate::server::connections::{Closed, Connections, Found};
use crate::server::listening::Listening;
use crate::wire::frames::GULP;
use mio::Waker;
use std::collections::HashMap;
use std::io::{self, Read};
use std::sync::Arc;
use std::time::{Duration, Instant};

/// The most connections that are taken between two turns.
const MAX_TAKEN: usize = 32;

/// How often a connection that ends is read, so that what is unread does not take the last answer
/// with it.
const LAST_READS: usize = 16;

/// The sockets of all open connections, and the one that takes new ones.
pub(crate) struct Sockets {
    poller: Poller,
    listening: Listening,
    access: Access,
    open: HashMap<u64, Socket>,
}

/// The socket of one connection.
struct Socket {
    stream: Stream,
    interest: IoInterest,
    /// Its peer may hand its process over with the first bytes.
    is_first_read: bool,
}

/// The first read of a Unix socket, which may bring the peer's process.
struct FirstRead<'s> {
    stream: &'s mut Stream,
    process: Option<Process>,
}

impl Sockets {
    /// Takes connections from the listener; and what wakes it from other threads.
    pub fn new(listener: Listener, access: Access) -> io::Result<(Sockets, Arc<Waker>)> {
        let (poller, waker) = Poller::new()?;
        poller.listen(&listener)?;
        let listening = Listening::new(listener)?;
        Ok((Sockets { poller, listening, access, open: HashMap::new() }, waker))
    }

    /// Waits until there is something to do, but not longer than this, and returns when that was.
    /// It writes what peers take of what was sent, and takes new connections. It fails if no
    /// connection can be taken any more.
    pub fn wait(&mut self, connections: &mut Connections, longest: Duration) -> io::Result<Now> {
        let is_busy =
            connections.are_busy() || self.listening.is_ready(connections.now().monotonic);
        self.poller.wait(if is_busy { Duration::ZERO } else { longest })?;
        let now = Now::read();
        connections.set_now(now);
        for ready in self.poller.ready() {
            match ready {
                Ready::Woken => {}
                Ready::Listener => self.listening.has_some(),
                Ready::Connection(number, readiness) => connections.is_ready(number, readiness),
            }
        }
        self.accept(connections, now.monotonic)?;
        self.settle(connections);
        Ok(now)
    }

    /// Takes new connections, a few at once.
    fn accept(&mut self, connections: &mut Connections, now: Instant) -> io::Result<()> {
        for _ in 0..MAX_TAKEN {
            if !self.listening.is_ready(now) {
                break;
            }
            let Some(accepted) = self.listening.take(now)? else { continue };
            if let Err(error) = self.open(accepted, connections) {
                // The system has no room for it: it is closed.
                self.listening.not_taken(&error);
            }
        }
        Ok(())
    }

    fn open(&mut self, accepted: Accepted, connections: &mut Connections) -> io::Result<()> {
        let entry = self.access.enter(&accepted)?;
        let Accepted { stream, peer, .. } = accepted;
        stream.never_wait()?;
        let number = connections.enter(entry, peer);
        self.poller.add(number, &stream).inspect_err(|_| connections.is_lost(number))?;
        let is_first_read = matches!(peer, PeerAddress::Unix(_));
        self.open.insert(number, Socket { stream, interest: IoInterest::Reads, is_first_read });
        Ok(())
    }

    /// Reads once from this connection, and returns what it has then.
    pub fn read(&mut self, connections: &mut Connections, number: u64) -> Found {
        let Some(socket) = self.open.get_mut(&number) else { return Found::Nothing };
        let came = if socket.is_first_read {
            socket.read_first(connections, number)
        } else {
            connections.fill(number, &mut socket.stream)
        };
        connections.has_read(number, came, Now::read())
    }

    /// Writes what is to be written, as far as the peers take it at once, and closes what is to be
    /// closed.
    pub fn settle(&mut self, connections: &mut Connections) {
        while let Some(number) = connections.next_to_write() {
            self.write(connections, number);
        }
        while let Some(closed) = connections.next_closed() {
            self.close(closed, connections.now());
        }
    }

    fn write(&mut self, connections: &mut Connections, number: u64) {
        let Some(socket) = self.open.get_mut(&number) else { return };
        let Some(interest) = connections.write(number, &mut socket.stream) else { return };
        if interest == socket.interest {
            return;
        }
        match self.poller.watch(number, &socket.stream, interest) {
            Ok(()) => socket.interest = interest,
            Err(_) => connections.is_lost(number),
        }
    }

    /// Closes a connection. Its peer learns why, if it can: what waits is written once more.
    fn close(&mut self, closed: Closed, now: Now) {
        let Closed { number, mut connection } = closed;
        let Some(mut socket) = self.open.remove(&number) else { return };
        let _ = connection.write(&mut socket.stream, now.monotonic);
        self.poller.remove(&socket.stream);
    }

    /// Ends all connections. What was sent is written first, as far as the peers take it until
    /// then.
    pub fn finish(mut self, connections: &mut Connections, until: Instant) {
        connections.end_all();
        self.settle(connections);
        let mut now = Instant::now();
        while connections.count() > 0 && now < until {
            if self.poller.wait(until.saturating_duration_since(now)).is_err() {
                return;
            }
            connections.set_now(Now::read());
            for ready in self.poller.ready() {
                if let Ready::Connection(number, readiness) = ready {
                    connections.is_ready(number, Readiness { reads: false, ..readiness });
                }
            }
            self.settle(connections);
            now = Instant::now();
        }
    }
}

impl Socket {
    /// Reads once, and notes the process that came with the first bytes.
    fn read_first(&mut self, connections: &mut Connections, number: u64) -> io::Result<usize> {
        let mut first = FirstRead { stream: &mut self.stream, process: None };
        let count = connections.fill(number, &mut first)?;
        if let Some(process) = first.process {
            connections.has_process(number, process);
        }
        self.is_first_read = false;
        Ok(count)
    }
}

impl Read for FirstRead<'_> {
    fn read(&mut self, bytes: &mut [u8]) -> io::Result<usize> {
        let (count, process) = read_with_process(self.stream, bytes)?;
        self.process = process;
        Ok(count)
    }
}

impl Drop for Socket {
    /// Reads what the peer has sent after all that was read: a stream that is closed with bytes
    /// unread may take the last answer with it.
    fn drop(&mut self) {
        let mut rest = [0; GULP];
        let mut reads = (0..LAST_READS).map(|_| self.stream.read(&mut rest));
        while let Some(Ok(1..)) = reads.next() {}
        self.stream.shut();
    }
}
