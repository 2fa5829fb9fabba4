//! The connections of a server, without their sockets: what comes on them goes in, and which of
//! them are to be read, written and closed comes out. [`crate::server::sockets`] does that.
use crate::lease::clocks::Now;
use crate::model::history::Seen;
use crate::model::refusal::Refusal;
use crate::model::room::Room;
use crate::net::poller::IoInterest;
use crate::net::process::Process;
use crate::net::readiness::Readiness;
use crate::net::stream::PeerAddress;
use crate::server::close_reason::CloseReason;
use crate::server::connection::{Connection, Looked};
use crate::server::routing::Routes;
use crate::server::shown::client_status::ClientConnection;
use crate::server::strangers::Strangers;
use crate::wire::frames::{self, Frames, HEAD};
use crate::wire::host_frame::FromServer;
use closing::Closings;
use std::collections::{BTreeMap, BTreeSet, VecDeque};
use std::fmt::Display;
use std::io::{self, Read, Write};
use std::sync::Arc;
use std::time::{Duration, Instant};

/// The most connections that have shown whose they are, by default. One more is refused.
pub(crate) const MAX_CONNECTIONS: usize = 256;

/// The most connections of readers, which take none of the places of the others. One more is refused.
pub(crate) const MAX_READERS: usize = 1_024;

/// A client is active on a connection on which something has come within this time: each ticks more
/// often, several times a second.
const ACTIVE_FOR: Duration = Duration::from_secs(2);

/// All open connections, and to which of them each client's messages go.
pub(crate) struct Connections {
    /// The most connections that have shown whose they are.
    most: usize,
    /// The longest message that is taken.
    longest: usize,
    open: BTreeMap<u64, Peer>,
    strangers: Strangers,
    readers: BTreeSet<u64>,
    routes: Routes,
    closings: Closings,
    /// Those that may have a frame, in the order of their turns: those of readers, and all others.
    /// Each is there once.
    ready: VecDeque<u64>,
    ready_readers: VecDeque<u64>,
    /// Those of which something waits for the next commit. Each is there once.
    waiting: Vec<u64>,
    /// Those that have something to send. Each is there once.
    sending: Vec<u64>,
    /// Those that have to be written, and those that were closed.
    to_write: VecDeque<u64>,
    closed: VecDeque<Closed>,
    next: u64,
    /// After all that has come was read.
    now: Now,
}

/// A connection, and where it stands in the lists.
struct Peer {
    connection: Connection,
    address: PeerAddress,
    /// That of the client's host, if it has handed it over.
    process: Option<Arc<Process>>,
    opened: Instant,
    is_in_ready: bool,
    is_in_sending: bool,
}

/// A connection that was closed. What waits on it is written once more, as far as its peer takes it
/// at once.
#[derive(Debug)]
pub(crate) struct Closed {
    pub number: u64,
    pub connection: Connection,
}

/// Connections that have their turns by themselves.
#[derive(Clone, Copy, Debug, PartialEq, Eq)]
pub(crate) enum Line {
    /// All that are not known as those of readers.
    Clients,
    Readers,
}

/// What the next connection has, when it is its turn.
pub(crate) enum Found {
    /// No connection of the line has anything.
    Nobody,
    /// This one has no frame now, or is closed.
    Nothing,
    /// This one has to be read: by `Connections::fill`, and then by `Connections::has_read`.
    Unread(u64),
    /// This one begins a long frame with this head, which has to be admitted or broken off.
    Long(u64, [u8; HEAD]),
    /// This one has a frame, the next of these. They go back by `Connections::put_back`.
    Frame(u64, Frames),
}

impl Connections {
    /// No connections yet, and places for at most this many, of a server of this room.
    pub fn new(most: usize, room: Room, now: Now) -> Connections {
        Connections {
            most,
            longest: frames::longest_to_server(room),
            open: BTreeMap::new(),
            strangers: Strangers::default(),
            readers: BTreeSet::new(),
            routes: Routes::default(),
            closings: Closings::default(),
            ready: VecDeque::new(),
            ready_readers: VecDeque::new(),
            waiting: Vec::new(),
            sending: Vec::new(),
            to_write: VecDeque::new(),
            closed: VecDeque::new(),
            next: 0,
            now,
        }
    }

    /// The connections at this moment, which is not before anything came that was read.
    pub fn set_now(&mut self, now: Now) {
        self.now = now;
    }

    /// The moment by which what has come is judged: it is not before any of it came.
    pub fn now(&self) -> Now {
        self.now
    }

    /// Whether a connection may have something to be judged or read that is not known as a reader's.
    pub fn are_busy(&self) -> bool {
        !self.ready.is_empty()
    }

    /// The same of those of readers.
    pub fn are_readers_ready(&self) -> bool {
        !self.ready_readers.is_empty()
    }

    /// How many connections of the line may have something.
    #[cfg(test)]
    pub fn count_ready(&self, line: Line) -> usize {
        match line {
            Line::Clients => self.ready.len(),
            Line::Readers => self.ready_readers.len(),
        }
    }

    /// The system has reported what the socket of this connection is ready for.
    pub fn is_ready(&mut self, number: u64, readiness: Readiness) {
        let Some(peer) = self.open.get_mut(&number) else { return };
        if readiness.reads {
            peer.connection.is_readable(readiness);
            self.line_up(number);
        }
        if readiness.writes {
            self.to_write.push_back(number);
        }
    }

    /// Gives the connection a turn, if it may have something and has none.
    fn line_up(&mut self, number: u64) {
        let Some(peer) = self.open.get_mut(&number) else { return };
        if peer.connection.is_ready() && !peer.is_in_ready {
            peer.is_in_ready = true;
            let is_reader = self.readers.contains(&number);
            self.line(if is_reader { Line::Readers } else { Line::Clients }).push_back(number);
        }
    }

    fn line(&mut self, line: Line) -> &mut VecDeque<u64> {
        match line {
            Line::Clients => &mut self.ready,
            Line::Readers => &mut self.ready_readers,
        }
    }

    /// What the next connection of the line has. Each gives one frame or is read once, and then the
    /// others have their turns.
    pub fn look(&mut self, line: Line) -> Found {
        let Some(number) = self.line(line).pop_front() else { return Found::Nobody };
        let Some(peer) = self.open.get_mut(&number) else { return Found::Nothing };
        peer.is_in_ready = false;
        if !peer.connection.is_ready() {
            return Found::Nothing;
        }
        if peer.connection.has_to_read() {
            return Found::Unread(number);
        }
        let looked = peer.connection.look();
        self.looked(number, looked)
    }

    /// Reads once from the socket of this connection. Returns how many bytes came.
    pub fn fill(&mut self, number: u64, stream: &mut impl Read) -> io::Result<usize> {
        let peer = self.open.get_mut(&number);
        peer.map_or(Err(io::ErrorKind::NotConnected.into()), |peer| peer.connection.fill(stream))
    }

    /// Takes what a read of this connection came to, at a moment after it. Returns what the
    /// connection has.
    pub fn has_read(&mut self, number: u64, came: io::Result<usize>, now: Now) -> Found {
        self.now = now;
        let Some(peer) = self.open.get_mut(&number) else { return Found::Nothing };
        let looked = peer.connection.has_read(came, now.monotonic);
        self.looked(number, looked)
    }

    fn looked(&mut self, number: u64, looked: Looked) -> Found {
        self.meet(number);
        match looked {
            Looked::Frame => self.frame(number),
            Looked::Long(head) => Found::Long(number, head),
            Looked::NoFrame => {
                // A handshake answers what came.
                self.to_write.push_back(number);
                self.line_up(number);
                Found::Nothing
            }
            Looked::Ended => {
                self.close(number, CloseReason::Ended);
                Found::Nothing
            }
            Looked::TooLong => {
                self.close(number, CloseReason::FrameTooLong);
                Found::Nothing
            }
            Looked::NotShaken(error) => {
                self.close_for(number, CloseReason::HandshakeFailed, &error);
                Found::Nothing
            }
        }
    }

    fn frame(&mut self, number: u64) -> Found {
        let peer = self.open.get_mut(&number);
        peer.map_or(Found::Nothing, |peer| Found::Frame(number, peer.connection.take_incoming()))
    }

    /// Gives the connection back what it had, without the frame that was judged.
    pub fn put_back(&mut self, number: u64, incoming: Frames) {
        if let Some(peer) = self.open.get_mut(&number) {
            peer.connection.put_back(incoming);
            self.line_up(number);
        }
    }

    fn close(&mut self, number: u64, reason: CloseReason) {
        self.close_for(number, reason, &"");
    }

    /// Closes a connection for this reason, which `why` describes.
    fn close_for(&mut self, number: u64, reason: CloseReason, why: &dyn Display) {
        let at = self.at(number);
        if let Some(Peer { connection, .. }) = self.open.remove(&number) {
            self.closings.closed(&at, reason, why, self.now.monotonic);
            self.closed.push_back(Closed { number, connection });
        }
        self.strangers.remove(number);
        self.readers.remove(&number);
        self.routes.close(number);
    }

    /// Takes nothing more from the connection, for this reason, and closes it after the next commit,
    /// when all is written.
    pub fn end(&mut self, number: u64, reason: CloseReason) {
        if let Some(peer) = self.in_waiting(number) {
            peer.end(reason);
        }
        self.routes.close(number);
    }

    /// The host of this peer takes host frames, and its Hello gets this answer. The answer rests on
    /// nothing that is not committed: it leaves with the next batch, before everything else.
    pub fn greet(&mut self, number: u64, answer: FromServer) {
        if let Some(peer) = self.in_sending(number) {
            peer.greet(answer);
        }
    }

    /// Whether the peer's host has sent its Hello.
    pub fn is_greeted(&self, number: u64) -> bool {
        self.open.get(&number).is_some_and(|peer| peer.connection.is_greeted())
    }

    /// Reports to the peer's host why its client is not served, after the next commit.
    pub fn refuse(&mut self, number: u64, refusal: Refusal) {
        let now = self.now.monotonic;
        if let Some(peer) = self.in_waiting(number) {
            peer.refuse(refusal, now);
        }
    }

    /// Sends a frame of the host on the connection, after the next commit.
    pub fn send_after_commit(&mut self, number: u64, frame: &[u8]) {
        if let Some(peer) = self.in_waiting(number) {
            peer.send_after_commit(frame);
        }
    }

    /// A commit is made, or nothing had to be committed: the host frames that waited for it leave
    /// with the next batch, and so do the ends of connections.
    pub fn committed(&mut self) {
        let mut waiting = std::mem::take(&mut self.waiting);
        for number in waiting.drain(..) {
            if let Some(peer) = self.in_sending(number) {
                peer.committed();
            }
        }
        self.waiting = waiting;
    }

    /// The client of this connection takes the server for what it serves.
    pub fn let_in(&mut self, number: u64) {
        if let Some(peer) = self.open.get_mut(&number) {
            peer.connection.let_in();
        }
    }

    pub fn is_let_in(&self, number: u64) -> bool {
        self.open.get(&number).is_some_and(|peer| peer.connection.is_let_in())
    }

    /// A connection of which something waits for the next commit.
    fn in_waiting(&mut self, number: u64) -> Option<&mut Connection> {
        let peer = self.open.get_mut(&number)?;
        if peer.connection.waits_for_commit() {
            self.waiting.push(number);
        }
        Some(&mut peer.connection)
    }

    /// A connection that has something to send.
    fn in_sending(&mut self, number: u64) -> Option<&mut Connection> {
        let peer = self.open.get_mut(&number)?;
        if !peer.is_in_sending {
            peer.is_in_sending = true;
            self.sending.push(number);
        }
        Some(&mut peer.connection)
    }

    /// The peer has handed over its process.
    pub fn has_process(&mut self, number: u64, process: Process) {
        if let Some(peer) = self.open.get_mut(&number) {
            peer.process = Some(Arc::new(process));
        }
    }

    /// The process that was handed over on this connection, if one was.
    pub fn process(&self, number: u64) -> Option<&Arc<Process>> {
        self.open.get(&number)?.process.as_ref()
    }

    /// From now on the client's messages go to this connection.
    pub fn route(&mut self, client: u8, number: u64) {
        self.routes.set(client, number);
    }

    /// A client whose messages go to this connection, if there is one.
    pub fn client_of(&self, number: u64) -> Option<u8> {
        self.routes.client_of(number)
    }

    /// Whether the client's messages go to this connection.
    pub fn is_routed(&self, client: u8, number: u64) -> bool {
        self.routes.of(client) == Some(number)
    }

    /// Whether something has come from the client just now, on another connection than this one.
    pub fn is_active_elsewhere(&self, client: u8, number: u64) -> bool {
        let other = self.routes.of(client).filter(|other| *other != number);
        let other = other.and_then(|other| self.open.get(&other));
        other.is_some_and(|peer| {
            // What came while the server was busy has not been read yet.
            peer.connection.is_ready()
                || peer.connection.silent_for(self.now.monotonic) < ACTIVE_FOR
        })
    }

    /// The clients that are connected, by number.
    pub fn clients(&self) -> Vec<u8> {
        self.routes.clients()
    }

    /// The connection of the client, if it has one.
    pub fn of_client(&self, client: u8, now: Instant) -> Option<ClientConnection> {
        let peer = self.routes.of(client).and_then(|number| self.open.get(&number))?;
        let open_for = now.saturating_duration_since(peer.opened);
        Some(ClientConnection { peer: peer.address, open_for })
    }

    /// When something last came on the client's connection, if it has one.
    pub fn last_received(&self, client: u8) -> Option<Instant> {
        let peer = self.routes.of(client).and_then(|number| self.open.get(&number))?;
        Some(peer.connection.last_received())
    }

    pub fn count(&self) -> usize {
        self.open.len()
    }

    /// Begins to send: the host frames that may leave, and after them the server's messages. `seen`
    /// is how far the store has come. Nothing that was not committed may be sent.
    pub fn send(&mut self, seen: Option<Seen>) -> Sending<'_> {
        Sending { connections: self, seen }
    }

    /// The next connection that has to be written.
    pub fn next_to_write(&mut self) -> Option<u64> {
        self.to_write.pop_front()
    }

    /// The next connection that was closed.
    pub fn next_closed(&mut self) -> Option<Closed> {
        self.closed.pop_front()
    }

    /// Writes what the peer takes, and closes the connection if that fails or was the last. Returns
    /// for what the socket has to be watched then, if it is still open.
    pub fn write(&mut self, number: u64, stream: &mut impl Write) -> Option<IoInterest> {
        let peer = self.open.get_mut(&number)?;
        let is_lost = peer.connection.write(stream, self.now.monotonic).is_err();
        if is_lost || peer.connection.is_over() {
            let reason = peer.connection.ends_for().unwrap_or(CloseReason::Ended);
            self.close(number, reason);
            return None;
        }
        Some(peer.connection.interest())
    }

    /// The socket of this connection has failed.
    pub fn is_lost(&mut self, number: u64) {
        self.close(number, CloseReason::Ended);
    }

    /// Closes the connections whose peers are silent, take nothing, or do not show who they are,
    /// for too long.
    pub fn close_dead(&mut self) {
        let now = self.now.monotonic;
        let why_dead = |(number, peer): (&u64, &Peer)| {
            peer.connection.why_dead(now).map(|reason| (*number, reason))
        };
        let dead: Vec<_> = self.open.iter().filter_map(why_dead).collect();
        let late: Vec<u64> = self.strangers.late(now).collect();
        for (number, reason) in dead {
            self.close(number, reason);
        }
        for number in late {
            self.close(number, CloseReason::StrangerLate);
        }
    }

    /// Takes nothing more from any connection: each is closed when all is written that was sent.
    pub fn end_all(&mut self) {
        for (number, peer) in &mut self.open {
            peer.connection.end(CloseReason::Ended);
            self.to_write.push_back(*number);
        }
    }
}

/// What leaves together, after a commit.
pub(crate) struct Sending<'a> {
    connections: &'a mut Connections,
    seen: Option<Seen>,
}

impl Sending<'_> {
    /// Puts a frame of the server after those that leave. If the client has no connection, the
    /// frame is lost.
    pub fn put(&mut self, client: u8, frame: &[u8]) {
        let Some(number) = self.connections.routes.of(client) else { return };
        if let Some(connection) = self.connections.in_sending(number) {
            connection.put_message(frame, self.seen);
        }
    }

    /// All of it is to be written.
    pub fn end(self) {
        let Sending { connections, seen } = self;
        let mut sending = std::mem::take(&mut connections.sending);
        // No client waits until all readers are written to.
        if !connections.readers.is_empty() {
            sending.sort_by_key(|number| connections.readers.contains(number));
        }
        for number in sending.drain(..) {
            if let Some(peer) = connections.open.get_mut(&number) {
                peer.is_in_sending = false;
                peer.connection.end_batch(seen);
                connections.to_write.push_back(number);
            }
        }
        connections.sending = sending;
    }
}

pub(crate) mod closing;
mod entering;
mod long_frames;
#[cfg(test)]
mod tests;
