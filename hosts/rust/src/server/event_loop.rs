//! What a server decides, without its store, its sockets and a clock: it judges what has come,
//! states what has to be committed, and only then what leaves. [`turn`] has the order of that, and
//! [`thread`] is the shell around it.
use crate::lease::clocks::Now;
use crate::lease::of_server::LeaseTable;
use crate::log::event_log::EventLog;
use crate::model::change::{Change, Record};
use crate::model::client_set::ClientSet;
use crate::model::code::Code;
use crate::model::history::History;
use crate::model::refusal::{Refusal, STREAM_VERSION};
use crate::model::shard_bounds::ShardBounds;
use crate::proved::server_handle::ServerHandle;
use crate::server::close_reason::CloseReason;
use crate::server::connections::{Connections, Found};
use crate::server::error::ServeError;
use crate::server::held_back::HeldBack;
use crate::server::processes::Processes;
use crate::server::routing::{Sender, sender};
use crate::server::shown::client_status::LastReceived;
use crate::server::shown::status::Status;
use crate::server::shown::timings::Timings;
use crate::server::shown::watch::Watch;
use crate::wire::frames;
use crate::wire::host_frame::FromClient;
use crate::wire::incoming::Incoming;
use crate::wire::message::{Head, Kind, Message};
use admission::KeptRequests;
use commit_group::CommitGroup;
use commits::Gathered;
use reads::Reads;
use requests::OpenRequests;
use std::mem;
use std::sync::Arc;
use std::time::{Duration, Instant};

/// How often a client that seems stuck gets again what it may have missed, and the server is asked
/// which client waits for which.
const NUDGE: Duration = Duration::from_millis(50);

/// How long a push waits for its acknowledgement before it is repeated: an idle client ticks within
/// this time, and so acknowledges what it has.
const ACKNOWLEDGED_WITHIN: Duration = Duration::from_millis(300);

/// How often a server that commits nothing asks whether the store is still its own.
const ASKS_STORE: Duration = Duration::from_secs(1);

/// How long a server that ends continues to judge what has come.
const LAST_TURNS: Duration = Duration::from_millis(100);

/// How old what others see of a server may be while it is busy.
const SHOWN_FOR: Duration = Duration::from_millis(5);

/// What a server decides. It makes turns, as [`turn::Turn`] has them, by four kinds of methods:
///
/// - A. What comes: [`EventLoop::take`].
/// - B. What time brings: [`EventLoop::nudge`].
/// - C. Commits: [`EventLoop::take_commit`] returns what has to be committed before anything more is
///   judged, and [`EventLoop::committed`] takes it back.
/// - D. What is to be done next: [`EventLoop::send`] gives the connections what waited for the
///   commit, [`EventLoop::goes_on`] returns whether to make another turn, and
///   [`EventLoop::longest_wait`] how long that one waits if nothing comes.
///
/// A turn makes them in this order.
pub(crate) struct EventLoop {
    server: ServerHandle,
    history: Option<History>,
    connections: Connections,
    held_back: HeldBack,
    leases: LeaseTable,
    processes: Processes,
    /// What the next commit has to make.
    gathered: Gathered,
    /// Questions that wait for a commit.
    reads: Reads,
    watch: Watch,
    last_received: LastReceived,
    status: Status,
    /// When the last turn ended.
    turned: Instant,
    /// When the status was shown last.
    shown: Instant,
    /// There were turns since it was shown.
    is_stale: bool,
    /// The server's phase has changed since it was shown.
    has_news: bool,
    /// When it counts next what clients hold; at once if it has counted nothing yet.
    counts_from: Option<Instant>,
    nudged: Instant,
    /// A release was judged since a push left last.
    was_released: bool,
    /// When the store was asked last.
    asked_store: Instant,
    group: CommitGroup,
    /// The server is to end, and continues until then at most.
    until: Option<Instant>,
    /// Why it is to end, if nobody has asked it to.
    failure: Option<ServeError>,
    timings: Arc<Timings>,
    requests: OpenRequests,
    log: EventLog,
    frames: Vec<u8>,
    kept_requests: KeptRequests,
    shard: Option<ShardBounds>,
    /// What the next map has in place of the shard. Then no lease is renewed.
    next_shard: Option<ShardBounds>,
}

/// A server whose epoch is committed, and what it begins with.
pub(crate) struct Started {
    pub server: ServerHandle,
    pub epoch: u64,
    pub history: Option<History>,
    pub leases: LeaseTable,
    pub connections: Connections,
    pub timings: Arc<Timings>,
    pub log: EventLog,
}

/// Whether a push has left.
#[derive(Clone, Copy, Debug, PartialEq, Eq)]
enum Pushed {
    Nothing,
    Some,
}

impl EventLoop {
    pub fn new(started: Started) -> EventLoop {
        let Started { server, history, connections, leases, timings, epoch, log } = started;
        let now = connections.now().monotonic;
        EventLoop {
            server,
            history,
            connections,
            held_back: HeldBack::new(),
            leases,
            processes: Processes::default(),
            gathered: Gathered::default(),
            reads: Reads::default(),
            watch: Watch::default(),
            last_received: LastReceived::new(),
            status: Status { epoch, ..Status::default() },
            turned: now,
            shown: now,
            is_stale: false,
            has_news: false,
            counts_from: None,
            nudged: now,
            was_released: false,
            asked_store: now,
            group: CommitGroup::default(),
            until: None,
            failure: None,
            timings,
            requests: OpenRequests::new(),
            log,
            frames: Vec::new(),
            kept_requests: KeptRequests::default(),
            shard: None,
            next_shard: None,
        }
    }

    /// Its connections. What has come on them is given to them, and what leaves is taken from them.
    pub fn connections(&mut self) -> &mut Connections {
        &mut self.connections
    }

    /// The server is asked to end, and continues for a while to judge what has come.
    pub fn stop(&mut self, now: Now) {
        self.until = Some(now.monotonic + LAST_TURNS);
    }

    /// Whether it has been asked to end.
    pub fn is_to_end(&self) -> bool {
        self.until.is_some()
    }

    /// Whether to make another turn after one that began then and judged this much. What came
    /// before the stop is seen by the turn after it.
    pub fn goes_on(&self, was_to_end: bool, began: Now, judged: usize) -> bool {
        let is_over = |until| was_to_end && (judged == 0 || began.monotonic >= until);
        !self.until.is_some_and(is_over)
    }

    /// Why it has ended, if nobody has asked it to. It is reported once.
    pub fn take_failure(&mut self) -> Option<ServeError> {
        self.failure.take()
    }

    /// How long to wait for the next turn if nothing comes.
    pub fn longest_wait(&self) -> Duration {
        if self.until.is_some() || self.is_due() {
            return Duration::ZERO;
        }
        let longest = if self.is_stale {
            SHOWN_FOR.saturating_sub(self.turned.saturating_duration_since(self.shown))
        } else {
            NUDGE
        };
        let takes_readers = self.connections.are_readers_ready();
        let readers = takes_readers.then(|| self.reads.due_in(self.turned));
        let soon = [self.takes_kept_in(self.turned), readers];
        soon.into_iter().flatten().fold(longest, Duration::min)
    }

    /// The turn that began then has ended.
    pub fn end_turn(&mut self, began: Now, now: Now) {
        self.turned = now.monotonic;
        self.timings.turned(began.monotonic, self.turned);
        self.see_phase();
    }

    /// Judges what a connection has.
    pub fn take(&mut self, found: Found) -> Result<(), ServeError> {
        match found {
            Found::Nobody | Found::Nothing | Found::Unread(_) => {}
            Found::Long(connection, head) => self.judge_long(connection, &head)?,
            Found::Frame(connection, mut incoming) => {
                if let Ok(Some(frame)) = incoming.next() {
                    self.receive(connection, frame, self.connections.now())?;
                }
                self.connections.put_back(connection, incoming);
            }
        }
        Ok(())
    }

    /// Takes what came on a connection, and adds what has to be kept.
    fn receive(&mut self, connection: u64, frame: &[u8], now: Now) -> Result<(), ServeError> {
        let frame = Incoming::read(frame);
        if !self.may_send(connection, &frame) {
            self.deny(connection, &frame);
            return Ok(());
        }
        if !(self.has_place(connection, &frame) && self.lets_in(connection, &frame)) {
            return Ok(());
        }
        match frame {
            Incoming::Message(_) | Incoming::Read(_)
                if !self.connections.is_greeted(connection) =>
            {
                self.refuse_other_version(connection);
                Ok(())
            }
            Incoming::Message(message) if self.keeps(connection, message, now) => Ok(()),
            Incoming::Message(message) => self.take_message(connection, message, now),
            Incoming::Host(Some(FromClient::Hello(seen) | FromClient::ReaderHello(seen))) => {
                self.greet(connection, seen);
                Ok(())
            }
            Incoming::Host(Some(FromClient::OtherVersion)) => {
                self.refuse_other_version(connection);
                Ok(())
            }
            Incoming::Sign(sign) => self.receive_sign(connection, sign, now),
            Incoming::Read(request) => {
                self.receive_read(connection, request);
                Ok(())
            }
            Incoming::Host(_) => Ok(()),
        }
    }

    /// Judges a message, and adds what has to be kept.
    fn take_message(
        &mut self,
        connection: u64,
        message: Message<'_>,
        now: Now,
    ) -> Result<(), ServeError> {
        let change = self.judge(connection, message, now)?;
        change.map_or(Ok(()), |change| self.keep(change, now))
    }

    /// Gives the server one message, and returns what has to be kept. A string that is not a
    /// message ends its connection.
    fn judge(
        &mut self,
        connection: u64,
        message: Message<'_>,
        now: Now,
    ) -> Result<Option<Change>, ServeError> {
        if !self.accepts_hello(connection, message.head(), now)? {
            return Ok(None);
        }
        let change = match self.server.step(message.bytes()) {
            Ok(change) => change,
            Err(Code::BadMessage) => {
                self.status.refused += 1;
                let length = message.bytes().len();
                self.log.bad_message(&self.connections.at(connection), length);
                if message.is_of_another_version() {
                    let refusal = Refusal::Version { read: STREAM_VERSION };
                    self.connections.refuse(connection, refusal);
                }
                self.connections.end(connection, CloseReason::BadMessage);
                return Ok(None);
            }
            Err(Code::Alarm) => {
                self.alarm(message);
                return Ok(None);
            }
            // As if the message had been lost.
            Err(Code::OutOfMemory) => return Ok(None),
            Err(code) => return Err(ServeError::Refused(code)),
        };
        self.status.taken += 1;
        self.was_released |= message.kind() == Kind::Release;
        self.route(connection, message)?;
        Ok(change)
    }

    /// Takes the connection for that of the client that the message names, if it is the client's.
    fn route(&mut self, connection: u64, message: Message<'_>) -> Result<(), ServeError> {
        let Some(Head { kind, number, incarnation }) = message.head() else { return Ok(()) };
        let Some(client) = message.client() else {
            self.connections.refuse(connection, Refusal::ClientNumber { number });
            return Ok(());
        };
        let record = self.server.record(client).map_err(ServeError::Refused)?;
        match (sender(record.as_ref(), incarnation), kind) {
            (Sender::Registered, _) => {
                let now = self.connections.now().monotonic;
                self.requests.received(client, message, now, &self.timings);
                if kind.may_change_holdings() {
                    self.watch.may_change(client);
                }
                self.connections.route(client, connection);
                if let Some(process) = self.connections.process(connection) {
                    self.processes.note(client, incarnation, process);
                }
            }
            // The frame leaves after the change is on the disk. It shows the client that it need
            // not send Bye again.
            (Sender::Left, Kind::Bye) => {
                self.connections.send_after_commit(connection, &frames::EMPTY);
            }
            (Sender::Left, _) => {}
            (Sender::Stranger, _) => {
                self.log.stranger(&self.connections.at(connection), client, incarnation);
            }
        }
        if let Some(refusal) = self.refusal(record.as_ref(), incarnation) {
            self.connections.refuse(connection, refusal);
        }
        Ok(())
    }

    /// Why the sender of a message of this incarnation is not served just now, if that is known.
    fn refusal(&self, record: Option<&Record>, incarnation: u64) -> Option<Refusal> {
        let missing: ClientSet = self.status.missing.iter().copied().collect();
        match record {
            Some(&Record { client, incarnation: registered, .. }) if registered > incarnation => {
                Some(Refusal::Incarnation { client, registered })
            }
            _ if missing != ClientSet::default() => Some(Refusal::Missing(missing)),
            _ => None,
        }
    }

    /// Sends again what clients may have missed, closes dead connections and evicts, if that is
    /// due. Returns whether it was.
    pub fn nudge(&mut self, now: Now) -> Result<bool, ServeError> {
        if now.monotonic.saturating_duration_since(self.nudged) < NUDGE {
            return Ok(false);
        }
        self.nudged = now.monotonic;
        self.connections.close_dead();
        for client in self.connections.clients() {
            if self.is_nudged(client, now.monotonic) {
                // A nudge for which there is no memory is a message that is lost.
                let _ = self.server.nudge(client);
            }
        }
        self.look_at_waits(now);
        self.evict_ended(now)?;
        Ok(true)
    }

    /// Whether a client is nudged: one that waits for a lock has others called back for it. To any
    /// other one only its last push would be sent again.
    fn is_nudged(&self, client: u8, now: Instant) -> bool {
        self.requests.waits(client)
            || !self.held_back.has_pushed_within(client, ACKNOWLEDGED_WITHIN, now)
    }

    /// Gives the connections what leaves, and takes requests that were kept, as far as what has left
    /// lets them be taken.
    pub fn send(&mut self, now: Now) -> Result<(), ServeError> {
        self.send_and_call_back(now)?;
        if self.take_kept(now)? {
            self.send_and_call_back(now)?;
        }
        Ok(())
    }

    fn send_and_call_back(&mut self, now: Now) -> Result<(), ServeError> {
        if self.send_ready(now)? == Pushed::Some && mem::take(&mut self.was_released) {
            self.call_back_for_waiters();
            self.send_ready(now)?;
        }
        Ok(())
    }

    /// Has those clients called back that hold what others wait for.
    ///
    /// The library calls nobody back after a release. If the release has let it grant something
    /// that another client waits for, it would do so after the next message that acts. A client
    /// need not acknowledge the grant by a message of its own, so that message may come late.
    fn call_back_for_waiters(&mut self) {
        for client in self.requests.waiting() {
            // A nudge for which there is no memory is a message that is lost.
            let _ = self.server.nudge(client);
        }
    }

    /// Gives the connections what the server sends.
    fn send_ready(&mut self, now: Now) -> Result<Pushed, ServeError> {
        let mut pushed = Pushed::Nothing;
        let length = match self.server.take(&mut self.frames) {
            Ok(length) => length,
            // All that waits rests on changes that are not on the disk.
            Err(Code::Unkept) if !self.gathered.changes.is_empty() => 0,
            Err(code) => return Err(ServeError::Refused(code)),
        };
        let mut sending = self.connections.send(self.history.as_ref().and_then(History::seen));
        for (message, frame) in frames::split(&self.frames[..length]) {
            let message = Message::read(message);
            let Some(client) = message.client() else { continue };
            let is_push = message.kind().is_push();
            if self.held_back.holds(client, message, now.monotonic) {
                continue;
            }
            self.requests.sent(client, message, now.monotonic, &self.timings);
            if is_push {
                pushed = Pushed::Some;
                self.watch.may_change(client);
            }
            sending.put(client, frame);
            self.status.sent += 1;
        }
        sending.end();
        Ok(pushed)
    }
}

pub(crate) mod commits;
pub(crate) mod thread;
pub(crate) mod turn;

mod admission;
mod clients;
mod commit_group;
mod greeting;
mod leases;
mod long_frames;
mod looks;
mod notices;
mod reads;
mod requests;
mod sharding;
mod showing;
#[cfg(test)]
mod tests;
