//! A client and its connection, without a socket, a thread and a clock: what comes goes in, and
//! what is to be sent comes out. [`crate::client::link`] is the shell around it.
use crate::call::error::{Error, ErrorKind};
use crate::client::backoff::Backoff;
use crate::client::refused_connects::RefusedConnects;
use crate::client::silence::{Silence, Silent};
use crate::client::standing::Standing;
use crate::client::state::{Asked, Asking, IDLE_TICK, JobId, State, WasSent};
use crate::lease::clocks::Now;
use crate::log::event_log;
use crate::model::code::Code;
use crate::model::history::Seen;
use crate::model::refusal::Refusal;
use crate::model::shard_fence::Fence;
use crate::net::address::Address;
use crate::net::connect_fault::{self, NoServer, NothingListens, Rejection, Rejections};
use crate::net::servers::Servers;
use crate::proved::client_handle::ClientHandle;
use crate::wire::frames::Frames;
use crate::wire::host_frame;
use crate::wire::message::Message;
use std::fmt;
use std::io;
use std::time::{Duration, Instant};

/// A server that does not serve a client reports why once a second, and when the client connects
/// again. An older report no longer holds.
const HINT: Duration = Duration::from_secs(2);

/// This many connections in a row have to be answered by another program before a client that joins
/// gives up. One answer may be that of a proxy whose server is being restarted.
const STRANGERS: u32 = 2;

/// For so long, a client of a shard that has just changed connects again soon: the shard's server
/// is about to start.
const HURRY: Duration = Duration::from_secs(10);

/// The longest pause of one that does.
const SOON: Duration = Duration::from_millis(50);

/// Whether a client that joins gives up at this moment, since the server reports this reason.
type GivesUp = Box<dyn Fn(Refusal, Instant) -> bool + Send>;

/// A client, its connection to one of its servers, and what it has learned of them.
///
/// Each call is made at the moment that [`Session::at`] was given last. There are four kinds of
/// methods:
///
/// - A. What callers ask: [`Session::join`]; [`Session::state`], for everything else; and
///   [`Session::give_up`], for what nobody waits for any more.
/// - B. Connections: [`Session::connected`] begins one, and [`Session::disconnected`] ends it, or
///   reports that none was made. Before the first, a client that [`Session::has_to_begin_again`]
///   does so by [`Session::begin_again`]. [`crate::client::engine`] has the order.
/// - C. What comes, and what time brings: [`Session::receive`] and [`Session::proceed`]. If one of
///   them fails, the connection has to end.
/// - D. What is to be done next: [`Session::take`] returns what leaves, and [`Session::due_in`] how
///   soon to proceed again if nothing comes.
///
/// On a connection, [`Session::receive`] takes all that has come, [`Session::proceed`] follows, and
/// then [`Session::take`]. After a call of the kind A, [`Session::take`] follows at once.
pub(crate) struct Session {
    state: State,
    servers: Servers,
    /// The place of the server that it is connected to, or tries next.
    place: usize,
    backoff: Backoff,
    connection: Option<Connection>,
    /// How the last connection ended, or why none was made, until the server answers on another.
    fault: Option<io::Error>,
    /// Why the server does not serve the client, as it last reported, and when.
    refusal: Option<(Refusal, Instant)>,
    /// How the last connections ended, as far as one side rejected the other.
    rejections: Rejections,
    /// How many of the last connections in a row another program has answered.
    strangers: u32,
    refused_connects: RefusedConnects,
    /// The last of the refused connections for which a client that was to join gave up.
    nothing_listens: Option<io::Error>,
    /// How much the client has seen of the server's store.
    seen: Option<Seen>,
    /// The greatest epoch that a server has sent.
    epoch: u64,
    joining: Option<Joining>,
    map_follower: MapFollower,
}

/// Whether a client waits for a server that is of another shard, or that is not there: the shard
/// may be changing.
#[derive(Clone, Copy, Debug, PartialEq, Eq)]
enum MapFollower {
    No,
    /// It does, since it joins by a map that may change, or continues by each next map. Until it has
    /// joined, it connects again soon for a while after this moment.
    Since(Instant),
}

/// One connection, while it lasts.
struct Connection {
    received: Received,
    silence: Silence,
    fence: Fence,
    /// What the host sends next.
    to_send: Vec<u8>,
}

/// What came on a connection.
#[derive(Clone, Copy, Debug, Default, PartialEq, Eq)]
struct Received {
    /// A whole frame.
    frame: bool,
    /// A message that the library has accepted.
    message: bool,
    /// That the server's store went back.
    went_back: bool,
}

/// A caller waits until the client has joined.
struct Joining {
    job: JobId,
    gives_up: GivesUp,
}

impl Session {
    /// A client that is not connected, and draws its pauses between connections by this seed.
    pub fn new(servers: Servers, state: State, seed: u64) -> Session {
        Session {
            state,
            place: 0,
            backoff: Backoff::among(servers.count(), seed),
            servers,
            connection: None,
            fault: None,
            refusal: None,
            rejections: Rejections::default(),
            strangers: 0,
            refused_connects: RefusedConnects::default(),
            nothing_listens: None,
            seen: None,
            epoch: 0,
            joining: None,
            map_follower: MapFollower::No,
        }
    }

    /// From now on it waits for a server that is of another shard: the server is about to change, or
    /// the next map, by which the client leaves, is about to come.
    pub fn follow_map(&mut self) {
        self.map_follower = MapFollower::Since(self.now());
    }

    /// From now on it waits no longer for one that is of another shard.
    pub fn keep_to_map(&mut self) {
        self.map_follower = MapFollower::No;
    }

    /// Whether what is not kept is to be read from this server: not if the client leaves, since its
    /// shard is another one by the next map.
    pub fn standing(&self) -> Standing {
        match self.map_follower {
            _ if self.state.has_begun_to_leave() => Standing::Elsewhere,
            MapFollower::No => Standing::Fixed,
            MapFollower::Since(_) => Standing::Here,
        }
    }

    /// The session at this moment, read after all that the next call takes has come.
    pub fn at(&mut self, now: Now) -> &mut Session {
        self.state.at(now);
        self
    }

    /// What the client was asked.
    pub fn state(&mut self) -> &mut State {
        &mut self.state
    }

    /// The server that it is connected to, or tries next.
    pub fn address(&self) -> &Address {
        self.servers.at(self.place)
    }

    /// The place of that server.
    #[cfg(feature = "sans-io")]
    pub fn place(&self) -> usize {
        self.place
    }

    /// Whether the client needs a greater incarnation before it connects: it has dropped all, or
    /// its lease has ended.
    pub fn has_to_begin_again(&mut self) -> bool {
        self.state.end_lease_if_over();
        self.state.is_void()
    }

    /// The client continues under the incarnation of this handle.
    pub fn begin_again(&mut self, client: ClientHandle) {
        self.state.begin_again(client);
    }

    /// A connection is made, and the client's incarnation is on the disk, so it may be sent. Returns
    /// the bytes with which the connection begins. One that ends before anything has come reports
    /// nothing about its server: one without the greeting would be one without a lease.
    ///
    /// # Errors
    ///
    /// If the client has to begin again first; and if the clock of leases can't be read, or has not
    /// gone on since the last sign.
    pub fn connected(&mut self) -> io::Result<Vec<u8>> {
        self.state.confirm_incarnation().map_err(io::Error::other)?;
        let sign = self.state.greet()?;
        self.connection = Some(Connection {
            received: Received::default(),
            silence: Silence::new(self.now(), self.servers.count()),
            fence: Fence::new(self.servers.shard()),
            to_send: Vec::new(),
        });
        self.state.tick_soon();
        Ok([self.hello(), sign.frame()].concat())
    }

    /// The connection has ended, or was not made, for this reason. Returns how long to wait
    /// before the next attempt.
    pub fn disconnected(&mut self, end: io::Error) -> Duration {
        let received = self.connection.take().map_or(Received::default(), |it| it.received);
        self.state.disconnect();
        let rejection = Rejection::carried_by(&end);
        // A client that has to begin again does so at once.
        if received.went_back || received.message && rejection.is_none() {
            self.backoff.reset();
        }
        event_log::disconnected(self.address(), &end);
        self.rejections.note(rejection);
        self.refused_connects.note(NothingListens::is_carried_by(&end), self.now());
        let is_stranger = NoServer::carried_by(&end).is_some();
        self.strangers = if is_stranger { self.strangers + 1 } else { 0 };
        self.fault = Some(end);
        self.place = (self.place + 1) % self.servers.count();
        self.end_hopeless();
        self.end_join_among_strangers();
        self.end_join_if_nothing_listens();
        let pause = self.backoff.pause();
        if self.gives_up_if_refused() {
            return self.refused_connects.shorten(pause, self.now());
        }
        if self.is_in_a_hurry() { pause.min(SOON) } else { pause }
    }

    /// Whether its server is about to start.
    fn is_in_a_hurry(&self) -> bool {
        let MapFollower::Since(since) = self.map_follower else { return false };
        !self.state.has_joined() && self.now().saturating_duration_since(since) < HURRY
    }

    /// Takes what has come whole.
    ///
    /// # Errors
    ///
    /// The connection has to end, for this reason.
    pub fn receive(&mut self, frames: &mut Frames) -> io::Result<()> {
        let now = self.now();
        self.connection()?.silence.note_received(now);
        while let Ok(Some(frame)) = frames.next() {
            self.connection()?.received.frame = true;
            if host_frame::is_of_host(frame) {
                self.receive_host_frame(frame)?;
            } else {
                self.receive_message(Message::read(frame))?;
            }
        }
        if frames.is_broken() { Err(self.no_frame(frames)) } else { Ok(()) }
    }

    /// Why the connection ends when what comes next is no frame.
    fn no_frame(&self, came: &Frames) -> io::Error {
        match &self.connection {
            Some(Connection { received: Received { frame: true, .. }, .. }) => {
                bad_message(Code::BadMessage)
            }
            _ => connect_fault::no_frame(self.address(), came),
        }
    }

    fn receive_message(&mut self, message: Message<'_>) -> io::Result<()> {
        self.state.receive(message.bytes()).map_err(bad_message)?;
        self.connection()?.received.message = true;
        self.accepted();
        self.compare_epochs(message)
    }

    /// The server takes this side: how an older connection ended explains nothing any more.
    fn accepted(&mut self) {
        self.rejections.accept();
        self.fault = None;
    }

    /// Leaves a server that is of an older epoch than one that the client knows, if there are
    /// others: it may continue for ever, and the one that serves waits for the client's report.
    fn compare_epochs(&mut self, message: Message<'_>) -> io::Result<()> {
        let Some(epoch) = message.epoch() else { return Ok(()) };
        let known = self.epoch;
        self.epoch = known.max(epoch);
        if epoch >= known || !self.servers.are_several() {
            return Ok(());
        }
        let why = format!("the server is of epoch {epoch}, and another one of epoch {known}");
        Err(io::Error::other(why))
    }

    /// Continues with the jobs, when all that came is taken; sends again what is not answered; and
    /// asks a silent server whether it is there.
    ///
    /// # Errors
    ///
    /// The connection has to end, for this reason: the lease has ended, or the server is silent.
    pub fn proceed(&mut self) -> io::Result<()> {
        self.greet_again_if_due()?;
        self.look_at_silence()?;
        self.state.end_lease_if_over();
        if self.state.is_void() {
            return Err(io::Error::other(Error::from(ErrorKind::LeaseEnded)));
        }
        self.state.advance(Asking::Allowed);
        self.state.tick_if_due();
        self.end_join_if_hopeless();
        Ok(())
    }

    /// Asks a server that is silent whether it is there, and leaves the connection if no answer
    /// comes.
    fn look_at_silence(&mut self) -> io::Result<()> {
        let now = self.now();
        match self.connection()?.silence.look(now) {
            Silent::No => {}
            Silent::Ask => {
                let hello = self.hello();
                self.connection()?.to_send.extend(hello);
            }
            Silent::Leave => {
                let why = "the server does not answer";
                return Err(io::Error::new(io::ErrorKind::TimedOut, why));
            }
        }
        Ok(())
    }

    /// Appends what is to be sent. Without a connection it is lost: a tick sends it again.
    pub fn take(&mut self, frames: &mut Vec<u8>) {
        match &mut self.connection {
            Some(connection) => {
                frames.append(&mut connection.to_send);
                self.state.take(frames);
            }
            None => self.state.lose(),
        }
    }

    /// How long it may sleep if nothing comes: until the next tick or sign.
    pub fn due_in(&self) -> Duration {
        self.state.longest_sleep().unwrap_or(IDLE_TICK).min(self.state.next_tick())
    }

    /// The same as a moment: it stays the same as long as nothing comes and no tick is due earlier.
    pub fn due_at(&self) -> Instant {
        self.now() + self.due_in()
    }

    /// Waits until the client has joined, and no longer once the server reports a reason for which
    /// the caller gives up.
    pub fn join(&mut self, gives_up: GivesUp) -> Asked<()> {
        let asked = self.state.join();
        self.joining = Some(Joining { job: asked.id, gives_up });
        asked
    }

    /// Nobody waits for the job any more. Returns why it has no answer.
    pub fn give_up(&mut self, job: JobId) -> ErrorKind {
        let why = self.unanswered(self.state.was_sent(job));
        if self.joining.as_ref().is_some_and(|joining| joining.job == job) {
            self.note_if_nothing_listens();
        }
        self.state.abandon(job, why);
        why
    }

    /// Ends the jobs that can't be done, since the only server there is rejects this side again and
    /// again. A write that was sent may be done already: its answer is awaited until the deadline,
    /// unless the server has reported that it serves another shard.
    pub fn end_hopeless(&mut self) {
        if self.servers.are_several() || !self.rejections.are_final() {
            return;
        }
        let is_of_shard = matches!(self.rejections.last(), Some(Rejection::OtherShard(_)));
        if is_of_shard && self.map_follower != MapFollower::No {
            return;
        }
        let of_sent = is_of_shard.then(|| self.unanswered(WasSent::Yes));
        self.state.refuse_all(self.unanswered(WasSent::No), of_sent);
    }

    /// A client that joins gives up if another program answers at its only address repeatedly. One
    /// that has joined once waits for its server to come back.
    fn end_join_among_strangers(&mut self) {
        if self.servers.are_several() || self.strangers < STRANGERS {
            return;
        }
        if let Some(Joining { job, .. }) = self.joining.take() {
            self.state.refuse(job, self.unanswered(WasSent::No));
        }
    }

    /// A client that joins gives up if nothing listens at its only address. Of several servers the
    /// others stand by, and refuse until one of them has taken over. The server of a shard may be
    /// about to start, since the shard changes. A client that has joined once waits for a server to
    /// come back.
    fn end_join_if_nothing_listens(&mut self) {
        if !self.gives_up_if_refused() || !self.refused_connects.are_final() {
            return;
        }
        self.note_if_nothing_listens();
        if let Some(Joining { job, .. }) = self.joining.take() {
            self.state.refuse(job, ErrorKind::TimedOut);
        }
    }

    /// Keeps why a client that was to join gives up, if nothing listens at its only address.
    fn note_if_nothing_listens(&mut self) {
        if !self.servers.are_several() && self.refused_connects.are_final() {
            self.nothing_listens = self.fault.take();
        }
    }

    fn gives_up_if_refused(&self) -> bool {
        let is_joining = |joining: &Joining| self.state.is_open(joining.job);
        let may_change = self.map_follower != MapFollower::No;
        !self.servers.are_several() && !may_change && self.joining.as_ref().is_some_and(is_joining)
    }

    fn end_join_if_hopeless(&mut self) {
        let (Some(hint), Some(Joining { job, gives_up })) = (self.hint(), &self.joining) else {
            return;
        };
        if gives_up(hint, self.now()) {
            self.state.refuse(*job, self.unanswered(WasSent::No));
            self.joining = None;
        }
    }

    /// Why a job has no answer by now, as far as the server has reported. Of a write that was sent
    /// nothing more is known.
    fn unanswered(&self, was_sent: WasSent) -> ErrorKind {
        match (self.rejections.last(), was_sent) {
            (Some(Rejection::NotTaken(_)), WasSent::No) => return ErrorKind::TurnedAway,
            (Some(Rejection::OtherShard(other)), WasSent::No) => {
                return ErrorKind::OtherShard(*other);
            }
            (Some(Rejection::OtherVersion(read)), _) => {
                return ErrorKind::Unserved(Refusal::Version { read: *read });
            }
            (Some(Rejection::OtherShard(other)), WasSent::Yes) => {
                return ErrorKind::Unserved(Refusal::OtherShard(other.served));
            }
            _ => {}
        }
        self.hint().map_or(ErrorKind::TimedOut, ErrorKind::Unserved)
    }

    /// Why the server does not serve the client, if it has reported that just before.
    fn hint(&self) -> Option<Refusal> {
        let is_so = |since: Instant| self.now().saturating_duration_since(since) < HINT;
        self.refusal.filter(|(_, since)| is_so(*since)).map(|(refusal, _)| refusal)
    }

    /// Why the last connection was rejected, if it was and the server does not take this side now.
    pub fn rejection(&self) -> Option<Rejection> {
        self.rejections.last().cloned()
    }

    /// How the last connection ended, or why none was made, unless the server has answered on
    /// another one since. It is reported once.
    pub fn take_fault(&mut self) -> Option<io::Error> {
        self.fault.take()
    }

    /// The refused connection for which the client gave up as it was to join, if it did.
    pub fn take_nothing_listens(&mut self) -> Option<io::Error> {
        self.nothing_listens.take()
    }

    /// Whether there is a connection just now.
    pub fn is_connected(&self) -> bool {
        self.connection.is_some()
    }

    fn connection(&mut self) -> io::Result<&mut Connection> {
        self.connection.as_mut().ok_or_else(|| io::ErrorKind::NotConnected.into())
    }

    fn now(&self) -> Instant {
        self.state.now().monotonic
    }
}

impl fmt::Debug for Session {
    fn fmt(&self, f: &mut fmt::Formatter<'_>) -> fmt::Result {
        f.debug_struct("Session").field("servers", &self.servers).finish_non_exhaustive()
    }
}

fn bad_message(code: Code) -> io::Error {
    io::Error::new(
        io::ErrorKind::InvalidData,
        format!("the server sent a message that no krl server sends: {code}"),
    )
}

mod host;
#[cfg(test)]
mod tests;
