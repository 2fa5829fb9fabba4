//! One connection of a server: what has come on it, what its host sends to the peer, and what waits
//! to be written.
use crate::access::Entry;
use crate::identity::Identity;
use crate::log::rate_limit::RateLimit;
use crate::model::history::Seen;
use crate::model::refusal::Refusal;
use crate::net::outbox::Outbox;
use crate::net::poller::IoInterest;
use crate::net::readiness::{Readiness, Unread};
use crate::net::tls::TlsSession;
use crate::server::close_reason::CloseReason;
use crate::wire::frames::{Frames, HEAD};
use crate::wire::host_frame::FromServer;
use host_frames::HostFrames;
use std::io::{self, ErrorKind, Read, Write};
use std::time::{Duration, Instant};

/// A connection on which nothing comes for this long is closed: clients tick more often.
const SILENCE: Duration = Duration::from_secs(30);

/// This much may wait before a further batch is lost: 39 of the longest messages.
const MAX_WAITING: usize = 1 << 18;

/// What has been sent to the host of a peer that takes host frames.
#[derive(Debug, Default)]
struct Host {
    refusals: [RateLimit; Refusal::REASONS],
    /// The answer to its Hello, which leaves before everything else.
    answer: Vec<u8>,
    /// How far the store had come, as was sent last.
    seen: Option<Seen>,
}

/// What becomes of the frames that leave together.
#[derive(Clone, Copy, Debug, PartialEq, Eq)]
enum Batch {
    NotBegun,
    Begun,
    /// The peer takes too little: the batch is lost.
    Lost,
}

/// What a look at a connection found.
#[derive(Clone, Debug, PartialEq, Eq)]
pub(crate) enum Looked {
    /// A frame has come whole.
    Frame,
    /// No frame has come whole yet.
    NoFrame,
    /// A long frame begins, and has to be admitted by its head.
    Long([u8; HEAD]),
    /// It has ended.
    Ended,
    /// It begins a frame that is longer than any message.
    TooLong,
    /// The handshake of TLS failed, for this reason.
    NotShaken(String),
}

/// A connection that is open, without its socket: the owner of that reads it when it is to be read,
/// and writes what waits.
#[derive(Debug)]
pub(crate) struct Connection {
    entry: Entry,
    /// A frame has come whole.
    has_sent_frame: bool,
    incoming: Frames,
    unread: Unread,
    received_at: Instant,
    outbox: Outbox,
    batch: Batch,
    /// What leaves before the server's messages, as soon as it may.
    host_frames: HostFrames,
    /// None if the peer has not shown that it takes host frames.
    host: Option<Host>,
    /// Why nothing more is taken from it: then what waits is the last that is written.
    ends_for: Option<CloseReason>,
    /// Its client takes the server for what it serves.
    is_let_in: bool,
    /// The client whose report comes, if one comes that is long.
    reporter: Option<u8>,
}

impl Connection {
    /// A new connection, whose messages have at most `longest` bytes.
    pub fn new(entry: Entry, longest: usize, now: Instant) -> Connection {
        Connection {
            entry,
            has_sent_frame: false,
            incoming: Frames::to_server(longest),
            unread: Unread::Nothing,
            received_at: now,
            outbox: Outbox::default(),
            batch: Batch::NotBegun,
            host_frames: HostFrames::default(),
            host: None,
            ends_for: None,
            is_let_in: false,
            reporter: None,
        }
    }

    /// The system has reported that something came.
    pub fn is_readable(&mut self, readiness: Readiness) {
        self.unread.report(readiness);
    }

    /// Whether a look may find something.
    pub fn is_ready(&self) -> bool {
        self.ends_for.is_none() && (self.unread != Unread::Nothing || !self.incoming.needs_more())
    }

    /// Whether it is to be read before a look finds anything.
    pub fn has_to_read(&self) -> bool {
        let wants_more = self.incoming.needs_more() && self.incoming.long_head().is_none();
        wants_more && self.unread != Unread::Nothing
    }

    /// Sees whether a frame has come whole.
    pub fn look(&mut self) -> Looked {
        if let Some(head) = self.incoming.long_head() {
            return Looked::Long(head);
        }
        match (self.incoming.is_broken(), self.incoming.needs_more()) {
            (true, _) => Looked::TooLong,
            (false, true) => Looked::NoFrame,
            (false, false) => {
                self.has_sent_frame = true;
                Looked::Frame
            }
        }
    }

    /// Takes what a read by [`Connection::fill`] came to, and sees whether a frame has come whole.
    pub fn has_read(&mut self, came: io::Result<usize>, now: Instant) -> Looked {
        match self.unread.note(came) {
            Ok(has_come) => {
                if has_come {
                    self.received_at = now;
                }
                self.look()
            }
            Err(error) => self.why_unread(&error),
        }
    }

    /// What a read that failed with this error found.
    fn why_unread(&self, error: &io::Error) -> Looked {
        let is_shaking = matches!(&self.entry, Entry::Unknown(session) if session.peer().is_none());
        // Any other error is the socket's.
        let is_of_tls =
            matches!(error.kind(), ErrorKind::PermissionDenied | ErrorKind::InvalidData);
        if is_shaking && is_of_tls { Looked::NotShaken(error.to_string()) } else { Looked::Ended }
    }

    /// Who is at the other end, as soon as that is known: by a certificate, or by a whole frame of
    /// a peer that needs none.
    pub fn known(&self) -> Option<Identity> {
        match &self.entry {
            Entry::Known(identity) => self.has_sent_frame.then_some(*identity),
            Entry::Unknown(session) => session.peer(),
        }
    }

    /// Who is at the other end. One that is not known yet is nobody.
    pub fn identity(&self) -> Identity {
        match &self.entry {
            Entry::Known(identity) => *identity,
            Entry::Unknown(session) => session.peer().unwrap_or(Identity::nobody()),
        }
    }

    fn session(&mut self) -> Option<&mut TlsSession> {
        match &mut self.entry {
            Entry::Known(_) => None,
            Entry::Unknown(session) => Some(session),
        }
    }

    /// Bytes in: all that comes passes here. It reads once, and returns how many bytes came: none
    /// if the other side has ended.
    pub fn fill(&mut self, stream: &mut impl Read) -> io::Result<usize> {
        match &mut self.entry {
            Entry::Known(_) => self.incoming.fill(stream),
            Entry::Unknown(session) => session.fill(stream, &mut self.incoming),
        }
    }

    /// Bytes out: all that leaves passes here. It writes what the peer takes at once.
    pub fn write(&mut self, stream: &mut impl Write, now: Instant) -> io::Result<()> {
        if let Some(session) = self.session() {
            let sealed = session.take_sealed()?;
            self.outbox.put(&sealed);
        }
        self.outbox.write(stream, now)
    }

    /// Puts bytes after those that leave.
    fn put(&mut self, bytes: &[u8]) {
        match &mut self.entry {
            Entry::Known(_) => self.outbox.put(bytes),
            Entry::Unknown(session) => session.put(bytes),
        }
    }

    /// What came and is not taken. It goes back by `put_back`: so its frames are judged where they
    /// lie.
    pub fn take_incoming(&mut self) -> Frames {
        std::mem::take(&mut self.incoming)
    }

    pub fn put_back(&mut self, incoming: Frames) {
        self.incoming = incoming;
        self.reporter = None;
    }

    /// The long report of this client, which begins, may come whole.
    pub fn admit_long(&mut self, client: u8) {
        self.incoming.admit_long();
        self.reporter = Some(client);
    }

    /// The client whose long report comes.
    pub fn reporter(&self) -> Option<u8> {
        self.reporter
    }

    /// What it has to be watched for. A socket that takes all is not watched for writes: each time
    /// that the peer reads would be reported.
    pub fn interest(&self) -> IoInterest {
        match (self.outbox.is_empty(), self.ends_for.is_some()) {
            (true, _) => IoInterest::Reads,
            (false, false) => IoInterest::Both,
            (false, true) => IoInterest::Writes,
        }
    }

    /// How many bytes wait to be written.
    #[cfg(test)]
    pub fn waits(&self) -> usize {
        self.outbox.waits()
    }

    /// Takes nothing more from it, for this reason. It is over when nothing waits for a commit, and
    /// all is written.
    pub fn end(&mut self, reason: CloseReason) {
        self.ends_for.get_or_insert(reason);
    }

    /// Why nothing more is taken from it.
    pub fn ends_for(&self) -> Option<CloseReason> {
        self.ends_for
    }

    /// Its client takes the server for what it serves.
    pub fn let_in(&mut self) {
        self.is_let_in = true;
    }

    pub fn is_let_in(&self) -> bool {
        self.is_let_in
    }

    pub fn is_over(&self) -> bool {
        self.ends_for.is_some() && self.outbox.is_empty() && !self.host_frames.is_waiting()
    }

    /// Why the connection is closed now, if its peer is silent or takes nothing for too long.
    pub fn why_dead(&self, now: Instant) -> Option<CloseReason> {
        if self.outbox.is_stalled(now) {
            return Some(CloseReason::TakesNothing);
        }
        (self.silent_for(now) >= SILENCE).then_some(CloseReason::Silent)
    }

    /// When something came last.
    pub fn last_received(&self) -> Instant {
        self.received_at
    }

    /// How long nothing has come.
    pub fn silent_for(&self, now: Instant) -> Duration {
        now.saturating_duration_since(self.received_at)
    }

    /// The peer's host takes host frames, and its Hello gets this answer before everything else.
    pub fn greet(&mut self, answer: FromServer) {
        self.host.get_or_insert_default().answer = answer.frame();
    }

    pub fn is_greeted(&self) -> bool {
        self.host.is_some()
    }

    /// Reports to the peer's host why its client is not served: each reason once a second at most,
    /// and none to a host that takes no host frames.
    pub fn refuse(&mut self, refusal: Refusal, now: Instant) {
        let Some(host) = &mut self.host else { return };
        if host.refusals[usize::from(refusal.reason())].admits(now).is_some() {
            self.host_frames.put(&FromServer::Refused(refusal).frame());
        }
    }

    /// Takes a frame of the host, which leaves after the next commit.
    pub fn send_after_commit(&mut self, frame: &[u8]) {
        self.host_frames.put(frame);
    }

    /// Something of the connection waits for the next commit: a frame of the host, or the end of
    /// the connection. Returns whether nothing did before.
    pub fn waits_for_commit(&mut self) -> bool {
        self.host_frames.waits()
    }

    /// The commit is made: what waited for it leaves with the next batch.
    pub fn committed(&mut self) {
        self.host_frames.committed();
    }

    /// Puts a frame of the server into the batch. `seen` is how far the store has come.
    pub fn put_message(&mut self, frame: &[u8], seen: Option<Seen>) {
        self.begin_batch(seen);
        if self.batch == Batch::Begun {
            self.put(frame);
        }
    }

    /// Ends the batch, which has the host frames that may leave, even if it has no message.
    pub fn end_batch(&mut self, seen: Option<Seen>) {
        self.begin_batch(seen);
        self.batch = Batch::NotBegun;
    }

    /// Begins a batch, unless so much waits already that the peer seems stuck: then it is lost.
    fn begin_batch(&mut self, seen: Option<Seen>) {
        if self.batch != Batch::NotBegun {
            return;
        }
        let is_lost = self.outbox.waits() >= MAX_WAITING;
        self.batch = if is_lost { Batch::Lost } else { Batch::Begun };
        let mut host_frames = std::mem::take(&mut self.host_frames);
        if is_lost {
            self.host.iter_mut().for_each(|host| host.answer.clear());
        } else {
            let news = self.take_news(seen);
            self.put(&news);
            self.put(host_frames.free());
        }
        host_frames.forget_free();
        self.host_frames = host_frames;
    }

    /// What the peer's host has not learned yet: the answer to its Hello, and how far the store has
    /// come. A connection that ends serves no client, and learns nothing of the store.
    fn take_news(&mut self, seen: Option<Seen>) -> Vec<u8> {
        let Some(host) = &mut self.host else { return Vec::new() };
        let answer = std::mem::take(&mut host.answer);
        let is_news = std::mem::replace(&mut host.seen, seen) != seen && self.ends_for.is_none();
        let mark = seen.filter(|_| is_news).map(|now| FromServer::Mark(now).frame());
        match mark {
            Some(mark) if answer.is_empty() => mark,
            Some(mark) => [answer, mark].concat(),
            None => answer,
        }
    }
}

mod host_frames;

#[cfg(test)]
mod tests;
