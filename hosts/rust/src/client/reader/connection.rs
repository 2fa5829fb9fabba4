//! The connection of a reader.
use crate::model::history::Seen;
use crate::model::refusal::Refusal;
use crate::model::shard_fence::Fence;
use crate::net::address::Address;
use crate::net::carrier::Carrier;
use crate::net::connect_fault::{self, Rejection};
use crate::net::outbox::Outbox;
use crate::net::poller::{IoInterest, Poller, Ready};
use crate::net::readiness::Unread;
use crate::net::servers::Servers;
use crate::wire::frames::Frames;
use crate::wire::host_frame::{FromClient, FromServer};
use crate::wire::read_frame::{ReadRequest, RowPage};
use std::fmt;
use std::io::{self, ErrorKind};
use std::time::{Duration, Instant};

/// How long a connection may take to be made.
const CONNECT: Duration = Duration::from_secs(1);

/// How long a server may be silent that was asked, before another connection is made.
const SILENCE: Duration = Duration::from_secs(5);

/// The one connection, as the poller names it.
const CONNECTION: u64 = 0;

/// What a reader reports that has no right.
const DENIED: &str = "the server does not let this side of the connection read: its certificate, or \
                      its user, names no client and no reader";

/// Why a connection ended.
#[derive(Debug)]
pub(super) enum Lost {
    /// The store lacks what the reader has seen of it.
    WentBack,
    /// The server does not serve the reader, for this reason.
    Refused(Refusal),
    /// The time of the call is over, and the server has not answered.
    Late,
    /// The network failed, or the two sides do not take each other.
    Failed(io::Error),
}

/// An open connection to one server.
pub(super) struct Connection {
    carrier: Carrier,
    poller: Poller,
    frames: Frames,
    unread: Unread,
    outbox: Outbox,
    fence: Fence,
    address: Address,
    /// A frame has come.
    has_received: bool,
    seen: Option<Seen>,
}

impl Connection {
    /// Connects to the server at this address, which learns how much of a store the reader has seen.
    pub fn open(
        address: &Address,
        servers: &Servers,
        seen: Option<Seen>,
        deadline: Instant,
    ) -> Result<Connection, Lost> {
        let wait = CONNECT.min(deadline.saturating_duration_since(Instant::now()));
        let carrier = Carrier::connect(address, servers.tls(), wait.max(Duration::from_millis(1)))?;
        let (poller, _) = Poller::new()?;
        poller.add(CONNECTION, carrier.stream())?;
        let mut connection = Connection {
            carrier,
            poller,
            frames: Frames::to_client(),
            unread: Unread::Something,
            outbox: Outbox::default(),
            fence: Fence::new(servers.shard()),
            address: address.clone(),
            has_received: false,
            seen,
        };
        connection.put(FromClient::ReaderHello(seen).frame())?;
        if let Some(shard) = servers.shard() {
            connection.put(FromClient::Shard(shard).frame())?;
        }
        Ok(connection)
    }

    /// How much the reader has seen of the store.
    pub fn seen(&self) -> Option<Seen> {
        self.seen
    }

    /// Asks, and waits for the answer.
    pub fn ask(&mut self, request: ReadRequest, deadline: Instant) -> Result<RowPage, Lost> {
        self.put(request.frame())?;
        let silent_at = Instant::now() + SILENCE;
        loop {
            if let Some(page) = self.receive(request)? {
                return Ok(page);
            }
            let now = Instant::now();
            if now >= deadline {
                return Err(Lost::Late);
            }
            if now >= silent_at {
                let why = "the server does not answer";
                return Err(Lost::Failed(io::Error::new(ErrorKind::TimedOut, why)));
            }
            self.wait(now, deadline.min(silent_at))?;
        }
    }

    fn put(&mut self, mut frames: Vec<u8>) -> io::Result<()> {
        self.carrier.seal(&mut frames)?;
        self.outbox.put(&frames);
        Ok(())
    }

    /// Writes what waits, and waits until something comes or the connection takes more.
    fn wait(&mut self, now: Instant, until: Instant) -> io::Result<()> {
        self.carrier.write(&mut self.outbox, now)?;
        let writes = !self.outbox.is_empty();
        let interest = if writes { IoInterest::Both } else { IoInterest::Reads };
        self.poller.watch(CONNECTION, self.carrier.stream(), interest)?;
        self.poller.wait(until.saturating_duration_since(now))?;
        for ready in self.poller.ready() {
            if let Ready::Connection(_, readiness) = ready {
                self.unread.report(readiness);
            }
        }
        Ok(())
    }

    /// Takes what has come. Returns the answer, if it is there.
    fn receive(&mut self, request: ReadRequest) -> Result<Option<RowPage>, Lost> {
        while self.unread != Unread::Nothing {
            self.unread.note(self.carrier.fill(&mut self.frames))?;
            while let Some(frame) = self.next_frame()? {
                if let Some(page) = self.receive_frame(&frame, request)? {
                    return Ok(Some(page));
                }
            }
        }
        Ok(None)
    }

    fn next_frame(&mut self) -> io::Result<Option<Vec<u8>>> {
        match self.frames.next() {
            Ok(Some(frame)) => {
                self.has_received = true;
                Ok(Some(frame.to_vec()))
            }
            Ok(None) => Ok(None),
            Err(_) if self.has_received => Err(ErrorKind::InvalidData.into()),
            Err(_) => Err(connect_fault::no_frame(&self.address, &self.frames)),
        }
    }

    fn receive_frame(
        &mut self,
        frame: &[u8],
        request: ReadRequest,
    ) -> Result<Option<RowPage>, Lost> {
        if let Some(page) = RowPage::read(frame) {
            self.fence.passes().map_err(io::Error::from)?;
            if page.number != request.number {
                return Ok(None);
            }
            let answers = request.is_answered_by(&page);
            return if answers { Ok(Some(page)) } else { Err(Lost::Failed(bad_answer())) };
        }
        match FromServer::read(frame) {
            Some(FromServer::Refused(refusal)) => return Err(self.refused(refusal)),
            Some(FromServer::Mark(seen)) => self.seen = Some(seen),
            Some(FromServer::WentBack) => return Err(Lost::WentBack),
            Some(FromServer::Shard(served)) => {
                self.fence.note_served(served).map_err(io::Error::from)?;
            }
            Some(FromServer::Hello { .. }) | None => {}
        }
        Ok(None)
    }

    fn refused(&self, refusal: Refusal) -> Lost {
        let rejection = match refusal {
            Refusal::OtherShard(served) => Rejection::OtherShard(self.fence.is_refused(served)),
            Refusal::Version { read } => Rejection::OtherVersion(read),
            Refusal::Denied => Rejection::NotTaken(DENIED.into()),
            _ => return Lost::Refused(refusal),
        };
        Lost::Failed(rejection.into())
    }
}

impl Drop for Connection {
    fn drop(&mut self) {
        self.carrier.shut();
    }
}

impl fmt::Debug for Connection {
    fn fmt(&self, f: &mut fmt::Formatter<'_>) -> fmt::Result {
        f.debug_struct("Connection").field("address", &self.address).finish_non_exhaustive()
    }
}

impl From<io::Error> for Lost {
    fn from(error: io::Error) -> Lost {
        Lost::Failed(error)
    }
}

fn bad_answer() -> io::Error {
    io::Error::new(ErrorKind::InvalidData, "the server sent other rows than were requested")
}
