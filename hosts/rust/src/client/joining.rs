//! How a client joins.
use crate::call::error::{ErrorKind, JoinErrorKind};
use crate::client::incarnations::Incarnations;
use crate::client::link::Link;
use crate::client::lock_file::LockFile;
use crate::client::not_joined::why_not_joined;
use crate::client::shard_client::ShardClient;
use crate::client::state::State;
use crate::client::timeout::{MAX_WAIT, TIMEOUT};
use crate::lease::clocks::Now;
use crate::lease::terms::Older;
use crate::model::client_number::ClientNumber;
use crate::model::refusal::Refusal;
use crate::net::servers::Servers;
use crate::proved::client_handle::ClientHandle;
use std::path::Path;
use std::time::{Duration, Instant};

/// How long a client waits.
#[derive(Clone, Copy, Debug)]
pub(crate) struct Waits {
    /// For any answer.
    pub timeout: Duration,
    /// For its number, if the server reports that another process has it.
    pub if_in_use: Duration,
}

impl Waits {
    pub fn by_default() -> Waits {
        Waits { timeout: TIMEOUT, if_in_use: Duration::MAX }
    }

    /// When what began at this moment ends.
    pub fn end(self, begun: Instant) -> Instant {
        begun + self.timeout.min(MAX_WAIT)
    }
}

/// What a client joins for.
#[derive(Clone, Copy, Debug, PartialEq, Eq)]
pub(crate) enum JoinPurpose {
    Work,
    /// To end an older incarnation of which the operator states that no process is left, by one
    /// that is greater than this too.
    Evict {
        above: u64,
    },
}

/// Joins one server as the client of this number.
pub(crate) fn join(
    servers: Servers,
    number: u8,
    lock_file: &Path,
    waits: Waits,
    purpose: JoinPurpose,
) -> Result<ShardClient, JoinErrorKind> {
    let client = start(servers, number, lock_file, purpose)?;
    let begun = Instant::now();
    let joining = client.link().join(gives_up(waits, purpose, begun));
    match client.link().finish(joining, waits.end(begun)) {
        Ok(()) => Ok(client),
        Err(refused) => Err(not_joined(&client, refused)),
    }
}

/// Whether a client that began to join at this moment gives up, since its server reports this reason.
pub(crate) fn gives_up(
    waits: Waits,
    purpose: JoinPurpose,
    begun: Instant,
) -> impl Fn(Refusal, Instant) -> bool + Send + 'static {
    move |refusal, now| match purpose {
        JoinPurpose::Work => {
            let waited = now.saturating_duration_since(begun);
            let may_try_another = waits.if_in_use < Duration::MAX;
            is_far_ahead(refusal) && may_try_another
                || is_in_use(refusal) && waited >= waits.if_in_use
        }
        // A greater incarnation is taken then.
        JoinPurpose::Evict { .. } => matches!(refusal, Refusal::Incarnation { .. }),
    }
}

/// A client that has not joined yet, with the thread of its connection.
pub(crate) fn start(
    servers: Servers,
    number: u8,
    lock_file: &Path,
    purpose: JoinPurpose,
) -> Result<ShardClient, JoinErrorKind> {
    if ClientNumber::of(number).is_none() {
        return Err(JoinErrorKind::BadNumber);
    }
    let taken = LockFile::take(lock_file, number);
    let (mut lock_file, incarnation) = taken.map_err(JoinErrorKind::of_lock_file(lock_file))?;
    let (incarnation, older) = match purpose {
        JoinPurpose::Work => (incarnation, lock_file.older()),
        JoinPurpose::Evict { above } => (lock_file.rise_above(above), Older::Vouched),
    };
    let handle = ClientHandle::open_after(number, incarnation, older);
    let handle = handle.map_err(|code| JoinErrorKind::Refused(code.into()))?;
    let state = State::new(handle, Now::read());
    let (link, poller) =
        Link::new(servers, state, Some(lock_file)).map_err(JoinErrorKind::NoThread)?;
    ShardClient::start(number, link, poller).map_err(JoinErrorKind::NoThread)
}

/// Ends a client that has not joined: it sends Bye, and waits for nothing.
pub(crate) fn not_joined(client: &ShardClient, refused: ErrorKind) -> JoinErrorKind {
    let link = client.link();
    let (fault, nothing_listens) = (link.take_fault(), link.take_nothing_listens());
    let rejection = link.rejection();
    client.end_by(Instant::now());
    if let Some(fault) = nothing_listens {
        return JoinErrorKind::NothingListens { servers: Box::new(link.servers().clone()), fault };
    }
    why_not_joined(link.servers(), refused, fault, rejection.as_ref())
}

/// Whether the server refuses the number until it has another lock file: another number, with its own
/// file, may do.
pub(crate) fn is_far_ahead(refusal: Refusal) -> bool {
    matches!(refusal, Refusal::FarAhead { .. })
}

/// Whether the server reports that another process has the client's number, or had it and may still
/// answer.
fn is_in_use(refusal: Refusal) -> bool {
    matches!(refusal, Refusal::LeaseRuns { .. } | Refusal::Incarnation { .. })
}
