//! Why a server does not serve a client, as the server's host reports it.
use crate::model::client_set::ClientSet;
use crate::model::shard_bounds::ShardBounds;
use std::fmt;

/// The version of the stream: of the frames of the hosts, and of the messages between them. In
/// version 1 a grant had at most eight holdings, and a Hello named no version; in version 2 no write
/// took the lock that it needs; in version 3 every read took a lock.
pub(crate) const STREAM_VERSION: u8 = 4;

/// Why a server does not serve a client. It is a hint for people: the library's rules do not rest
/// on it, and a server of another kind may give none. Only [`Refusal::OtherStore`] is more: a
/// client that receives it drops its cache.
#[derive(Clone, Copy, Debug, PartialEq, Eq)]
#[non_exhaustive]
pub enum Refusal {
    /// The server and the client have different versions of the stream. No server of an earlier
    /// version serves a client of this one, nor the other way round.
    Version {
        /// The version of the server.
        read: u8,
    },
    /// The server has no client of this number.
    ClientNumber {
        /// The number.
        number: u64,
    },
    /// The server knows a greater incarnation of the client.
    Incarnation {
        /// The client.
        client: u8,
        /// The incarnation that the server knows.
        registered: u64,
    },
    /// As many connections are open as the server takes.
    Full {
        /// How many it takes.
        connections: u64,
    },
    /// The server recovers, and waits for the reports of these clients.
    Missing(ClientSet),
    /// An older incarnation of the client may still answer from its cache: its lease has not ended,
    /// or it speaks, and no sign of the newer one has come.
    LeaseRuns {
        /// The client.
        client: u8,
        /// The older incarnation.
        registered: u64,
    },
    /// The other end of the connection may not send what it sent: its certificate, or its user, is
    /// not that of the client.
    Denied,
    /// The server serves this shard, or all keys, and the client takes it for another one.
    OtherShard(Option<ShardBounds>),
    /// The client's incarnation is more than a day ahead of the server's clock.
    FarAhead {
        /// The client.
        client: u8,
        /// The greatest incarnation that the server registers now.
        latest: u64,
    },
    /// The client has seen another store than the one that the server serves: its address is that
    /// of another table, or a new store has replaced that one.
    OtherStore,
}

impl Refusal {
    /// How many reasons there are.
    pub(crate) const REASONS: usize = 10;

    /// Whether the reason may pass while nobody does anything about it.
    pub(crate) fn may_pass(self) -> bool {
        match self {
            Refusal::Full { .. } | Refusal::Missing(_) | Refusal::LeaseRuns { .. } => true,
            Refusal::Version { .. }
            | Refusal::ClientNumber { .. }
            | Refusal::Incarnation { .. }
            | Refusal::Denied
            | Refusal::OtherShard(_)
            | Refusal::FarAhead { .. }
            | Refusal::OtherStore => false,
        }
    }

    /// The number of the reason, from 0 to 9, as `docs/STREAM.md` and the interface for C have it.
    #[must_use]
    pub fn reason(self) -> u8 {
        match self {
            Refusal::Version { .. } => 0,
            Refusal::ClientNumber { .. } => 1,
            Refusal::Incarnation { .. } => 2,
            Refusal::Full { .. } => 3,
            Refusal::Missing(_) => 4,
            Refusal::LeaseRuns { .. } => 5,
            Refusal::Denied => 6,
            Refusal::OtherShard(_) => 7,
            Refusal::FarAhead { .. } => 8,
            Refusal::OtherStore => 9,
        }
    }
}

impl fmt::Display for Refusal {
    fn fmt(&self, f: &mut fmt::Formatter<'_>) -> fmt::Result {
        match self {
            Refusal::Version { read } => {
                write!(
                    f,
                    "the server speaks version {read} of the protocol, and this client version \
                     {STREAM_VERSION}: run both by releases of one version"
                )
            }
            Refusal::ClientNumber { number } => {
                write!(f, "a client's number is 0 to 63, and the server has no client {number}")
            }
            Refusal::Incarnation { client, registered } => write!(
                f,
                "another process is client {client} of this server: take another number, or end \
                 that process (the server knows incarnation {registered} of client {client}, which \
                 is greater; if there is no such process, this client was evicted, or its lock \
                 file was lost while its clock was slow)"
            ),
            Refusal::Full { connections } => {
                write!(f, "the server has {connections} connections, and takes no more")
            }
            Refusal::Denied => f.write_str(
                "the server does not let this side of the connection speak for the client: its \
                 certificate, or its user, has no right to the client's number",
            ),
            Refusal::OtherShard(Some(served)) => {
                write!(f, "the server serves {served}, and the client takes it for another shard")
            }
            Refusal::OtherShard(None) => {
                f.write_str("the server serves no shard, and the client takes it for a shard's")
            }
            Refusal::FarAhead { client, latest } => write!(
                f,
                "the incarnation of client {client} is more than a day ahead of the server's \
                 clock, which takes {latest} at most: set the clock of the machine that is wrong, \
                 and give the client a new lock file if it was its own"
            ),
            Refusal::OtherStore => f.write_str(
                "the server serves another store than the one that the client has seen: the address \
                 is that of another table, or a new store has replaced that one; if that was meant, \
                 start the client's process again",
            ),
            Refusal::Missing(clients) => write!(
                f,
                "the server waits for the reports of the clients {clients}, or until they are \
                 evicted"
            ),
            Refusal::LeaseRuns { client, registered } => write!(
                f,
                "another process is client {client} of this server, or was until it was killed: \
                 take another number, or end that process and wait for the end of its lease \
                 (incarnation {registered} of client {client} may still answer from its cache; if \
                 its lease does not end, it has to be evicted)"
            ),
        }
    }
}

#[cfg(test)]
mod tests {
    use super::*;

    #[test]
    fn each_reason_is_a_sentence() {
        let missing = Refusal::Missing([7, 3].into_iter().collect()).to_string();
        assert!(missing.contains("the reports of the clients 3, 7,"), "{missing}");
        let older = Refusal::Incarnation { client: 3, registered: 17 }.to_string();
        assert!(older.contains("knows incarnation 17 of client 3"), "{older}");
        let running = Refusal::LeaseRuns { client: 3, registered: 17 }.to_string();
        assert!(running.contains("incarnation 17 of client 3 may still answer"), "{running}");
        for sentence in [older, running] {
            assert!(sentence.starts_with("another process is client 3 of this server"));
            assert!(sentence.contains("take another number, or end that process"), "{sentence}");
        }
        let full = Refusal::Full { connections: 256 }.to_string();
        assert_eq!(full, "the server has 256 connections, and takes no more");
        let version = Refusal::Version { read: 1 }.to_string();
        assert!(version.contains("speaks version 1 of the protocol, and this client version 4"));
    }
}
