//! Why a server does not run, or ended.
use crate::identity::Identity;
use crate::model::code::Code;
use crate::model::history::Mark;
use crate::model::room::Room;
use crate::model::shard_bounds::ShardBounds;
use crate::store::StoreError;
use std::fmt;
use std::io;

/// Why a server does not run, or ended.
#[derive(Debug)]
#[non_exhaustive]
pub enum ServeError {
    /// The store failed. What was not kept was not reported to anybody either.
    Store(StoreError),
    /// What the store gave is not what a server kept, or memory was refused.
    Refused(Code),
    /// The listener failed.
    Network(io::Error),
    /// The clock by which leases run can't be read.
    Clock(io::Error),
    /// The store has a key that the server's shard does not have: it is another shard's store, or
    /// was not split.
    OtherKey {
        /// The key.
        key: u64,
        /// The shard.
        shard: ShardBounds,
    },
    /// No server may start on the store, which is of this shard: another store has these rows, or may
    /// have them.
    Sealed(ShardBounds),
    /// The store is of another shard than the one that the server is given.
    OtherStoreShard {
        /// What the store is of.
        kept: ShardBounds,
        /// What the server is given.
        given: ShardBounds,
    },
    /// The store has more rows than the server has room for.
    MoreRows {
        /// How many rows.
        rows: usize,
        /// The room.
        room: Room,
    },
    /// The store lacks what a client has seen of it: it is an older copy, or another store. The
    /// client has shown who it is, and has been notified. A stranger's claim does not end a server:
    /// then [`Status::store_alarms`](crate::operate::Status::store_alarms) counts it, and the server
    /// continues.
    OlderStore {
        /// Who has seen it.
        identity: Identity,
        /// What it has seen.
        seen: Mark,
    },
    /// A thread of the server panicked.
    Panicked,
}

impl fmt::Display for ServeError {
    fn fmt(&self, f: &mut fmt::Formatter<'_>) -> fmt::Result {
        match self {
            ServeError::Store(error) => error.fmt(f),
            ServeError::Refused(code) => write!(f, "the server can't run: {code}"),
            ServeError::Network(error) => write!(f, "the listener failed: {error}"),
            ServeError::Clock(error) => write!(f, "the clock of leases can't be read: {error}"),
            ServeError::MoreRows { rows, room } => write!(
                f,
                "the store has {rows} rows, and the server room for {room}: give it room for {rows} \
                 or more, or none, and it takes the room that the store keeps"
            ),
            ServeError::OtherKey { key, shard } => write!(
                f,
                "the store has the key {key}, which the shard {shard} does not have: it is another \
                 shard's, or has to be split"
            ),
            ServeError::Sealed(shard) => write!(
                f,
                "the store of the shard {shard} is sealed: another store has its rows, or may have \
                 them. Repeat the command that was to change the map, and it continues"
            ),
            ServeError::OtherStoreShard { kept, given } => write!(
                f,
                "the store is of the shard {kept}, and the server was to serve {given}: without a shard \
                 it serves what the store is of"
            ),
            ServeError::OlderStore { identity, seen } => write!(
                f,
                "the store lacks what the holder of the identity {identity} has seen of it \
                 ({seen:?}): it is an older copy, or another store. Start the server over the right \
                 one, or over one that `krl-server restore` has made; the client has learned of it, and \
                 joins whichever it is"
            ),
            ServeError::Panicked => f.write_str("a thread of the server panicked"),
        }
    }
}

impl std::error::Error for ServeError {
    fn source(&self) -> Option<&(dyn std::error::Error + 'static)> {
        match self {
            ServeError::Store(error) => Some(error),
            ServeError::Refused(code) => Some(code),
            ServeError::Network(error) | ServeError::Clock(error) => Some(error),
            ServeError::OtherKey { .. }
            | ServeError::MoreRows { .. }
            | ServeError::Sealed(_)
            | ServeError::OtherStoreShard { .. }
            | ServeError::OlderStore { .. }
            | ServeError::Panicked => None,
        }
    }
}

impl From<StoreError> for ServeError {
    fn from(error: StoreError) -> ServeError {
        ServeError::Store(error)
    }
}

impl From<io::Error> for ServeError {
    fn from(error: io::Error) -> ServeError {
        ServeError::Network(error)
    }
}
