//! Why something was refused, as far as [`ErrorKind`](crate::ErrorKind) and
//! [`JoinErrorKind`](crate::JoinErrorKind) name it, and what is wrong with a value.
pub use crate::call::error::{LockFileError, Unsent};
pub use crate::call::mutation::Fate;
pub use crate::identity::{BadIdentity, BadTableName};
pub use crate::lease::terms::BadLeases;
pub use crate::model::code::Code;
pub use crate::model::kept_shard::NotLater;
pub use crate::model::reach::BadReach;
pub use crate::model::refusal::Refusal;
pub use crate::model::room::BadRoom;
pub use crate::model::row::TooLong;
pub use crate::model::shard_bounds::BadShardBounds;
pub use crate::model::shard_fence::OtherShard;
pub use crate::model::snapshot::NotNeighbors;
pub use crate::net::address::BadAddress;
#[cfg(feature = "tls")]
pub use crate::net::tls::TlsError;
pub use crate::server::error::ServeError;
pub use crate::server::shown::monitor::SnapshotError;
pub use crate::shards::map::BadShardMap;
#[cfg(feature = "map-file")]
pub use crate::shards::map_file::BadMapFile;
