//! A store of krl in PostgreSQL, and a map of shards there.
//!
//! Each commit compares one row, the head, and sets it again in one statement with what it changes.
//! If two servers both believe that they serve, the older one's first change is refused, and it
//! ends.
//!
//! **The store is only as safe as the failover of the database.** A replica that is promoted and
//! lacks a transaction that was answered takes that back, and the epoch may fall: then nothing that
//! krl promises holds. See [`PostgresStore`].
mod address;
mod asker;
mod batch;
mod connector;
mod head;
mod link;
mod map;
mod security;
mod sql;
mod store;
#[cfg(feature = "command-line")]
mod url_word;

pub use address::{BadPostgresAddress, PostgresAddress};
// For the crates of this workspace.
#[doc(hidden)]
pub use address::without_password;
#[doc(hidden)]
pub use connector::{Carrier, Connector};
pub use map::PostgresMap;
pub use store::PostgresStore;
#[cfg(feature = "command-line")]
#[doc(hidden)]
pub use url_word::UrlWord;
