//! What an operator's program sets of a server and shows of it, does with a store's file, and needs to
//! serve a port of its own next to the server's. A program that reads and writes rows needs none of
//! it.
pub use crate::client::evict::evict;
pub use crate::client::lock_folder::lock_folder;
pub use crate::client::status::ShardStatus;
pub use crate::identity::TableName;
pub use crate::lease::terms::LeaseLeft;
pub use crate::log::rate_limit::RateLimit;
pub use crate::model::lock::{HeldSlot, Mode};
pub use crate::model::reach::Reach;
pub use crate::model::room::Room;
pub use crate::net::stream::PeerAddress;
#[cfg(feature = "tls")]
pub use crate::net::tls::{Certificate, PeerCheck};
pub use crate::net::unix_peer::UnixPeer;
pub use crate::proved::partition::Part;
pub use crate::server::close_reason::ClosedConnections;
pub use crate::server::lock_search::HeldRun;
pub use crate::server::shown::client_status::{ClientConnection, ClientStatus};
pub use crate::server::shown::held_search::{HeldPage, HeldSearch};
pub use crate::server::shown::liveness::Liveness;
pub use crate::server::shown::locks::{Locks, LocksError};
pub use crate::server::shown::monitor::Monitor;
pub use crate::server::shown::status::Status;
pub use crate::server::shown::timings::{Counts, Measured};
pub use crate::server::shown::watch::{HeldSlots, Wait};
pub use crate::server::strangers::Strangers;
pub use crate::store::replaced_file::{NextFile, beside};
#[cfg(feature = "sqlite")]
pub use crate::store::sqlite::checksum::{Checksum, CutOff};
#[cfg(feature = "sqlite")]
pub use crate::store::sqlite::copy::StoreFile;
#[cfg(feature = "sqlite")]
pub use crate::store::sqlite::name::store_file;
