//! What is shown at the status port.
use super::looks::Looks;
use super::others::Others;
use super::recent::Recent;
use crate::process::role::Role;
use krl::TlsConfig;
use krl::store::ShardBounds;

/// The place of a server among those of its table.
#[derive(Clone, Debug, Default)]
pub struct Table {
    /// The other servers.
    pub others: Others,
    /// The shard that this server is to serve, if it was given one.
    pub shard: Option<ShardBounds>,
}

/// What is shown at the status port.
#[derive(Clone, Debug)]
pub struct Shown {
    pub role: Role,
    pub table: Table,
    /// What the server shows by TLS, if it shows anything.
    pub certificate: Option<TlsConfig>,
    /// The name at which the port listens, if it is not an address.
    pub name: Option<String>,
    /// What has happened lately.
    pub recent: Recent,
    /// The looks at who holds what.
    pub looks: Looks,
}
