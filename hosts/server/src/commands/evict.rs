//! A client whose process is dead, which is evicted.
use crate::process::Done;
use crate::process::output;
use crate::settings::{BadSetting, TlsOptions};
use krl::Servers;
use krl::store::ShardBounds;
use std::path::Path;

/// Evicts the client at the server of this address, and reports it.
pub fn evict(
    (address, shard): (&str, Option<ShardBounds>),
    tls: &TlsOptions,
    number: u8,
    lock_file: &Path,
) -> Done {
    output::report(&format!(
        "client {number} must be dead: one that still runs would answer outdated rows from \
         its cache"
    ));
    let mut servers: Servers =
        address.parse().map_err(|error| BadSetting(format!("'{address}': {error}")))?;
    if let Some(config) = tls.read()? {
        servers = servers.with_tls(config);
    }
    if let Some(shard) = shard {
        servers = servers.of_shard(shard);
    }
    krl::operate::evict(servers, number, lock_file)?;
    output::report(&format!("client {number} has left"));
    Ok(())
}
