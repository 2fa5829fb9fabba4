//! What a client shows of its servers.
use crate::call::error::Error;
use crate::client::Client;
use crate::client::shard_client::ShardClient;
use std::sync::Arc;
use std::time::Duration;

/// What a client shows of a server that it has joined.
#[derive(Clone, Debug, PartialEq, Eq)]
#[non_exhaustive]
pub struct ShardStatus {
    /// The shard's place in the map, from 0; 0 for a client without a map.
    pub shard: usize,
    /// The epoch that the client has joined there: how many times the server had started by then.
    /// The error is `Left`, or `StoreWentBack` while the client joins again.
    pub epoch: Result<u64, Error>,
    /// Whether there is a connection at this moment.
    pub is_connected: bool,
    /// The client's incarnation there, of which the next one is greater: each end of a lease begins
    /// another one. A program that acts on something outside may use it as a fence there.
    pub incarnation: u64,
    /// How long the client may still answer from its cache if nothing more comes from the server;
    /// or `None` if forever, as with a server without leases.
    pub lease_left: Option<Duration>,
}

impl Client {
    /// What the client shows of each server that it has joined, in the order of their shards. There
    /// is at least one.
    #[must_use]
    pub fn status(&self) -> Vec<ShardStatus> {
        let joined = self.table.now();
        let status = |(shard, client): (usize, &Arc<ShardClient>)| {
            let (link, error_at) = (client.link(), joined.error_at(shard));
            let is_connected = link.is_connected();
            link.with_state(|state| ShardStatus {
                shard,
                epoch: state.epoch().map_err(|code| error_at(code.into())),
                is_connected,
                incarnation: state.incarnation(),
                lease_left: state.lease_left(),
            })
        };
        joined.clients().map(status).collect()
    }
}
