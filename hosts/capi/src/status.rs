//! What a client shows of its servers.
use crate::fault::Fault;
use krl::Client;
use krl::operate::ShardStatus;
use std::time::Duration;

/// A lease that does not end.
const FOR_EVER: u64 = u64::MAX;

/// The `krlc_status` of the header.
#[derive(Clone, Copy, Debug, PartialEq, Eq)]
#[repr(C)]
#[allow(missing_docs, reason = "the header has it")]
pub struct Status {
    pub shard: u64,
    pub epoch: u64,
    pub incarnation: u64,
    pub lease_left_ms: u64,
    pub is_connected: bool,
}

impl Status {
    /// What a client shows of one of the servers that it has joined.
    pub fn at(client: &Client, place: usize) -> Result<Status, Fault> {
        let none = || Fault::misuse(format!("the client has joined no shard at place {place}"));
        client.status().get(place).map(Status::from).ok_or_else(none)
    }
}

impl From<&ShardStatus> for Status {
    fn from(status: &ShardStatus) -> Status {
        Status {
            shard: status.shard as u64,
            epoch: status.epoch.unwrap_or(0),
            incarnation: status.incarnation,
            lease_left_ms: milliseconds(status.lease_left),
            is_connected: status.is_connected,
        }
    }
}

fn milliseconds(left: Option<Duration>) -> u64 {
    left.map_or(FOR_EVER, |left| u64::try_from(left.as_millis()).unwrap_or(FOR_EVER))
}
