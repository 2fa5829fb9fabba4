//! What an operator sees of a server.
use crate::model::reach::Reach;
use crate::model::room::Room;
use crate::model::shard_bounds::ShardBounds;
use crate::server::close_reason::ClosedConnections;
use crate::server::shown::client_status::ClientStatus;
use crate::server::shown::watch::{HeldSlots, Wait};
use std::fmt;
use std::time::Duration;

/// A server at one moment.
#[derive(Clone, Debug, Default, PartialEq, Eq)]
#[cfg_attr(feature = "serde", derive(serde::Serialize))]
#[non_exhaustive]
pub struct Status {
    /// How many times a server has started on this store.
    pub epoch: u64,
    /// The rows of the table.
    pub rows: u64,
    /// For how many rows the server has room.
    pub room: Room,
    /// How many slots one grant takes at most.
    pub reach: Reach,
    /// The shard that the server serves, if it is not of all keys.
    pub shard: Option<ShardBounds>,
    /// It answers requests. Otherwise it waits for the reports of the clients in `missing`.
    pub is_serving: bool,
    /// The clients that have to report, or be evicted, before the server serves.
    pub missing: Vec<u8>,
    /// The clients that are connected.
    pub connected: Vec<u8>,
    /// The clients that are registered and have not left, by number.
    pub clients: Vec<ClientStatus>,
    /// The clients that wait for a lock.
    pub waits: Vec<Wait>,
    /// The clients that hold something.
    pub holdings: Vec<HeldSlots>,
    /// The clients whose report contradicted what the server knows, each once: two processes under
    /// one number, or a server on an older store.
    pub alarms: Vec<u8>,
    /// How many such reports came.
    pub alarms_raised: u64,
    /// How many connections came from clients that have seen commits which the store lacks: it is
    /// an older copy, or another one.
    pub store_alarms: u64,
    /// The open connections, those of strangers too.
    pub connections: u64,
    /// How many connections were closed, for each reason.
    pub closed: ClosedConnections,
    /// The messages that were taken.
    pub taken: u64,
    /// The messages that were sent.
    pub sent: u64,
    /// The strings that were not messages. Each ended its connection.
    pub refused: u64,
    /// How often a connection sent what its certificate or its user may not send. Each was closed,
    /// and the library got nothing of it.
    pub denied: u64,
    /// The repeats of pushes and callbacks that were held back.
    pub held_back: u64,
    /// The changes that were kept.
    pub changes: u64,
    /// How often the store was asked to commit changes.
    pub commits: u64,
    /// The signs that came: what the clients' hosts send to keep their leases.
    pub signs: u64,
    /// How many clients were evicted since their leases had ended.
    pub evicted: u64,
    /// The clients that may answer from their caches forever, and that only an operator evicts.
    pub unleased: Vec<u8>,
    /// No lease that ends and may still run is longer.
    pub longest_lease: Duration,
    /// Why the server has ended, if it has failed. Everything else is as it was last.
    pub failure: Option<String>,
}

impl Status {
    /// Each client that waits, with each one that it waits for.
    pub(crate) fn pairs(&self) -> impl Iterator<Item = (u8, u8)> {
        self.waits.iter().flat_map(|wait| wait.waits_for.iter().map(|other| (wait.client, *other)))
    }
}

impl Status {
    /// A line on leases, if there are any or were some.
    fn write_leases(&self, f: &mut fmt::Formatter<'_>) -> fmt::Result {
        let Status { signs, evicted, unleased, longest_lease, .. } = self;
        if longest_lease.is_zero() {
            return Ok(());
        }
        let without = list(unleased);
        writeln!(
            f,
            "leases: {longest_lease:?} at most, {signs} signs, {evicted} evicted, without: {without}"
        )
    }
}

fn list(clients: &[u8]) -> String {
    match clients {
        [] => "nobody".to_string(),
        _ => clients.iter().map(u8::to_string).collect::<Vec<_>>().join(", "),
    }
}

impl fmt::Display for Status {
    fn fmt(&self, f: &mut fmt::Formatter<'_>) -> fmt::Result {
        let phase = match self {
            Status { failure: Some(_), .. } => "ended",
            Status { is_serving: true, .. } => "serving",
            _ => "recovering",
        };
        writeln!(f, "epoch {}, {phase}", self.epoch)?;
        if let Some(failure) = &self.failure {
            writeln!(f, "FAILED: {failure}")?;
        }
        if !self.is_serving {
            writeln!(f, "missing: {}", list(&self.missing))?;
        }
        writeln!(f, "connected: {} ({} connections)", list(&self.connected), self.connections)?;
        for wait in &self.waits {
            let Wait { client, point, mode, .. } = wait;
            let (ms, whom) = (wait.waited.as_millis(), list(&wait.waits_for));
            writeln!(f, "client {client} waits for {whom}: {mode} at {point}, for {ms} ms")?;
        }
        for HeldSlots { client, slots } in &self.holdings {
            writeln!(f, "client {client} holds {slots} slots")?;
        }
        if !self.alarms.is_empty() {
            writeln!(
                f,
                "ALARM: the report of {} contradicts what the server knows",
                list(&self.alarms)
            )?;
        }
        if self.store_alarms > 0 {
            writeln!(
                f,
                "ALARM: the store lacks what clients have seen on {} connections: it is an older \
                 copy, or another one",
                self.store_alarms
            )?;
        }
        self.write_leases(f)?;
        let Status { taken, sent, refused, denied, held_back, .. } = self;
        writeln!(
            f,
            "messages: {taken} taken, {sent} sent, {refused} refused, {denied} denied, {held_back} \
             held back"
        )?;
        writeln!(f, "grants: {} slots at most", self.reach)?;
        let Status { rows, room, changes, commits, .. } = self;
        writeln!(f, "store: {changes} changes in {commits} transactions, {rows} rows of {room}")
    }
}

#[cfg(test)]
mod tests {
    use super::*;
    use crate::model::lock::Mode;

    fn status() -> Status {
        let wait = Wait {
            client: 3,
            point: 10,
            hi: 20,
            mode: Mode::RangeXX,
            waited: Duration::from_millis(40),
            waits_for: vec![0, 2],
        };
        Status {
            epoch: 4,
            rows: 5,
            missing: vec![1],
            connected: vec![0, 3],
            waits: vec![wait],
            holdings: vec![HeldSlots { client: 2, slots: 7 }],
            ..Status::default()
        }
    }

    #[test]
    fn text() {
        let text = status().to_string();
        assert!(
            text.starts_with("epoch 4, recovering\nmissing: 1\nconnected: 0, 3 (0 connections)\n")
        );
        assert!(text.contains("client 3 waits for 0, 2: RangeX-X at 10, for 40 ms\n"));
        assert!(text.contains("client 2 holds 7 slots\n"));
        assert!(text.contains("\ngrants: 128 slots at most\n"));
        assert!(text.ends_with("store: 0 changes in 0 transactions, 5 rows of 65536\n"));
        assert!(!text.contains("ALARM") && !text.contains("leases"));
        let leased = Status {
            longest_lease: Duration::from_secs(10),
            unleased: vec![2, 9],
            evicted: 1,
            signs: 4,
            ..status()
        };
        let line = "leases: 10s at most, 4 signs, 1 evicted, without: 2, 9\n";
        assert!(leased.to_string().contains(line), "{leased}");
        let text = Status { store_alarms: 2, ..status() }.to_string();
        assert!(text.contains("ALARM: the store lacks what clients have seen on 2 connections"));
    }
}
