//! What a server reports of itself as JSON, and what others take of it.
use super::recent::Rates;
use super::{backup, clients, locks};
use crate::process::role::State;
use krl::operate::{HeldSlots, Status};
use krl::store::ShardBounds;
use serde::de::IgnoredAny;
use serde::{Deserialize, Deserializer};
use serde_json::{Value, json};
use std::collections::BTreeMap;

/// The state of a server, as it stands in its `/status.json`. A process that stands by has few of
/// these, and each process has a role.
#[derive(Clone, Debug, Default, Deserialize, PartialEq, Eq)]
pub struct Report {
    pub role: String,
    pub leader: Option<String>,
    #[serde(default)]
    pub phase: String,
    pub failure: Option<String>,
    pub shard: Option<String>,
    #[serde(default)]
    pub epoch: u64,
    #[serde(default)]
    pub rows: u64,
    #[serde(default)]
    pub room: usize,
    /// How many clients are connected or held something, and how many wait.
    #[serde(default, deserialize_with = "length")]
    pub clients: usize,
    #[serde(default, deserialize_with = "length")]
    pub waits: usize,
    #[serde(default)]
    pub alarms_total: u64,
    #[serde(default)]
    pub store_alarms_total: u64,
}

/// What a process reports that does not serve.
pub fn of_role(state: &State) -> Value {
    let leader = match state {
        State::StandsBy { leader } => Some(leader),
        _ => None,
    };
    json!({ "version": env!("CARGO_PKG_VERSION"), "role": state.word(), "leader": leader })
}

/// What a server reports.
pub fn of_server(
    state: &State,
    status: &Status,
    shard: Option<ShardBounds>,
    rates: Option<Rates>,
) -> Value {
    let holds = |held: &HeldSlots| json!({ "client": held.client, "slots": held.slots });
    json!({
        "version": env!("CARGO_PKG_VERSION"),
        "role": state.word(),
        "serves_since": state.since(),
        "shard": shard.map(|shard| shard.to_string()),
        "epoch": status.epoch,
        "rows": status.rows,
        "room": status.room.rows(),
        "reach": status.reach.slots(),
        "phase": if status.is_serving { "serving" } else { "recovering" },
        "failure": status.failure,
        "missing": status.missing,
        "connected": status.connected,
        "connections": status.connections,
        "connections_closed_total": status.closed.counts().collect::<BTreeMap<_, _>>(),
        "clients": clients::as_json(status),
        "rates": rates.map(|rates| rates.as_json()),
        "waits": status.waits.iter().map(locks::wait_as_json).collect::<Vec<_>>(),
        "holdings": status.holdings.iter().map(holds).collect::<Vec<_>>(),
        "alarms": status.alarms,
        "alarms_total": status.alarms_raised,
        "store_alarms_total": status.store_alarms,
        "messages_taken_total": status.taken,
        "messages_sent_total": status.sent,
        "messages_refused_total": status.refused,
        "denied_total": status.denied,
        "repeats_held_back_total": status.held_back,
        "changes_total": status.changes,
        "commits_total": status.commits,
        "signs_total": status.signs,
        "evicted_total": status.evicted,
        "unleased": status.unleased,
        "longest_lease_seconds": status.longest_lease.as_secs_f64(),
        "last_backup": backup::last(),
    })
}

/// How long a list is.
fn length<'de, D: Deserializer<'de>>(list: D) -> Result<usize, D::Error> {
    Vec::<IgnoredAny>::deserialize(list).map(|list| list.len())
}
