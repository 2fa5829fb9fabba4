//! What an operator should know of a cluster before a server relies on it.
use crate::call::Etcd;
use crate::request::{self, number_of};
use krl::store::fence::Failure;
use serde_json::json;
use std::time::{Duration, Instant};

/// How long the cluster is asked.
const ASK: Duration = Duration::from_secs(5);

/// A cluster of this many revisions whose first one is still there compacts nothing.
const MANY_REVISIONS: u64 = 20_000;

/// Three quarters of the space that etcd has by default.
const MUCH_SPACE: u64 = 3 << 29;

/// What is wrong with the cluster, or will be: each a sentence. What it does not answer is left
/// out: the store reports that by itself.
pub(crate) fn concerns(etcd: &mut Etcd, key: &str) -> Vec<String> {
    let end = Instant::now() + ASK;
    let found = [alarms(etcd, end), space(etcd, end), revisions(etcd, key, end)];
    found.into_iter().filter_map(|found| found.ok().flatten()).collect()
}

fn alarms(etcd: &mut Etcd, end: Instant) -> Result<Option<String>, Failure> {
    let answer = etcd.call("maintenance/alarm", &json!({"action": "GET"}), end)?;
    let alarms = answer["alarms"].as_array().into_iter().flatten();
    let names: Vec<&str> = alarms.filter_map(|alarm| alarm["alarm"].as_str()).collect();
    let message = || format!("etcd has raised the alarm {}: it takes no change", names.join(", "));
    Ok((!names.is_empty()).then(message))
}

fn space(etcd: &mut Etcd, end: Instant) -> Result<Option<String>, Failure> {
    let answer = etcd.call("maintenance/status", &json!({}), end)?;
    let bytes = number_of(&answer["dbSize"]);
    let message = || {
        format!(
            "etcd has {bytes} bytes, and by default takes no change from 2147483648 on: compact \
             and defragment it"
        )
    };
    Ok((bytes > MUCH_SPACE).then(message))
}

/// Whether old revisions are kept forever: each commit of a server is one more.
fn revisions(etcd: &mut Etcd, key: &str, end: Instant) -> Result<Option<String>, Failure> {
    let now = etcd.call("kv/range", &request::range_of_one(key), end)?;
    let revision = number_of(&now["header"]["revision"]);
    let first = etcd.call("kv/range", &request::range_at(key, 1), end);
    let message = || {
        format!(
            "etcd keeps all of its {revision} revisions: start it with --auto-compaction-mode \
             revision --auto-compaction-retention 10000"
        )
    };
    Ok((revision > MANY_REVISIONS && first.is_ok()).then(message))
}
