//! What one transaction sets, within what etcd takes.
use crate::bucket::{self, Bucket};
use crate::call::Etcd;
use crate::head::Head;
use crate::request;
use krl::store::fence::Failure;
use serde_json::{Value as Json, json};
use std::collections::{BTreeMap, BTreeSet};
use std::time::Instant;

/// The most keys that one transaction sets: etcd's own limit is 128 by default.
const MAX_KEYS: usize = 120;

/// The most bytes of keys and values that it sets: etcd's own limit of a request is 1.5 MiB by
/// default.
const MAX_BYTES: usize = 1 << 20;

/// The bytes of a key, and of what stands around it in a request, are fewer.
const KEY_BYTES: usize = 1024;

/// What etcd answers if a request is larger than it takes, or has more operations.
const LIMITS: [&str; 3] = ["request is too large", "larger than max", "too many operations"];

/// Whether one transaction may set this many keys, whose values have this many bytes in all.
fn fits(keys: usize, bytes: usize) -> bool {
    keys <= MAX_KEYS && bytes + keys * KEY_BYTES <= MAX_BYTES
}

/// A key that a transaction sets.
#[derive(Clone, Debug, PartialEq, Eq)]
pub(crate) struct Set {
    pub key: String,
    pub value: Vec<u8>,
}

impl Set {
    pub fn as_json(&self) -> Json {
        request::put(&self.key, &self.value)
    }
}

/// The same in parts, each of which fits into a transaction.
pub(crate) fn parts(sets: &[Set]) -> Vec<&[Set]> {
    let (mut parts, mut rest) = (Vec::new(), sets);
    while !rest.is_empty() {
        let (part, others) = rest.split_at(first_part(rest));
        parts.push(part);
        rest = others;
    }
    parts
}

/// How many of them fit into one transaction: one does.
fn first_part(sets: &[Set]) -> usize {
    let mut bytes = 0;
    let too_many = sets.iter().enumerate().position(|(place, set)| {
        bytes += set.value.len();
        place > 0 && !fits(place + 1, bytes)
    });
    too_many.unwrap_or(sets.len())
}

/// What one transaction of a server sets.
#[derive(Debug, Default)]
pub(crate) struct Part {
    /// The buckets, by number, with how many bytes each has.
    buckets: BTreeMap<usize, usize>,
    pub clients: BTreeSet<u8>,
    pub sets_leases: bool,
    pub sets_room: bool,
    pub sets_shard: bool,
    /// The head that the server before this one left.
    pub past: Option<Head>,
}

/// The keys of a transaction that are neither a bucket nor a client: the head, the one that was,
/// what is known of leases, the room, the shard.
const OTHER_KEYS: usize = 5;

impl Part {
    pub fn set_bucket(&mut self, number: usize, rows: &Bucket) {
        self.buckets.insert(number, bucket::length(rows));
    }

    /// Whether it sets no bucket.
    pub fn is_empty(&self) -> bool {
        self.buckets.is_empty()
    }

    /// The numbers of the buckets that it sets.
    pub fn buckets(&self) -> impl Iterator<Item = usize> {
        self.buckets.keys().copied()
    }

    /// Whether it may set this many more keys, of this many bytes.
    pub fn has_room_for(&self, keys: usize, bytes: usize) -> bool {
        let keys = keys + self.buckets.len() + self.clients.len() + OTHER_KEYS;
        fits(keys, bytes + self.buckets.values().sum::<usize>())
    }
}

/// Asks whether the cluster takes the largest transaction, by one that changes nothing: what it
/// compares is never true.
pub(crate) fn probe(etcd: &mut Etcd, prefix: &str, end: Instant) -> Result<(), Failure> {
    let name = "0".repeat(MAX_BYTES / MAX_KEYS);
    let deletes =
        (0..MAX_KEYS).map(|place| request::delete(&format!("{prefix}/none/{place}{name}")));
    let asked = json!({
        "compare": [request::has(&format!("{prefix}/head"), Some("no head is this"))],
        "success": deletes.collect::<Vec<_>>(),
    });
    match etcd.call("kv/txn", &asked, end) {
        Err(Failure::Refused(why)) if LIMITS.iter().any(|limit| why.contains(limit)) => {
            Err(Failure::Refused(format!(
                "etcd takes less than a store needs: start it with --max-request-bytes 1572864 and \
                 --max-txn-ops 128, its defaults, or more ({why})"
            )))
        }
        // Any other refusal is reported by what needs it.
        Ok(_) | Err(Failure::Refused(_)) => Ok(()),
        Err(unknown) => Err(unknown),
    }
}

#[cfg(test)]
mod tests {
    use super::*;

    fn sets(count: usize, bytes: usize) -> Vec<Set> {
        vec![Set { key: "k".to_string(), value: vec![0; bytes] }; count]
    }

    fn lengths(sets: &[Set]) -> Vec<usize> {
        parts(sets).into_iter().map(<[Set]>::len).collect()
    }

    #[test]
    fn parts_have_few_keys_and_few_bytes() {
        assert!(lengths(&sets(0, 1)).is_empty());
        assert_eq!(lengths(&sets(250, 1)), [120, 120, 10]);
        assert_eq!(lengths(&sets(50, 42_000)), [24, 24, 2], "42 kB each");
        assert_eq!(lengths(&sets(3, 2 << 20)), [1, 1, 1], "none fits, and each is tried");
    }

    #[test]
    fn a_part_counts_each_bucket_once() {
        let rows = |count: u64| (0..count).map(|key| (key, key.into())).collect::<Bucket>();
        let (small, large) = (rows(10), rows(40_000));
        let mut part = Part::default();
        for _ in 0..3 {
            part.set_bucket(7, &large);
        }
        assert!(part.has_room_for(2, 1000), "{} bytes", bucket::length(&large));
        assert!(!part.has_room_for(2, bucket::length(&large)));
        part.set_bucket(7, &small);
        assert!(part.has_room_for(2, bucket::length(&large)));
        assert_eq!(part.buckets().collect::<Vec<_>>(), [7]);
        assert!(!part.has_room_for(MAX_KEYS, 0));
    }
}
