//! A new store in etcd of what was copied from another one.
use crate::address::{Credentials, EtcdAddress};
use crate::bucket::{self, Buckets};
use crate::call::Etcd;
use crate::head::Head;
use crate::request;
use crate::table::{OTHERS, Table, bucket_key};
use crate::transaction::{self, Set, parts};
use krl::store::fence::{self, Failure, Fence};
use krl::store::{Snapshot, StoreError};
use serde_json::{Value as Json, json};
use std::time::{Duration, Instant};

/// How long the cluster is asked for each transaction.
const TIMEOUT: Duration = Duration::from_secs(60);

/// How the head of an unfinished place begins.
const UNFINISHED: &str = "unfinished ";

/// The place of a new store, and what stands in its head until it is whole: no server loads that.
struct Place<'a> {
    etcd: &'a mut Etcd,
    prefix: &'a str,
    mark: String,
}

/// Makes a store of the snapshot at an address where there is none. No server serves it before it
/// is whole.
pub(crate) fn create(
    address: &EtcdAddress,
    credentials: &Credentials,
    snapshot: &Snapshot,
) -> Result<(), StoreError> {
    let mut etcd = Etcd::new(address, credentials).map_err(StoreError::failed)?;
    transaction::probe(&mut etcd, &address.prefix, Instant::now() + TIMEOUT)?;
    let mark = format!("{UNFINISHED}{:032x}", u128::from_ne_bytes(fence::draw()?));
    let mut place = Place { etcd: &mut etcd, prefix: &address.prefix, mark };
    place.begin()?;
    let salt = u64::from_ne_bytes(fence::draw()?);
    let table = table_of(snapshot, salt);
    for part in parts(&place.sets(&table)) {
        place.set(part)?;
    }
    let fence = Fence::with_new_owner(snapshot.epoch)?;
    let head = Head { fence, salt, buckets: table.buckets.count() };
    place.set(&[Set { key: place.key("head"), value: head.to_string().into() }])?;
    Ok(())
}

/// Whether a call that makes a store there is not finished.
pub(crate) fn is_unfinished(etcd: &mut Etcd, prefix: &str) -> Result<bool, Failure> {
    Ok(unfinished(etcd, prefix)?.is_some())
}

/// The mark of a call that is not finished.
fn unfinished(etcd: &mut Etcd, prefix: &str) -> Result<Option<String>, Failure> {
    let asked = request::range_of_one(&format!("{prefix}/head"));
    let found = etcd.call("kv/range", &asked, Instant::now() + TIMEOUT)?;
    let head = found["kvs"][0].get("value").and_then(request::text_of);
    Ok(head.filter(|head| head.starts_with(UNFINISHED)))
}

/// What removes all keys of a table, but for the head.
pub(crate) fn delete_all(prefix: &str) -> Vec<Json> {
    let names = ["bucket", "client", "lease", "room", "shard", "start"];
    names.map(|name| request::delete_all(&format!("{prefix}/{name}"))).into()
}

/// The table as a store of this salt keeps it.
fn table_of(snapshot: &Snapshot, salt: u64) -> Table {
    let count = bucket::count_for(snapshot.kept_room().unwrap_or_default());
    Table {
        buckets: Buckets::of_rows(salt, count, &snapshot.rows),
        records: snapshot.records.clone(),
        leases: snapshot.leases,
        room: snapshot.room,
        shard: snapshot.shard,
        stale: Vec::new(),
        starts: snapshot.first_start.map(first_start).into_iter().collect(),
    }
}

/// What keeps the first start of the store that was copied. No batch that was committed since is
/// here: a client that has seen more than that start finds an older store.
fn first_start(first_start: u128) -> (u64, Head) {
    let fence = Fence { owner: first_start, ..Fence::default() };
    (0, Head { fence, ..Head::EMPTY })
}

impl Place<'_> {
    fn key(&self, name: &str) -> String {
        format!("{}/{name}", self.prefix)
    }

    /// Takes the place, if nothing is there but what another call has left unfinished. Each
    /// transaction of a call compares the mark that it has set: if that one still runs, it ends
    /// at its next transaction, and no store is mixed of both.
    fn begin(&mut self) -> Result<(), Failure> {
        let (folder, last) = (self.key(""), format!("{}0", self.prefix));
        let asked = request::range(folder.as_bytes(), last.as_bytes(), OTHERS.len() + 1, 0);
        let found = self.etcd.call("kv/range", &asked, Instant::now() + TIMEOUT)?;
        let others = OTHERS.map(|name| request::range_of_one(&self.key(name)));
        let is_other = |pair: &Json| others.iter().any(|other| pair["key"] == other["key"]);
        let is_empty = found["kvs"].as_array().into_iter().flatten().all(is_other);
        let left = if is_empty { None } else { unfinished(self.etcd, self.prefix)? };
        if !is_empty && left.is_none() {
            let why = format!("there is something at {} already", self.prefix);
            return Err(Failure::Refused(why));
        }
        let mut operations = vec![request::put(&self.key("head"), self.mark.as_bytes())];
        if left.is_some() {
            operations.extend(delete_all(self.prefix));
        }
        self.transaction(left.as_deref(), &operations)
    }

    fn set(&mut self, sets: &[Set]) -> Result<(), Failure> {
        let (mark, operations) = (self.mark.clone(), sets.iter().map(Set::as_json));
        self.transaction(Some(&mark), &operations.collect::<Vec<_>>())
    }

    /// Does this if the head is as it should be. It may be done twice: it sets the same.
    fn transaction(&mut self, head: Option<&str>, operations: &[Json]) -> Result<(), Failure> {
        let key = self.key("head");
        let asked = json!({
            "compare": [request::has(&key, head)], "success": operations,
            "failure": [request::get(&key)],
        });
        let answer = self.etcd.call("kv/txn", &asked, Instant::now() + TIMEOUT)?;
        // An attempt whose answer was lost may have done it.
        let found = request::found_by_get(&answer);
        let is_done = request::succeeded(&answer)
            || found
                .is_some_and(|found| operations.contains(&request::put(&key, found.as_bytes())));
        if is_done {
            return Ok(());
        }
        Err(Failure::Refused(format!("another process makes a store at {}", self.prefix)))
    }

    /// All keys of the table, but for the head.
    fn sets(&self, table: &Table) -> Vec<Set> {
        let buckets = table.buckets.iter().enumerate().filter(|(_, rows)| !rows.is_empty());
        let buckets = buckets.map(|(number, rows)| Set {
            key: bucket_key(self.prefix, number),
            value: bucket::encode(rows),
        });
        let clients = table.records.iter();
        let clients = clients.filter_map(|record| table.set_record(self.prefix, record.client));
        let leases = Some(table.set_leases(self.prefix));
        let others = [leases, table.set_room(self.prefix), table.set_shard(self.prefix)];
        let others = others.into_iter().flatten().chain(table.set_starts(self.prefix));
        buckets.chain(clients).chain(others).collect()
    }
}

#[cfg(test)]
mod tests {
    use super::*;
    use krl_testing::cluster::Cluster;

    #[test]
    fn of_two_that_make_a_store_at_one_place_the_later_one_does() {
        let Some(cluster) = Cluster::start() else { return };
        let (address, credentials) = (cluster.address("both"), Credentials::default());
        let mut etcd = Etcd::new(&address, &credentials).unwrap();
        let mark = format!("{UNFINISHED}of the earlier one");
        let mut earlier = Place { etcd: &mut etcd, prefix: &address.prefix, mark };
        let set = Set { key: earlier.key("bucket/0001"), value: b"x".to_vec() };
        earlier.begin().unwrap();
        earlier.set(std::slice::from_ref(&set)).unwrap();
        create(&address, &credentials, &Snapshot::default()).unwrap();
        assert!(earlier.set(&[set]).is_err());
        let mut store = crate::EtcdStore::open(&address, &credentials).unwrap();
        let loaded = krl::store::Store::load(&mut store).unwrap();
        assert_eq!(Snapshot { first_start: None, ..loaded }, Snapshot::default());
    }
}
