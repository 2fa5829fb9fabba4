//! A map of shards under a key of etcd.
use crate::address::{Credentials, EtcdAddress};
use crate::call::Etcd;
use crate::request::{self, number_of};
use krl::store::{MapHome, StoreError};
use serde_json::json;
use std::thread;
use std::time::{Duration, Instant};

/// How long the cluster is asked.
const TIMEOUT: Duration = Duration::from_secs(60);

/// The pause after a wait that ended without an event: the cluster, or what is in front of it, gives
/// none.
const PAUSE_WITHOUT_EVENT: Duration = Duration::from_millis(200);

/// A map of shards under a key of etcd, as text, which others replace and wait for.
///
/// The address names the key: `etcd://10.0.0.1:2379/krl/map` is the key `/krl/map`. Below the prefix of
/// a store only the name `map` is free for it. A client continues by each map that comes there:
///
/// ```no_run
/// # fn join() -> Result<(), Box<dyn std::error::Error>> {
/// use krl::store::MapHome;
/// use krl::{Client, ShardMap};
/// use krl_etcd::{Credentials, EtcdMap};
///
/// let address = "etcd://10.0.0.1:2379/krl/map".parse()?;
/// let mut map = EtcdMap::open(&address, &Credentials::default())?;
/// let first = map.read()?.ok_or("there is no map")?;
/// let client = Client::join(ShardMap::from_toml(&first)?, 0, "locks")?;
/// client.follow_at(map)?;
/// # Ok(())
/// # }
/// ```
#[derive(Debug)]
pub struct EtcdMap {
    etcd: Etcd,
    key: String,
    /// The revision of the cluster when the key was last read.
    revision: u64,
}

impl EtcdMap {
    /// The key of this address. Nothing is asked yet.
    ///
    /// # Errors
    ///
    /// If the credentials can't be used.
    pub fn open(address: &EtcdAddress, credentials: &Credentials) -> Result<EtcdMap, StoreError> {
        let etcd = Etcd::new(address, credentials).map_err(StoreError::failed)?;
        Ok(EtcdMap { etcd, key: address.prefix.clone(), revision: 0 })
    }
}

impl MapHome for EtcdMap {
    fn read(&mut self) -> Result<Option<String>, StoreError> {
        let asked = request::range_of_one(&self.key);
        let found = self.etcd.call("kv/range", &asked, Instant::now() + TIMEOUT)?;
        self.revision = number_of(&found["header"]["revision"]);
        Ok(found["kvs"][0].get("value").and_then(request::text_of))
    }

    fn replace(&mut self, before: Option<&str>, next: &str) -> Result<bool, StoreError> {
        let asked = json!({
            "compare": [request::has(&self.key, before)],
            "success": [request::put(&self.key, next.as_bytes())],
            "failure": [request::get(&self.key)],
        });
        let answer = self.etcd.call("kv/txn", &asked, Instant::now() + TIMEOUT)?;
        // An attempt whose answer was lost may have put it there.
        let found = request::found_by_get(&answer);
        Ok(request::succeeded(&answer) || found.as_deref() == Some(next))
    }

    fn wait(&mut self, most: Duration) {
        let end = Instant::now() + most;
        if !self.etcd.watch(&self.key, self.revision + 1, most) {
            thread::sleep(PAUSE_WITHOUT_EVENT.min(end.saturating_duration_since(Instant::now())));
        }
    }
}

#[cfg(test)]
mod tests {
    use super::*;
    use crate::EtcdStore;
    use krl::store::{Snapshot, Store, store_tests};
    use krl_testing::cluster::Cluster;

    #[test]
    fn a_map_is_replaced_and_waited_for() {
        let Some(cluster) = Cluster::start() else { return };
        let open = |name| EtcdMap::open(&cluster.address(name), &Credentials::default()).unwrap();
        store_tests::replaces_only_a_known_map(|| open("map"));
        store_tests::waits_for_a_map(|| open("other_map"));
    }

    #[test]
    fn a_map_may_be_below_the_prefix_of_a_store() {
        let Some(cluster) = Cluster::start() else { return };
        let credentials = Credentials::default();
        let mut map = EtcdMap::open(&cluster.address("orders/map"), &credentials).unwrap();
        assert!(map.replace(None, "1").unwrap());
        let address = cluster.address("orders");
        let snapshot = Snapshot { rows: [(1, 2.into())].into(), ..Snapshot::default() };
        EtcdStore::create(&address, &credentials, &snapshot).unwrap();
        let found = EtcdStore::open(&address, &credentials).unwrap().load().unwrap();
        assert_eq!(found.rows, snapshot.rows);
        assert_eq!(map.read().unwrap().as_deref(), Some("1"));
    }
}
