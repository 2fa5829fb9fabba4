//! Calls that come late, and starts that cross. They start a node of etcd, and a relay holds back
//! calls to it.
use krl::Value;
use krl::store::store_tests::{REGISTER, is_deposed, put};
use krl::store::{Change, Store, StoreError};
use krl_etcd::{Credentials, EtcdAddress, EtcdStore};
use krl_testing::cluster::Cluster;
use krl_testing::etcd_relay::{Holds, Relay};
use krl_testing::relay;
use std::thread;
use std::time::Duration;

/// How long a node may take for a call that was let go.
const COMES: Duration = Duration::from_secs(1);

/// How long a test waits for what has to come.
const LONG: Duration = Duration::from_secs(60);

fn loaded(address: &EtcdAddress) -> EtcdStore {
    let mut store = EtcdStore::open(address, &Credentials::default()).unwrap();
    store.load().unwrap();
    store
}

/// A relay to the one node, at two addresses: an attempt that is not answered at the first one is
/// made again at the second.
fn relayed(cluster: &Cluster, table: &str) -> (Relay, EtcdAddress) {
    let direct: EtcdAddress = cluster.address(table);
    let node = direct.endpoints[0].parse().unwrap();
    let relay = Relay::start(&[node, node], || Ok(())).unwrap();
    let endpoints = relay.addresses().iter().map(ToString::to_string).collect();
    (relay, EtcdAddress { endpoints, ..direct })
}

/// What begins a table: a server of epoch 1, and a client.
const BEGIN: [Change; 2] = [Change::Started { epoch: 1 }, REGISTER];

fn value_of(address: &EtcdAddress) -> Option<u64> {
    let mut store = EtcdStore::open(address, &Credentials::default()).unwrap();
    store.load().unwrap().rows.get(&10).and_then(Value::to_u64)
}

#[test]
fn a_change_that_comes_after_its_own_repetition_is_not_made() {
    let Some(cluster) = Cluster::start() else { return };
    let (relay, address) = relayed(&cluster, "repeated");
    let mut store = loaded(&address);
    store.commit(&BEGIN).unwrap();
    relay.hold(Holds::NextChange);
    store.commit(&[put(1, 1)]).unwrap();
    assert!(relay.has_held(Duration::ZERO), "the first attempt is on its way");
    store.commit(&[put(2, 2)]).unwrap();
    relay.let_go();
    thread::sleep(COMES);
    store.commit(&[]).unwrap();
    assert_eq!(value_of(&address), Some(2));
}

#[test]
fn a_change_that_comes_after_another_start_is_not_made() {
    let Some(cluster) = Cluster::start() else { return };
    let (relay, address) = relayed(&cluster, "late");
    let mut old = loaded(&address).with_commit_timeout(Duration::from_millis(1500));
    old.commit(&BEGIN).unwrap();
    relay.hold(Holds::Changes);
    let lost = old.commit(&[put(1, 1)]);
    assert!(matches!(lost, Err(StoreError::Unanswered(_))), "{lost:?}");
    let mut new = loaded(&cluster.address("late"));
    new.commit(&[Change::Started { epoch: 2 }]).unwrap();
    new.commit(&[put(1, 2)]).unwrap();
    relay.let_go();
    thread::sleep(COMES);
    new.commit(&[]).unwrap();
    assert_eq!(value_of(&address), Some(2));
}

/// Both have loaded the same, and both make their first transaction: only the random owner
/// distinguishes them.
#[test]
fn of_two_starts_that_cross_one_is_made() {
    let Some(cluster) = Cluster::start() else { return };
    let (relay, address) = relayed(&cluster, "cross");
    loaded(&address).commit(&BEGIN).unwrap();
    let (mut late, mut early) = (loaded(&address), loaded(&cluster.address("cross")));
    relay.hold(Holds::Changes);
    let committed = thread::scope(|scope| {
        let late = scope.spawn(|| late.commit(&[Change::Started { epoch: 2 }]));
        assert!(relay.has_held(LONG));
        early.commit(&[Change::Started { epoch: 2 }]).unwrap();
        relay.let_go();
        late.join().unwrap()
    });
    assert!(is_deposed(&committed), "{committed:?}");
    early.commit(&[put(1, 1)]).unwrap();
}

#[test]
fn a_connection_that_is_silent_is_left_for_a_new_one() {
    let Some(cluster) = Cluster::start() else { return };
    let direct: EtcdAddress = cluster.address("silent");
    let relay = relay::Relay::to(direct.endpoints[0].parse().unwrap());
    let address = EtcdAddress { endpoints: vec![relay.at().to_string()], ..direct };
    let mut store = loaded(&address).with_commit_timeout(Duration::from_secs(15));
    store.commit(&BEGIN).unwrap();
    relay.swallow();
    store.commit(&[put(1, 1)]).unwrap();
    assert_eq!(value_of(&address), Some(1));
}
