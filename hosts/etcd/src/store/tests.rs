//! What is committed is what is loaded, and who commits. They start a node of etcd.
use super::*;
use crate::bucket::Buckets;
use krl::operate::Room;
use krl::store::Write;
use krl::store::store_tests::{self, REGISTER, apply, is_deposed, judged, put, row};
use krl::{Row, Value};
use krl_testing::cluster::Cluster;
use std::thread;

/// How long a commit may take: the machine may be busy with something else.
const PATIENCE: Duration = Duration::from_secs(60);

fn open(address: &EtcdAddress) -> EtcdStore {
    EtcdStore::open(address, &Credentials::default()).unwrap().with_commit_timeout(PATIENCE)
}

fn loaded(address: &EtcdAddress) -> (EtcdStore, Snapshot) {
    store_tests::loaded(&mut || open(address))
}

#[test]
fn what_is_loaded_is_what_was_committed() {
    let Some(cluster) = Cluster::start() else { return };
    let address = cluster.address("one-by-one");
    store_tests::keeps_what_is_committed(|| open(&address));
    let address = cluster.address("at-once");
    let changes = store_tests::changes();
    loaded(&address).0.commit(&changes).unwrap();
    let mut expected = Snapshot::default();
    apply(&mut expected, &changes);
    assert_eq!(loaded(&address).1, expected);
}

#[test]
fn a_batch_that_is_too_large_for_one_transaction_is_committed_in_several() {
    let Some(cluster) = Cluster::start() else { return };
    let address = cluster.address("many");
    let (mut store, mut expected) = loaded(&address);
    let inserts = (0..5_000u64)
        .map(|at| judged(at + 1, Write::Insert(row(7 * at, &at.to_be_bytes())), Outcome::Applied));
    let first = [Change::Started { epoch: 1 }, REGISTER];
    let all: Vec<Change> = first.into_iter().chain(inserts).collect();
    store.commit(&all).unwrap();
    apply(&mut expected, &all);
    assert_eq!(loaded(&address).1, expected);
    let deletes: Vec<Change> = (0..5_000u64)
        .map(|at| judged(at + 5_001, Write::Delete(7 * at), Outcome::Applied))
        .collect();
    store.commit(&deletes).unwrap();
    assert_eq!(loaded(&address).1.rows.len(), 0);
    assert_eq!(store.history().unwrap(), loaded(&address).0.history().unwrap());
}

#[test]
fn a_store_becomes_only_a_later_shard() {
    let Some(cluster) = Cluster::start() else { return };
    let address = cluster.address("shard");
    store_tests::becomes_only_a_later_shard(|| open(&address));
}

#[test]
fn rows_that_a_cut_has_left_are_not_loaded_and_go_with_the_next_start() {
    let Some(cluster) = Cluster::start() else { return };
    let address = cluster.address("cut");
    let mut expected = Snapshot { epoch: 7, rows: rows_in(130, 5), ..Snapshot::default() };
    put_store(&address, bucket::FEWEST, &expected);
    let at = *expected.rows.keys().nth(expected.rows.len() / 2).unwrap();
    let (mut store, _) = loaded(&address);
    // It is killed after the transaction that has the shard.
    let cut = Change::Shard(format!("0..{at}@3").parse().unwrap());
    let mut part = Part::default();
    store.note(&cut, &mut part);
    store.send(&part, Instant::now() + Duration::from_secs(60)).unwrap();
    expected.apply(&cut);
    let (mut store, found) = loaded(&address);
    assert_eq!(found, expected, "the rows above the cut are not loaded");
    assert!(!store.table.stale.is_empty(), "they are in etcd");
    let start = Change::Started { epoch: 8 };
    store.commit(&[start]).unwrap();
    expected.apply(&start);
    let (store, found) = loaded(&address);
    assert_eq!(found, expected);
    assert!(store.table.stale.is_empty(), "they are gone");
}

#[test]
fn an_older_server_is_deposed_for_good() {
    let Some(cluster) = Cluster::start() else { return };
    let address = cluster.address("deposed");
    store_tests::deposes_an_older_value(|| open(&address));
}

#[test]
fn two_that_start_at_once_are_distinguished() {
    let Some(cluster) = Cluster::start() else { return };
    let address = cluster.address("at-once");
    store_tests::distinguishes_two_starts(|| open(&address));
}

/// A store that has forgotten its last transaction, as if that were still to be sent.
fn go_back(store: &mut EtcdStore, (head, next): (Option<Head>, Head)) {
    (store.head, store.next, store.ownership) = (head, next, Ownership::default());
    store.ownership.note_loaded();
}

#[test]
fn a_transaction_whose_answer_was_lost_is_found_and_is_not_done_late() {
    let Some(cluster) = Cluster::start() else { return };
    let address = cluster.address("lost");
    let (mut store, _) = loaded(&address);
    store.commit(&[Change::Started { epoch: 1 }, REGISTER]).unwrap();
    let before = (store.head, store.next);
    store.commit(&[put(1, 1)]).unwrap();
    go_back(&mut store, before);
    store.commit(&[put(1, 1)]).unwrap();
    store.commit(&[put(2, 2)]).unwrap();
    let after = (store.head, store.next);
    go_back(&mut store, before);
    assert!(is_deposed(&store.commit(&[put(1, 1)])), "it comes late");
    go_back(&mut store, after);
    store.commit(&[]).unwrap();
    assert_eq!(loaded(&address).1.rows.get(&10), Some(&2.into()));
}

#[test]
fn a_cluster_that_does_not_answer_ends_the_store() {
    let Some(cluster) = Cluster::start() else { return };
    let address = cluster.address("away");
    let (store, _) = loaded(&address);
    let mut store = store.with_commit_timeout(Duration::from_millis(100));
    cluster.freeze();
    let asked = store.commit(&[Change::Started { epoch: 1 }]);
    assert!(matches!(asked, Err(StoreError::Unanswered(_))), "{asked:?}");
    cluster.thaw();
    let again = store.commit(&[Change::Started { epoch: 1 }]);
    assert!(matches!(again, Err(StoreError::Unanswered(_))), "also when the cluster is back");
}

#[test]
fn a_cluster_that_hangs_for_a_moment_is_waited_for() {
    let Some(cluster) = Cluster::start() else { return };
    let address = cluster.address("hangs");
    let (mut store, mut expected) = loaded(&address);
    store.commit(&[Change::Started { epoch: 1 }, REGISTER]).unwrap();
    apply(&mut expected, &[Change::Started { epoch: 1 }, REGISTER]);
    thread::scope(|scope| {
        cluster.freeze();
        let commit = scope.spawn(|| store.commit(&[put(1, 1)]));
        thread::sleep(Duration::from_millis(1500));
        cluster.thaw();
        commit.join().unwrap().unwrap();
    });
    assert!(store.retries() > 0);
    expected.apply(&put(1, 1));
    assert_eq!(loaded(&address).1, expected);
}

#[test]
fn a_history_has_each_start() {
    let Some(cluster) = Cluster::start() else { return };
    let address = cluster.address("history");
    store_tests::counts_each_start_and_each_batch(|| open(&address));
}

#[test]
fn what_no_server_commits_is_not_loaded() {
    let Some(cluster) = Cluster::start() else { return };
    for (table, name, value) in [
        ("row", "bucket/0001", &b"short"[..]),
        ("number", "bucket/1024", b""),
        ("client", "client/64", b"0 1 0 - here"),
        ("head", "head", b"krl2 1 0 0 0 0"),
        ("other", "something", b""),
        ("headless", "client/03", b"0 1 0 - here"),
        ("lease", "lease", b"10 5"),
        ("room", "room", b"0"),
        ("spelled", "room", b"+3"),
        ("unserved", "room", b"3"),
    ] {
        let mut store = open(&cluster.address(table));
        let set = request::put(&store.key(name), value);
        let end = Instant::now() + Duration::from_secs(5);
        store.etcd.call("kv/txn", &json!({"success": [set]}), end).unwrap();
        let error = store.load().unwrap_err();
        assert!(matches!(error, StoreError::Failed(_)), "{table}: {error}");
    }
}

#[test]
fn a_copy_becomes_a_store_of_its_own() {
    let Some(cluster) = Cluster::start() else { return };
    let (address, credentials) = (cluster.address("copy"), Credentials::default());
    let create = |snapshot: &Snapshot| EtcdStore::create(&address, &credentials, snapshot);
    store_tests::goes_on_from_a_copy(create, || open(&address));
}

#[test]
fn only_a_sealed_store_is_removed() {
    let Some(cluster) = Cluster::start() else { return };
    let (address, credentials) = (cluster.address("sealed"), Credentials::default());
    let create = |snapshot: &Snapshot| EtcdStore::create(&address, &credentials, snapshot);
    let remove = |keys: &Range<u64>| EtcdStore::remove_sealed(&address, &credentials, keys);
    store_tests::removes_only_what_is_sealed(create, remove, || open(&address));
}

/// Puts these keys, whatever is there.
fn put_keys(store: &mut EtcdStore, sets: &[Set]) {
    for part in transaction::parts(sets) {
        let asked = json!({"success": part.iter().map(Set::as_json).collect::<Vec<_>>()});
        store.etcd.call("kv/txn", &asked, Instant::now() + LOAD_TIMEOUT).unwrap();
    }
}

#[test]
fn a_place_that_was_not_finished_is_no_store_and_is_taken() {
    let Some(cluster) = Cluster::start() else { return };
    let (address, credentials) = (cluster.address("begun"), Credentials::default());
    let mut store = open(&address);
    let left = [
        ("head", "unfinished 00"),
        ("bucket/0001", "x"),
        ("client/64", "y"),
        ("room", "3"),
        ("start/0", "z"),
    ];
    let set = |(name, value): (&str, &str)| Set { key: store.key(name), value: value.into() };
    let sets = left.map(set);
    put_keys(&mut store, &sets);
    assert!(matches!(store.load(), Err(StoreError::Failed(_))));
    assert!(!EtcdStore::remove_sealed(&address, &credentials, &(0..5)).unwrap());
    let mut snapshot = Snapshot::default();
    apply(&mut snapshot, &store_tests::changes()[..3]);
    EtcdStore::create(&address, &credentials, &snapshot).unwrap();
    assert_eq!(loaded(&address).1, snapshot);
}

#[test]
fn a_cluster_that_takes_too_little_is_refused_before_anything_is_stored() {
    for settings in [["--max-request-bytes", "65536"], ["--max-txn-ops", "100"]] {
        let Some(cluster) = Cluster::start_with_settings(&settings) else { return };
        let address = cluster.address("small");
        let created = EtcdStore::create(&address, &Credentials::default(), &Snapshot::default());
        let loaded = open(&address).load().map(|_| ());
        for refused in [created.unwrap_err(), loaded.unwrap_err()] {
            assert!(refused.to_string().contains(settings[0]), "{refused}");
        }
        let stored = cluster.ask("kv/range", &request::range_of_one("/krl/small/head"));
        assert!(stored["kvs"].is_null(), "{stored}");
    }
}

/// Rows that lie in these buckets of a store with few of them: some 16 kB in each.
fn rows_in(numbers: usize, salt: u64) -> std::collections::BTreeMap<u64, Value> {
    let buckets = Buckets::empty(salt, bucket::FEWEST);
    let keys = (0..400 * bucket::FEWEST as u64).filter(|key| buckets.number_of(*key) < numbers);
    keys.map(|key| (key, Value::try_from([7u8; 32]).unwrap())).collect()
}

/// A store with this many buckets and these rows, as no transaction of today makes it.
fn put_store(address: &EtcdAddress, count: usize, snapshot: &Snapshot) {
    let mut store = open(address);
    let fence = Fence { epoch: snapshot.epoch, owner: 1, ..Fence::default() };
    let head = Head { fence, salt: 5, buckets: count };
    let room = snapshot.room.map(|room| room.to_string());
    let buckets = Buckets::of_rows(head.salt, count, &snapshot.rows);
    let buckets = buckets.iter().enumerate().filter(|(_, rows)| !rows.is_empty());
    let buckets = buckets.map(|(number, rows)| Set {
        key: bucket_key(&store.prefix, number),
        value: bucket::encode(rows),
    });
    let others = [("head", Some(head.to_string())), ("room", room)].into_iter();
    let others =
        others.filter_map(|(name, text)| Some(Set { key: store.key(name), value: text?.into() }));
    let sets: Vec<Set> = buckets.chain(others).collect();
    put_keys(&mut store, &sets);
}

#[test]
fn a_batch_of_large_buckets_is_committed_in_several_transactions() {
    let Some(cluster) = Cluster::start() else { return };
    let address = cluster.address("large");
    let (rows, room) = (rows_in(130, 5), Some(Room::MAX));
    let mut expected = Snapshot { epoch: 7, rows, room, ..Snapshot::default() };
    put_store(&address, bucket::FEWEST, &expected);
    let (mut store, found) = loaded(&address);
    assert_eq!(found, expected);
    let places = Buckets::empty(5, bucket::FEWEST);
    let mut keys = std::collections::BTreeMap::new();
    expected.rows.keys().for_each(|key| _ = keys.insert(places.number_of(*key), *key));
    assert_eq!(keys.len(), 130, "a row of each bucket");
    let put = |(number, key): (u64, &u64)| {
        judged(number, Write::Put(Row { key: *key, value: number.into() }), Outcome::Applied)
    };
    let first = [Change::Started { epoch: 8 }, Change::Registered { client: 9, incarnation: 1 }];
    let all: Vec<Change> = first.into_iter().chain((1..).zip(keys.values()).map(put)).collect();
    store.commit(&all).unwrap();
    apply(&mut expected, &all);
    assert_eq!(loaded(&address).1, expected);
    assert_eq!(store.next.buckets, bucket::FEWEST, "a store of the first form stays as it is");
}

#[test]
fn a_store_has_more_buckets_once_its_room_is_raised() {
    let Some(cluster) = Cluster::start() else { return };
    let address = cluster.address("raised");
    let room = Room::of(100_000).unwrap();
    let mut expected = Snapshot { epoch: 7, rows: rows_in(130, 5), ..Snapshot::default() };
    put_store(&address, bucket::FEWEST, &expected);
    let (mut store, _) = loaded(&address);
    let raised = [Change::Started { epoch: 8 }, Change::Room(room)];
    store.commit(&raised).unwrap();
    apply(&mut expected, &raised);
    assert_eq!(store.next.buckets, bucket::count_for(room));
    let (mut next, found) = loaded(&address);
    assert_eq!(found.rows.len(), expected.rows.len(), "no row is lost that moves");
    assert_eq!(found, expected);
    assert_eq!(next.history().unwrap(), store.history().unwrap());
    let further = Change::Room(Room::of(200_000).unwrap());
    store.commit(&[further]).unwrap();
    expected.apply(&further);
    assert!(is_deposed(&next.commit(&[])), "it read before more buckets were added");
    assert_eq!(loaded(&address).1, expected);
}

#[test]
fn a_server_continues_to_add_buckets_where_one_before_has_ended() {
    let Some(cluster) = Cluster::start() else { return };
    let address = cluster.address("half");
    let (rows, room) = ((0..5_000).map(|key| (key, key.into())).collect(), Room::of(100_000).ok());
    let mut expected = Snapshot { epoch: 7, rows, room, ..Snapshot::default() };
    put_store(&address, 1_500, &expected);
    let (mut store, found) = loaded(&address);
    assert_eq!(found, expected);
    store.commit(&[Change::Started { epoch: 8 }]).unwrap();
    expected.epoch = 8;
    let (store, found) = loaded(&address);
    assert_eq!((store.next.buckets, found), (8_192, expected));
}

#[test]
fn a_cluster_that_is_well_is_of_no_concern() {
    let Some(cluster) = Cluster::start() else { return };
    let mut store = open(&cluster.address("well"));
    assert_eq!(store.concerns(), Vec::<String>::new());
    let end = Instant::now() + Duration::from_secs(5);
    let asked = json!({"action": "ACTIVATE", "alarm": "NOSPACE"});
    store.etcd.call("maintenance/alarm", &asked, end).unwrap();
    let concerns = store.concerns();
    assert!(matches!(&concerns[..], [alarm] if alarm.contains("NOSPACE")), "{concerns:?}");
    store.load().unwrap();
    let refused = store.commit(&[Change::Started { epoch: 1 }]);
    assert!(matches!(refused, Err(StoreError::Failed(_))), "{refused:?}");
}

#[test]
fn a_full_table_is_loaded_in_a_moment() {
    let Some(cluster) = Cluster::start() else { return };
    let address = cluster.address("full");
    let (mut store, _) = loaded(&address);
    let inserts = (0..65_536u64)
        .map(|at| judged(at + 1, Write::Insert(row(at << 20, &[7; 32])), Outcome::Applied));
    let first = [Change::Started { epoch: 1 }, REGISTER];
    let all: Vec<Change> = first.into_iter().chain(inserts).collect();
    let begun = Instant::now();
    for batch in all.chunks(16_384) {
        store.commit(batch).unwrap();
    }
    let filled = begun.elapsed();
    let begun = Instant::now();
    assert_eq!(loaded(&address).1.rows.len(), 65_536);
    let took = begun.elapsed();
    eprintln!("65,536 rows: filled in {filled:?}, loaded in {took:?}");
    // A request for each row would take longer than to write all of them.
    assert!(took < filled, "{took:?}");
}
