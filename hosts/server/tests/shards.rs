//! A server of one shard: whom it serves, on which store, and who may evict there.
mod common;

use common::{Serving, errors, output_unless_it_serves, program, run, text};
use krl::store::{Change, Snapshot};
use krl::{Client, JoinError, JoinErrorKind, Outcome, Servers, SqliteStore, Value};
use std::path::Path;
use std::time::Duration;

/// No wait of a test is longer.
const LONG: Duration = Duration::from_secs(60);

fn serve(store: &Path, shard: &str) -> Serving {
    Serving::start_by(program().arg("serve").arg("--store").arg(store).args(["--shard", shard]))
}

fn join(serving: &Serving, shard: &str, lock_file: &Path) -> Result<Client, JoinError> {
    let servers = Servers::from(&serving.address).of_shard(shard.parse().unwrap());
    Client::builder(servers, 3, lock_file).timeout(LONG).join()
}

#[test]
fn a_server_of_a_shard_serves_only_its_clients() {
    let folder = tempfile::tempdir().unwrap();
    let (store, lock) = (folder.path().join("krl.db"), folder.path().join("3.lock"));
    let serving = serve(&store, "0..500@3");
    let refused = join(&serving, "0..500@2", &lock).unwrap_err();
    assert!(matches!(refused.kind, JoinErrorKind::OtherShard(_)), "{refused:?}");
    let client = join(&serving, "0..500@3", &lock).unwrap();
    assert_eq!(client.insert(499, Value::from(1)), Ok(Outcome::Applied));
    client.leave().unwrap();
}

#[test]
fn a_store_with_a_key_of_another_shard_is_not_served() {
    let folder = tempfile::tempdir().unwrap();
    let store = folder.path().join("krl.db");
    let rows = [(700, Value::from(1))].into();
    SqliteStore::create(&store, &Snapshot { epoch: 1, rows, ..Snapshot::default() }).unwrap();
    let words = ["serve", "--shard", "0..500@3", "--status", "off", "--listen", "127.0.0.1:0"];
    let words = [&words[..], &["--store", store.to_str().unwrap()]].concat();
    let ended = output_unless_it_serves(program().args(words));
    assert_eq!(ended.status.code(), Some(1));
    let printed = [errors(&ended), common::text(&ended)].concat();
    assert!(printed.contains("the store has the key 700, which the shard 0..500@3"), "{printed}");
    let refused = run(&["config", "--shard", "500..0@3"]);
    assert_eq!(refused.status.code(), Some(2));
    assert!(errors(&refused).contains("has to be FIRST..END@VERSION"), "{}", errors(&refused));
}

/// What a server prints that does not start over this store.
fn refused(store: &Path, shard: &[&str]) -> String {
    let words = ["serve", "--status", "off", "--listen", "127.0.0.1:0", "--store"];
    let words = [&words[..], &[store.to_str().unwrap()], shard].concat();
    let ended = output_unless_it_serves(program().args(words));
    assert_eq!(ended.status.code(), Some(1));
    [errors(&ended), common::text(&ended)].concat()
}

#[test]
fn a_store_keeps_its_shard_and_refuses_servers_of_another_one() {
    let folder = tempfile::tempdir().unwrap();
    let (store, lock) = (folder.path().join("krl.db"), folder.path().join("3.lock"));
    let stop = |serving: Serving| {
        serving.signal(&["TERM"]);
        assert_eq!(serving.ended().status.code(), Some(0));
    };
    stop(serve(&store, "0..500@3"));
    for shard in ["0..500@4", "0..500@2", "0..400@4", "0..@3"] {
        let printed = refused(&store, &["--shard", shard]);
        assert!(printed.contains("the store is of the shard 0..500@3"), "{printed}");
    }
    stop(serve(&store, "0..500@3"));
    let serving = Serving::start(&store);
    join(&serving, "0..500@3", &lock).unwrap().leave().unwrap();
    let status = text(&run(&["status", &serving.status, "--json"]));
    assert!(status.contains("\"shard\": \"0..500@3\""), "{status}");
}

#[test]
fn no_server_starts_on_a_sealed_store() {
    let folder = tempfile::tempdir().unwrap();
    let store = folder.path().join("krl.db");
    let shard = "0..500@3 sealed".parse().ok();
    SqliteStore::create(&store, &Snapshot { epoch: 1, shard, ..Snapshot::default() }).unwrap();
    for shard in [&[][..], &["--shard", "0..500@3"], &["--shard", "0..500@4"]] {
        let printed = refused(&store, shard);
        assert!(printed.contains("the store of the shard 0..500@3 is sealed"), "{printed}");
    }
    SqliteStore::unseal(&store).unwrap();
    drop(Serving::start(&store));
}

#[test]
fn who_evicts_at_a_shard_names_it() {
    let folder = tempfile::tempdir().unwrap();
    let (store, lock) = (folder.path().join("krl.db"), folder.path().join("operator.lock"));
    let mut before = Snapshot::default();
    before.apply(&Change::Started { epoch: 1 });
    before.apply(&Change::Registered { client: 3, incarnation: 17 });
    SqliteStore::create(&store, &before).unwrap();
    let serving = serve(&store, "0..500@3");
    let (address, lock) = (serving.address.to_string(), lock.to_str().unwrap().to_string());
    let refused = run(&["evict", &address, "3", &lock]);
    assert_eq!(refused.status.code(), Some(1));
    assert!(errors(&refused).contains("serves only 0..500@3"), "{}", errors(&refused));
    let evicted = run(&["evict", &address, "3", &lock, "--shard", "0..500@3"]);
    assert_eq!(evicted.status.code(), Some(0), "{}", errors(&evicted));
}
