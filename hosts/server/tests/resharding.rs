//! A full store is cut in two, served by two servers, and made one again.
mod common;

use common::{Serving, errors, output_unless_it_serves, program, run, text};
use krl::operate::Room;
use krl::store::{Record, Snapshot};
use krl::{Client, Outcome, Row, Shard, ShardMap};
use krl::{SqliteStore, Value};
use std::os::unix::fs::symlink;
use std::path::Path;
use std::time::Duration;

/// As many rows as a server has room for, by default.
const FULL: u64 = 65_536;
const CUT: u64 = 40_000;

/// No wait of a test is longer.
const LONG: Duration = Duration::from_secs(60);

fn full() -> Snapshot {
    let record = |client, left| Record { client, incarnation: 5, last: None, left };
    let rows = (0..FULL).map(|key| (2 * key, Value::from(key))).collect();
    let records = vec![record(9, true), record(2, true)];
    let room = Some(Room::default());
    Snapshot { epoch: 3, rows, records, room, ..Snapshot::default() }
}

fn join(serving: &Serving, lock_file: &Path, number: u8) -> Client {
    let builder = Client::builder(&serving.address, number, lock_file);
    builder.timeout(LONG).join().unwrap()
}

fn shard(first: u64, serving: &Serving) -> Shard {
    Shard::new(first, &serving.address)
}

/// The keys that a client of all shards finds, and whether each has the value that it had.
fn keys(client: &Client) -> Vec<u64> {
    let rows = client.read(..).unwrap();
    assert!(rows.iter().all(|Row { key, value }| *value == Value::from(key / 2)));
    rows.iter().map(|row| row.key).collect()
}

#[test]
fn a_full_server_is_split_and_its_clients_go_on() {
    let folder = tempfile::tempdir().unwrap();
    let path = |name: &str| folder.path().join(name);
    let [store, upper, whole] = ["krl.db", "upper.db", "whole.db"].map(path);
    let [store_name, upper_name, whole_name] =
        [&store, &upper, &whole].map(|path| path.to_str().unwrap());
    SqliteStore::create(&store, &full()).unwrap();

    let serving = Serving::start(&store);
    let client = join(&serving, &path("7.lock"), 7);
    assert_eq!(client.insert(1, Value::from(0)), Ok(Outcome::Full));
    let words = ["split", store_name, "80000", upper_name];
    let refused = run(&words);
    assert_eq!(refused.status.code(), Some(1));
    assert!(errors(&refused).contains("served already, by process"), "{}", errors(&refused));
    serving.signal(&["TERM"]);
    assert_eq!(serving.ended().status.code(), Some(0));
    let refused = run(&words);
    assert_eq!(refused.status.code(), Some(1));
    assert!(errors(&refused).contains("have not left: 7."), "{}", errors(&refused));
    assert!(!upper.exists());

    let serving = Serving::start(&store);
    drop(client);
    join(&serving, &path("7.lock"), 7).leave().unwrap();
    serving.signal(&["TERM"]);
    assert_eq!(serving.ended().status.code(), Some(0));
    let split = run(&words);
    assert_eq!(split.status.code(), Some(0), "{}", errors(&split));
    assert!(text(&split).contains(&format!("{CUT} rows below 80000")), "{}", text(&split));
    assert_eq!(text(&run(&words)), text(&split), "it is repeated, and changes nothing");

    let servers = [&store, &upper].map(|store| Serving::start(store));
    let map = ShardMap::new(vec![shard(0, &servers[0]), shard(80_000, &servers[1])]).unwrap();
    let clients = [1, 2, 9].map(|number| {
        let builder = Client::builder(map.clone(), number, folder.path());
        builder.timeout(LONG).join().unwrap()
    });
    let expected: Vec<u64> = (0..FULL).map(|key| 2 * key).collect();
    for client in &clients {
        assert!(keys(client) == expected, "a key is lost, or there twice");
    }
    for (client, key) in clients.iter().zip([1, 79_999, 80_001]) {
        assert_eq!(client.insert(key, Value::from(key / 2)), Ok(Outcome::Applied), "{key}");
    }
    for client in clients {
        client.leave().unwrap();
    }
    for server in servers {
        server.signal(&["TERM"]);
        assert_eq!(server.ended().status.code(), Some(0));
    }

    let refused = run(&["merge", upper_name, store_name, whole_name]);
    assert_eq!(refused.status.code(), Some(1));
    assert!(errors(&refused).contains("the upper one begins at 0"), "{}", errors(&refused));
    let merged = run(&["merge", store_name, upper_name, whole_name]);
    assert_eq!(merged.status.code(), Some(0), "{}", errors(&merged));
    let check = text(&run(&["check", whole_name]));
    assert!(check.contains("rows: 65539\nroom: 65539\n"), "{check}");
    assert!(check.contains("a server can start on it\n"), "{check}");
    drop(Serving::start(&whole));
}

/// The store and its log lie where a link leads. What is only in the log counts by each name.
#[test]
fn a_store_that_is_named_by_a_link_is_split_with_all_that_it_has() {
    let folder = tempfile::tempdir().unwrap();
    let path = |name: &str| folder.path().join(name);
    std::fs::create_dir(path("disk")).unwrap();
    let [store, link, upper] = ["disk/krl.db", "krl.db", "upper.db"].map(path);
    let [store_name, link_name, upper_name] =
        [&store, &link, &upper].map(|path| path.to_str().unwrap());
    symlink("disk/krl.db", &link).unwrap();
    let serving = Serving::start(&link);
    assert!(store.exists() && path("disk/krl.db.lock").exists() && !path("krl.db.lock").exists());
    let client = serving.join(folder.path(), 1);
    for key in 1..6 {
        assert_eq!(client.insert(key, Value::from(key)), Ok(Outcome::Applied));
    }
    client.leave().unwrap();
    for name in [store_name, link_name] {
        for words in [&["export", name][..], &["check", name], &["split", name, "2", upper_name]] {
            let refused = run(words);
            assert_eq!(refused.status.code(), Some(1));
            assert!(errors(&refused).contains("served"), "{words:?}: {}", errors(&refused));
        }
    }
    serving.signal(&["KILL"]);
    serving.ended();
    assert!(std::fs::metadata(path("disk/krl.db-wal")).unwrap().len() > 0);
    assert!(text(&run(&["check", link_name])).contains("rows: 5\n"));
    assert_eq!(text(&run(&["export", link_name])).lines().count(), 6, "a head and five rows");
    let split = run(&["split", link_name, "2", upper_name]);
    assert!(text(&split).contains("1 rows below 2"), "{split:?}");
    assert!(text(&split).contains("4 rows from 2 on"), "{split:?}");
    let rows = |store: &Path| SqliteStore::read(store).unwrap().snapshot.rows.len();
    assert_eq!([&store, &upper].map(|store| rows(store)), [1, 4]);
}

#[test]
fn a_store_with_two_hard_links_is_refused_by_each() {
    let folder = tempfile::tempdir().unwrap();
    let [store, other] = ["krl.db", "other.db"].map(|name| folder.path().join(name));
    drop(Serving::start(&store));
    std::fs::hard_link(&store, &other).unwrap();
    for name in [&store, &other].map(|path| path.to_str().unwrap()) {
        let address = "127.0.0.1:0";
        let serve = ["serve", "--store", name, "--listen", address, "--status", address];
        for words in [&serve[..], &["export", name], &["split", name, "2", "upper.db"]] {
            let refused = output_unless_it_serves(program().args(words));
            assert_eq!(refused.status.code(), Some(1));
            assert!(errors(&refused).contains("by a hard link"), "{words:?}: {refused:?}");
        }
    }
}

/// Which shard the store is of.
fn kept(store: &String) -> String {
    let shard = SqliteStore::read(store).unwrap().snapshot.shard;
    shard.map(|shard| shard.to_string()).unwrap_or_default()
}

#[test]
fn two_stores_become_one() {
    let folder = tempfile::tempdir().unwrap();
    let path = |name: &str| folder.path().join(name).to_str().unwrap().to_string();
    let [store, upper, whole] = ["krl.db", "upper.db", "whole.db"].map(path);
    let mut before = full();
    before.rows.retain(|key, _| key % 64 == 0);
    SqliteStore::create(&store, &before).unwrap();
    assert_eq!(run(&["split", &store, "1001", &upper]).status.code(), Some(0));
    let merged = run(&["merge", &store, &upper, &whole]);
    assert_eq!(merged.status.code(), Some(0), "{}", errors(&merged));
    assert_eq!(SqliteStore::read(&whole).unwrap().snapshot, before);
    let check = text(&run(&["check", &whole]));
    assert!(check.contains("a server can start on it"), "{check}");
}

#[test]
fn what_cannot_be_cut_is_reported() {
    let folder = tempfile::tempdir().unwrap();
    let path = |name: &str| folder.path().join(name).to_str().unwrap().to_string();
    let [none, new] = ["none.db", "new.db"].map(path);
    for at in ["0", "-1", "x", "9223372036854775807"] {
        let output = run(&["split", &none, at, &new]);
        assert_eq!(output.status.code(), Some(2), "{at}");
        if at != "-1" {
            assert!(errors(&output).contains("a cut is a key from 1 to"), "{}", errors(&output));
        }
    }
    let output = run(&["split", &none, "5", &new]);
    assert_eq!(output.status.code(), Some(1));
    assert!(errors(&output).contains("there is no store"), "{}", errors(&output));
    assert_eq!(std::fs::read_dir(folder.path()).unwrap().count(), 0, "nothing was made");
}

#[test]
fn a_split_and_a_merge_write_the_next_map() {
    let folder = tempfile::tempdir().unwrap();
    let path = |name: &str| folder.path().join(name).to_str().unwrap().to_string();
    let [store, upper, whole] = ["krl.db", "upper.db", "whole.db"].map(path);
    let [map, next, last] = ["1.toml", "2.toml", "3.toml"].map(path);
    let mut before = full();
    before.rows.retain(|key, _| key % 64 == 0);
    SqliteStore::create(&store, &before).unwrap();
    let text_of = |version: u8| {
        format!("version = {version}\n\n[[shard]]\nfirst = 0\nservers = \"127.0.0.1:1\"\n")
    };
    std::fs::write(&map, text_of(1)).unwrap();
    let split = ["split", &store, "1001", &upper, "--map", &map, "--new-map", &next];
    let refused = run(&split);
    assert_eq!(refused.status.code(), Some(2), "the new store's address is missing");
    let split = [&split[..], &["--servers", "127.0.0.1:2"]].concat();
    let done = run(&split);
    assert_eq!(done.status.code(), Some(0), "{}", errors(&done));
    let printed = text(&done);
    assert!(
        printed.contains("    127.0.0.1:1: 0..1001@2\n    127.0.0.1:2: 1001..@2\n"),
        "{printed}"
    );
    assert_eq!([&store, &upper].map(kept), ["0..1001@2", "1001..@2"]);
    let upper_shard = "\n[[shard]]\nfirst = 1001\nservers = \"127.0.0.1:2\"\n";
    assert_eq!(std::fs::read_to_string(&next).unwrap(), text_of(2) + upper_shard);
    // The store that is named is that of the other shard.
    let empty = path("empty.db");
    SqliteStore::create(&empty, &Snapshot::default()).unwrap();
    for (cut, servers, why) in [
        (&upper, "127.0.0.1:3", "not one of shard 0 in the map"),
        (&store, "127.0.0.1:2", "the server 127.0.0.1:2 has shard 1 in the map"),
        (&empty, "127.0.0.1:3", "nothing shows that it is the one of shard 0"),
    ] {
        let map = ["--map", &next, "--new-map", &last, "--servers", servers];
        let refused = run(&[&["split", cut, "500", &whole], &map[..]].concat());
        assert_eq!(refused.status.code(), Some(1), "{why}");
        assert!(errors(&refused).contains(why), "{}", errors(&refused));
        assert!(![&whole, &last].iter().any(|path| Path::new(path).exists()), "{why}");
    }
    let merge = ["merge", &store, &upper, &whole, "--map", &next, "--new-map", &last, "--at"];
    let refused = run(&[&merge[..], &["1000"]].concat());
    assert_eq!(refused.status.code(), Some(1), "no shard begins there");
    assert!(!Path::new(&whole).exists());
    let done = run(&[&merge[..], &["1001"]].concat());
    assert_eq!(done.status.code(), Some(0), "{}", errors(&done));
    assert_eq!(std::fs::read_to_string(&last).unwrap(), text_of(3));
    assert_eq!(kept(&whole), "0..@3");
    assert_eq!([&store, &upper].map(kept), ["0..1001@3 sealed", "1001..@3 sealed"]);
}

/// The new store may be served by now: of another name a second one would have the same rows.
#[test]
fn two_stores_are_merged_once() {
    let folder = tempfile::tempdir().unwrap();
    let path = |name: &str| folder.path().join(name).to_str().unwrap().to_string();
    let [lower, upper, whole, other] = ["a.db", "b.db", "whole.db", "other.db"].map(path);
    let [map, next] = ["4.toml", "5.toml"].map(path);
    for (store, shard) in [(&lower, "0..100@4"), (&upper, "100..@4")] {
        let shard = Some(shard.parse().unwrap());
        SqliteStore::create(store, &Snapshot { shard, ..Snapshot::default() }).unwrap();
    }
    let shard = |first: u64| {
        format!("\n[[shard]]\nfirst = {first}\nservers = \"127.0.0.1:{}\"\n", first + 1)
    };
    std::fs::write(&map, format!("version = 4\n{}{}", shard(0), shard(100))).unwrap();
    let merge = |new: &String| {
        run(&["merge", &lower, &upper, new, "--map", &map, "--at", "100", "--new-map", &next])
    };
    for _ in 0..2 {
        let done = merge(&whole);
        assert_eq!(done.status.code(), Some(0), "{}", errors(&done));
    }
    let refused = merge(&other);
    assert_eq!(refused.status.code(), Some(1));
    let why = format!("{lower} is sealed, and {other} is not the store that was made of it");
    assert!(errors(&refused).contains(&why), "{}", errors(&refused));
    assert!(!Path::new(&other).exists());
    assert_eq!(kept(&whole), "0..@5");
}

/// As a merge leaves them that is killed after it has sealed the lower one, and whose upper one is
/// served then.
#[test]
fn a_merge_continues_after_a_store_was_served_since() {
    let folder = tempfile::tempdir().unwrap();
    let path = |name: &str| folder.path().join(name).to_str().unwrap().to_string();
    let [lower, upper, whole, other, map, next] =
        ["a.db", "b.db", "whole.db", "other.db", "4.toml", "5.toml"].map(path);
    let rows = |keys: &[u64]| keys.iter().map(|key| (*key, Value::from(0))).collect();
    for (store, shard, keys) in [
        (&lower, "0..100@5 sealed", &[5][..]),
        (&upper, "100..@4", &[105, 107]),
        (&whole, "0..@5 sealed", &[5, 105]),
        (&other, "0..@5", &[5, 105]),
    ] {
        let (shard, rows) = (shard.parse().ok(), rows(keys));
        SqliteStore::create(store, &Snapshot { shard, rows, ..Snapshot::default() }).unwrap();
    }
    let shard = |first: u64| {
        format!("\n[[shard]]\nfirst = {first}\nservers = \"127.0.0.1:{}\"\n", first + 1)
    };
    std::fs::write(&map, format!("version = 4\n{}{}", shard(0), shard(100))).unwrap();
    let merge = |new: &String| {
        run(&["merge", &lower, &upper, new, "--map", &map, "--at", "100", "--new-map", &next])
    };
    assert_eq!(merge(&other).status.code(), Some(1), "a server may have started on it");
    assert_eq!(SqliteStore::read(&other).unwrap().snapshot.rows, rows(&[5, 105]));
    for _ in 0..2 {
        let done = merge(&whole);
        assert_eq!(done.status.code(), Some(0), "{}", errors(&done));
    }
    let found = SqliteStore::read(&whole).unwrap().snapshot;
    assert_eq!((found.rows, kept(&whole)), (rows(&[5, 105, 107]), "0..@5".to_string()));
    assert_eq!([&lower, &upper].map(kept), ["0..100@5 sealed", "100..@5 sealed"]);
    let files = std::fs::read_dir(folder.path()).unwrap().map(|file| file.unwrap().file_name());
    let is_aside = |name: &str| name.starts_with("whole.db.unused-");
    assert_eq!(files.filter(|name| is_aside(&name.to_string_lossy())).count(), 1);
}

#[test]
fn a_store_is_cut_only_as_the_shard_that_it_is_of() {
    let folder = tempfile::tempdir().unwrap();
    let path = |name: &str| folder.path().join(name).to_str().unwrap().to_string();
    let [store, upper, map, next] = ["krl.db", "upper.db", "3.toml", "4.toml"].map(path);
    let mut before = full();
    before.rows.retain(|key, _| key % 64 == 0);
    let text = "version = 3\n\n[[shard]]\nfirst = 0\nservers = \"127.0.0.1:1\"\n";
    std::fs::write(&map, text).unwrap();
    let bare = ["split", &store, "1001", &upper];
    let by_map = ["--map", &map, "--new-map", &next, "--servers", "127.0.0.1:2"];
    let by_map = [&bare[..], &by_map].concat();
    for (shard, words, why) in [
        ("0..@3", &bare[..], "the store is of the shard 0..@3: give --map"),
        ("0..@2", &by_map[..], "the store is of the shard 0..@2, and by the map it is 0..@3"),
        ("0..@4", &by_map[..], "the store is of the shard 0..@4, and by the map it is 0..@3"),
        ("0..131072@3", &by_map[..], "by the map it is 0..@3"),
        ("0..@3 sealed", &by_map[..], "the store is of the shard 0..@3 sealed"),
    ] {
        let _ = std::fs::remove_file(&store);
        let shard = Some(shard.parse().unwrap());
        SqliteStore::create(&store, &Snapshot { shard, ..before.clone() }).unwrap();
        let refused = run(words);
        assert_eq!(refused.status.code(), Some(1), "{why}");
        assert!(errors(&refused).contains(why), "{}", errors(&refused));
        assert!(![&upper, &next].iter().any(|path| Path::new(path).exists()), "{why}");
        let found = SqliteStore::read(&store).unwrap().snapshot;
        assert_eq!((found.shard, found.rows.len()), (shard, before.rows.len()), "{why}");
    }
}
