//! A server that starts, is looked at, and stops.
mod common;

use common::{
    ServiceManager, Serving, errors, join, lock_file, output_unless_it_serves, program,
    program_under_watchdog, run, text, until,
};
use krl::store::Snapshot;
use krl::{Address, END, Outcome, Row, SqliteStore, Value};
use std::collections::BTreeMap;
use std::os::unix::process::ExitStatusExt;
use std::path::Path;
use std::sync::atomic::{AtomicBool, AtomicU64, Ordering};
use std::thread;
use std::time::Duration;

/// Inserts keys for as long as the server answers, and returns which were Applied.
fn insert_all(address: &Address, folder: &Path, number: u8, count: &AtomicU64) -> Vec<u64> {
    let client = join(address, folder, number);
    client.set_timeout(Duration::from_secs(2));
    let mut applied = Vec::new();
    for key in (0..).map(|key| key * 64 + u64::from(number)) {
        match client.insert(key, Value::from(key)) {
            Ok(Outcome::Applied) => applied.push(key),
            Ok(other) => panic!("an insert of {key} was {other}"),
            Err(_) => return applied,
        }
        count.fetch_add(1, Ordering::Relaxed);
    }
    applied
}

#[test]
fn a_signal_under_load_loses_nothing_that_was_applied() {
    for signal in ["TERM", "INT"] {
        let folder = tempfile::tempdir().unwrap();
        let store = folder.path().join("krl.db");
        let serving = Serving::start(&store);
        let (address, count) = (serving.address.clone(), AtomicU64::new(0));
        let (ended, applied) = thread::scope(|scope| {
            let insert = |number| {
                let (address, folder, count) = (&address, folder.path(), &count);
                scope.spawn(move || insert_all(address, folder, number, count))
            };
            let writers: Vec<_> = (0..4).map(insert).collect();
            until("200 inserts", || count.load(Ordering::Relaxed) >= 200);
            serving.signal(&[signal]);
            let ended = serving.ended();
            (ended, writers.into_iter().flat_map(|it| it.join().unwrap()).collect::<Vec<_>>())
        });
        assert_eq!(ended.status.code(), Some(0));
        assert!(ended.took < Duration::from_secs(5), "{:?}", ended.took);
        assert!(ended.log.iter().any(|it| it["message"] == "stopped"), "{:?}", ended.log);
        let rows = SqliteStore::read(&store).unwrap().snapshot.rows;
        assert!(applied.len() >= 200);
        for key in applied {
            assert_eq!(rows.get(&key), Some(&Value::from(key)), "{key} is lost after {signal}");
        }
    }
}

/// How many times the process has written to files so far.
fn writes_of(process: u32) -> u64 {
    let counts = std::fs::read_to_string(format!("/proc/{process}/io")).unwrap();
    let count = counts.lines().find_map(|line| line.strip_prefix("syscw: "));
    count.and_then(|count| count.parse().ok()).expect(&counts)
}

#[test]
fn a_killed_server_has_lost_nothing_whichever_way_it_writes_its_log() {
    const COUNT: u64 = 100;
    let folder = tempfile::tempdir().unwrap();
    let store = folder.path().join("krl.db");
    let mut writes = Vec::new();
    for (turn, how) in ["joined", "single", "joined"].into_iter().enumerate() {
        let mut command = program();
        command.arg("serve").arg("--store").arg(&store).args(["--store-writes", how]);
        let serving = Serving::start_by(&mut command);
        let client = serving.join(folder.path(), 0);
        let keys = COUNT * turn as u64..COUNT * (turn as u64 + 1);
        assert_eq!(client.read(..).unwrap().len() as u64, keys.start);
        let before = writes_of(serving.process.id());
        for key in keys {
            assert_eq!(client.insert(key, Value::from(key)), Ok(Outcome::Applied));
        }
        writes.push(writes_of(serving.process.id()) - before);
        client.leave().unwrap();
        serving.signal(&["KILL"]);
        assert_eq!(serving.ended().status.signal(), Some(9));
    }
    let rows = SqliteStore::read(&store).unwrap().snapshot.rows;
    assert!(rows.into_keys().eq(0..3 * COUNT));
    // Each commit has a page at least, which takes two calls by SQLite itself.
    assert!(writes[1] >= writes[0] + COUNT / 2, "{writes:?}");
}

#[test]
fn a_signal_ends_a_server_within_a_second() {
    let folder = tempfile::tempdir().unwrap();
    let serving = Serving::start(&folder.path().join("krl.db"));
    let client = serving.join(folder.path(), 5);
    assert_eq!(client.insert(7, Value::from(7)), Ok(Outcome::Applied));
    serving.signal(&["TERM"]);
    let ended = serving.ended();
    assert_eq!(ended.status.code(), Some(0));
    assert!(ended.took < Duration::from_secs(5), "{:?}", ended.took);
    assert_eq!(client.cached(7..8).unwrap().map(|rows| rows.len()), Some(1));
}

#[test]
fn a_second_signal_ends_a_server_at_once() {
    let folder = tempfile::tempdir().unwrap();
    // Both signals wait until the process continues. Two threads may take them in one moment, and
    // then none is the second.
    let ends_at_once = || {
        let serving = Serving::start(&folder.path().join("krl.db"));
        serving.signal(&["STOP", "TERM", "INT", "CONT"]);
        let status = serving.ended().status;
        assert_eq!(status.signal(), None);
        status.code() == Some(1)
    };
    assert!((0..10).any(|_| ends_at_once()));
}

#[test]
fn a_store_has_one_server() {
    let folder = tempfile::tempdir().unwrap();
    let store = folder.path().join("krl.db");
    let serving = Serving::start(&store);
    let name = store.to_str().unwrap();
    let words = ["serve", "--store", name, "--listen", "127.0.0.1:0", "--status", "off"];
    let second = run(&words);
    let by = format!("served already, by process {}, at 127.0.0.1:0", serving.process.id());
    assert_eq!(second.status.code(), Some(1));
    assert!(errors(&second).contains(&by), "{}", errors(&second));
    let check = run(&["check", name]);
    assert_eq!(check.status.code(), Some(1));
    assert!(errors(&check).contains(&format!("process {}", serving.process.id())));
    serving.signal(&["TERM"]);
    assert_eq!(serving.ended().status.code(), Some(0));
    drop(Serving::start(&store));
}

#[test]
fn an_address_that_is_taken_is_reported() {
    let folder = tempfile::tempdir().unwrap();
    let serving = Serving::start(&folder.path().join("krl.db"));
    let other = folder.path().join("other.db");
    let other = other.to_str().unwrap();
    let address = serving.address.to_string();
    for (listen, status) in [(address.as_str(), "off"), ("127.0.0.1:0", serving.status.as_str())] {
        let words = ["serve", "--create", "--store", other, "--listen", listen, "--status", status];
        let output = run(&words);
        assert_eq!(output.status.code(), Some(1));
        assert!(errors(&output).contains("in use"), "{}", errors(&output));
    }
}

#[test]
fn pages_of_the_status_port() {
    let folder = tempfile::tempdir().unwrap();
    let serving = Serving::start(&folder.path().join("krl.db"));
    let client = serving.join(folder.path(), 5);
    assert_eq!(client.insert(7, Value::from(7)), Ok(Outcome::Applied));
    assert_eq!(serving.get("/healthz"), (200, "ok\n".to_string()));
    until("the server serves", || serving.get("/readyz") == (200, "serving\n".to_string()));
    until("the server shows its client", || {
        let (status, text) = serving.get("/status");
        status == 200 && text.starts_with("epoch 1, serving\nconnected: 5 ")
    });
    let by_accept = "GET /status HTTP/1.1\r\nHost: localhost\r\nAccept: application/json\r\n\r\n";
    for (status, json) in [serving.get("/status.json"), serving.ask(by_accept)] {
        let json: serde_json::Value = serde_json::from_str(&json).unwrap();
        assert_eq!((status, &json["epoch"]), (200, &serde_json::json!(1)));
        assert_eq!(json["connected"], serde_json::json!([5]));
    }
    assert_eq!(serving.get("/nothing").0, 404);
    assert_eq!(serving.get("/").0, 200);
    assert_eq!(serving.ask("POST /status HTTP/1.1\r\nHost: localhost\r\n\r\n").0, 405);
    assert_eq!(serving.get("/backup").0, 405);
    let output = run(&["status", &serving.status]);
    assert!(common::text(&output).starts_with("epoch 1, serving\n"));
    let output = run(&["status", &serving.status, "--json"]);
    assert!(common::text(&output).starts_with("{\n"));
    serving.signal(&["TERM"]);
    let address = serving.status.clone();
    serving.ended();
    let output = run(&["status", &address]);
    assert_eq!(output.status.code(), Some(1));
    assert!(errors(&output).contains(&address));
}

#[test]
fn metrics_count_what_was_done() {
    let folder = tempfile::tempdir().unwrap();
    let serving = Serving::start(&folder.path().join("krl.db"));
    let (first, second) = (serving.join(folder.path(), 1), serving.join(folder.path(), 2));
    for key in 0..10 {
        let writer = if key % 2 == 0 { &first } else { &second };
        assert_eq!(writer.insert(key, Value::from(key)), Ok(Outcome::Applied));
        assert_eq!(first.read(0..20).map(|rows| rows.len() as u64), Ok(key + 1));
    }
    for (name, least) in [
        ("krl_grant_seconds_count", 10.0),
        ("krl_release_seconds_count", 5.0),
        ("krl_commit_seconds_count", 12.0),
        ("krl_commit_changes_sum", 12.0),
        ("krl_turn_seconds_count", 12.0),
        ("krl_commits_total", 12.0),
        ("krl_build_info{version=\"0.1.0\"}", 1.0),
    ] {
        until(&format!("{name} is {least} at least"), || serving.sample(name) >= least);
    }
    assert!(serving.sample("krl_grant_seconds_sum") > 0.0);
    assert!(serving.sample("krl_last_turn_seconds") < 1.0);
}

#[test]
fn a_server_is_ready_when_nobody_is_missing() {
    let folder = tempfile::tempdir().unwrap();
    let store = folder.path().join("krl.db");
    let serving = Serving::start(&store);
    let serving = serving.killed_beside(3, folder.path(), &store);
    until("the server reports who is missing", || {
        let (status, text) = serving.get("/readyz");
        status == 503 && text.contains("clients 3 have")
    });
    assert_eq!(serving.get("/healthz").0, 200);
    let lock = lock_file(folder.path(), 3);
    let evicted = run(&["evict", &serving.address.to_string(), "3", lock.to_str().unwrap()]);
    assert_eq!(evicted.status.code(), Some(0), "{}", errors(&evicted));
    until("the server serves", || serving.get("/readyz").0 == 200);
}

/// Signals that the test is over, even if it fails: otherwise the client would continue forever.
struct Over<'f>(&'f AtomicBool);

impl Drop for Over<'_> {
    fn drop(&mut self) {
        self.0.store(true, Ordering::Relaxed);
    }
}

#[test]
fn a_backup_under_load_is_the_table_at_a_moment() {
    let folder = tempfile::tempdir().unwrap();
    let serving = Serving::start(&folder.path().join("krl.db"));
    let (count, ends) = (AtomicU64::new(0), AtomicBool::new(false));
    let shown = "<dt>last backup</dt>";
    assert!(!serving.get("/").1.contains(shown));
    thread::scope(|scope| {
        let _over = Over(&ends);
        scope.spawn(|| {
            let client = serving.join(folder.path(), 9);
            for key in 0.. {
                assert_eq!(client.insert(key, Value::from(key)), Ok(Outcome::Applied));
                count.store(key + 1, Ordering::SeqCst);
                if ends.load(Ordering::Relaxed) {
                    break;
                }
            }
        });
        for number in 0..5 {
            until("50 inserts", || count.load(Ordering::SeqCst) > 50 * number);
            let file = folder.path().join(format!("{number}.db"));
            let before = count.load(Ordering::SeqCst);
            let output = run(&["backup", &serving.status, file.to_str().unwrap()]);
            let after = count.load(Ordering::SeqCst);
            assert_eq!(output.status.code(), Some(0), "{}", errors(&output));
            is_moment(&file, before, after + 1);
        }
    });
    assert!(
        serving.get("/").1.contains(shown)
            && !serving.get("/status.json").1.contains("\"last_backup\": null")
    );
}

/// One client inserts 0, 1, 2, and so on: so a table at a moment has just the keys below some
/// number, and by the client's record this was its last write.
fn is_moment(file: &Path, least: u64, most: u64) {
    let snapshot = SqliteStore::read(file).unwrap().snapshot;
    let rows = snapshot.rows.len() as u64;
    assert!((least..=most).contains(&rows), "{rows} rows, and not {least} to {most}");
    let expected: BTreeMap<_, _> = (0..rows).map(|key| (key, Value::from(key))).collect();
    assert_eq!(snapshot.rows, expected);
    let record = snapshot.records[0];
    assert_eq!((record.client, record.left), (9, false));
    assert_eq!(record.last, Some((rows, Outcome::Applied)));
    let check = run(&["check", file.to_str().unwrap()]);
    assert_eq!(check.status.code(), Some(0), "{}", errors(&check));
    let printed = text(&check);
    for line in [
        &format!("rows: {rows}"),
        "page size: 1024 bytes",
        "epoch: 1",
        "clients that have not left: 9",
    ] {
        assert!(printed.lines().any(|it| it == line), "no {line} in {printed}");
    }
}

#[test]
fn a_backup_that_cannot_be_made_is_reported() {
    let folder = tempfile::tempdir().unwrap();
    let serving = Serving::start(&folder.path().join("krl.db"));
    let taken = folder.path().join("taken");
    std::fs::write(&taken, "mine").unwrap();
    let nowhere = folder.path().join("none").join("copy.db");
    for (file, message) in [(&taken, "there is a file"), (&nowhere, "No such file")] {
        let output = run(&["backup", &serving.status, file.to_str().unwrap()]);
        assert_eq!(output.status.code(), Some(1));
        assert!(errors(&output).contains(message), "{}", errors(&output));
    }
    assert_eq!(std::fs::read(&taken).unwrap(), b"mine");
    let order = |kind: &str, body: &str| {
        let length = body.len();
        serving.ask(&format!(
            "POST /backup HTTP/1.1\r\nHost: localhost\r\nContent-Type: {kind}\r\n\
             Content-Length: {length}\r\n\r\n{body}"
        ))
    };
    let path = folder.path().join("new.db");
    let good = serde_json::json!({ "file": &path }).to_string();
    assert_eq!(order("text/plain", &good).0, 415);
    assert_eq!(order("application/json", "{\"file\": \"new.db\"}").0, 409);
    assert_eq!(order("application/json", "{}").0, 400);
    assert!(!path.exists());
    assert_eq!(order("application/json", &good).0, 201);
    assert!(path.exists());
}

#[test]
fn a_restored_backup_is_served_at_once() {
    let folder = tempfile::tempdir().unwrap();
    let path = |name: &str| folder.path().join(name).to_str().unwrap().to_string();
    let [old, backup, new] = [path("old.db"), path("backup.db"), path("new.db")];
    let serving = Serving::start(Path::new(&old));
    let (client, other) = (serving.join(folder.path(), 3), serving.join(folder.path(), 4));
    assert_eq!(client.insert(1, Value::from(1)), Ok(Outcome::Applied));
    assert_eq!(other.insert(9, Value::from(9)), Ok(Outcome::Applied));
    assert_eq!(run(&["backup", &serving.status, &backup]).status.code(), Some(0));
    assert_eq!(client.insert(2, Value::from(2)), Ok(Outcome::Applied));
    assert_eq!(client.put(1, Value::from(7)), Ok(Outcome::Applied));
    let words = ["restore", &backup, "--store", &new, "--clients-are-stopped"];
    let refused = run(&["restore", &old, "--store", &new, "--clients-are-stopped"]);
    assert_eq!(refused.status.code(), Some(1), "a server runs on it");
    assert!(errors(&refused).contains("is served, by process"), "{}", errors(&refused));
    serving.signal(&["KILL"]);
    serving.ended();
    // They can't send Bye, as there is no server.
    drop((client, other));

    let refused = run(&words[..4]);
    assert_eq!(refused.status.code(), Some(2));
    assert!(errors(&refused).contains("stop every client"), "{}", errors(&refused));
    assert!(!Path::new(&new).exists());
    let restored = run(&words);
    assert_eq!(restored.status.code(), Some(0), "{}", errors(&restored));
    assert!(text(&restored).contains("2 rows, epoch 4294967297 after 1"), "{}", text(&restored));
    let check = text(&run(&["check", &new]));
    for line in [
        "epoch: 4294967297",
        "rows: 2",
        "room: 65536",
        "clients that have not left: none",
        "clients that have left: 3, 4",
        "a server can start on it",
    ] {
        assert!(check.lines().any(|it| it == line), "no {line} in {check}");
    }
    assert_eq!(text(&run(&words)), text(&restored), "it is repeated, and changes nothing");

    let serving = Serving::start(Path::new(&new));
    until("the server serves", || serving.get("/readyz") == (200, "serving\n".to_string()));
    let client = serving.join(folder.path(), 3);
    assert_eq!(client.status()[0].epoch, Ok(4_294_967_298));
    let rows = [(1, 1), (9, 9)].map(|(key, value)| Row { key, value: Value::from(value) });
    assert_eq!(client.read(..), Ok(rows.to_vec()));
    assert_eq!(client.insert(2, Value::from(3)), Ok(Outcome::Applied));
}

#[test]
fn a_restore_that_cannot_be_made_is_reported() {
    let folder = tempfile::tempdir().unwrap();
    let path = |name: &str| folder.path().join(name).to_str().unwrap().to_string();
    let [text, store, new] = [path("text"), path("store.db"), path("new.db")];
    std::fs::write(&text, "no database").unwrap();
    SqliteStore::create(&store, &Snapshot { epoch: END - 1, ..Snapshot::default() }).unwrap();
    for (file, message) in [(&text, "can't be read as a store"), (&store, "the last one")] {
        let output = run(&["restore", file, "--store", &new, "--clients-are-stopped"]);
        assert_eq!(output.status.code(), Some(1));
        assert!(errors(&output).contains(message), "{}", errors(&output));
        assert!(!Path::new(&new).exists());
    }
    let output = run(&["restore", &store, "--clients-are-stopped"]);
    assert_eq!(output.status.code(), Some(2), "no new store is named");
}

#[test]
fn what_is_no_store_is_reported() {
    let folder = tempfile::tempdir().unwrap();
    let file = folder.path().join("text");
    std::fs::write(&file, "no database").unwrap();
    for path in [&file, &folder.path().join("none.db")] {
        let name = path.to_str().unwrap();
        let output = run(&["check", name]);
        assert_eq!((output.status.code(), text(&output).as_str()), (Some(1), ""));
        assert!(errors(&output).contains(name));
    }
    assert!(errors(&run(&["check", "none.db"])).contains("there is no such file"));
    let words = ["serve", "--listen", "127.0.0.1:0", "--status", "off", "--store"];
    let output = program().args(words).arg(&file).output().unwrap();
    assert_eq!(output.status.code(), Some(1));
    assert!(errors(&output).contains("not a database of SQLite"), "{}", errors(&output));
    assert!(!folder.path().join("text.lock").exists(), "it is left as it was");
}

#[test]
fn a_copy_that_lacks_its_log_is_refused() {
    let folder = tempfile::tempdir().unwrap();
    let [store, copy] = ["store.db", "copy.db"].map(|name| folder.path().join(name));
    let serving = Serving::start(&store);
    let client = serving.join(folder.path(), 3);
    assert_eq!(client.insert(1, Value::from(1)), Ok(Outcome::Applied));
    std::fs::copy(&store, &copy).unwrap();
    assert!(copy.metadata().unwrap().len() > 0);
    let listen = ["--listen", "127.0.0.1:0", "--status", "off", "--store"];
    let name = copy.to_str().unwrap();
    for words in [&["check"][..], &[&["serve"], &listen[..]].concat()] {
        let output = run(&[words, &[name]].concat());
        assert_eq!(output.status.code(), Some(1));
        assert!(errors(&output).contains("its log is missing"), "{}", errors(&output));
    }
    client.leave().unwrap();
}

/// A name with a typo, a disk that is not mounted, and a file that was cut to nothing.
#[test]
fn a_store_that_holds_nothing_is_served_only_if_it_is_asked_for() {
    let folder = tempfile::tempdir().unwrap();
    let [missing, empty, bare] =
        ["missing.db", "empty.db", "bare.db"].map(|it| folder.path().join(it));
    std::fs::write(&empty, "").unwrap();
    drop(SqliteStore::open(&bare).unwrap());
    let words = ["serve", "--listen", "127.0.0.1:0", "--status", "off", "--store"];
    for (store, why) in [
        (&missing, "there is no such file"),
        (&empty, "the file has 0 bytes"),
        (&bare, "holds nothing"),
    ] {
        let refused = output_unless_it_serves(program().args(words).arg(store));
        assert_eq!(refused.status.code(), Some(1), "{}", errors(&refused));
        for message in [why, "give --create at the first start"] {
            assert!(errors(&refused).contains(message), "{message}: {}", errors(&refused));
        }
    }
    assert!(!missing.exists() && !folder.path().join("missing.db.lock").exists());
    assert_eq!(empty.metadata().unwrap().len(), 0);
    for store in [missing, empty, bare] {
        let serving = Serving::start(&store);
        serving.signal(&["TERM"]);
        assert!(serving.ended().status.success());
        let mut command = program();
        command.args(["serve", "--create=no", "--store"]).arg(&store);
        drop(Serving::start_by(&mut command));
    }
}

#[test]
fn a_store_of_an_unknown_kind_is_a_wrong_word() {
    for words in [&["serve", "--store", "mysql://x"][..], &["config", "--store", "mysql://x"]] {
        let output = run(words);
        assert_eq!(output.status.code(), Some(2), "{}", errors(&output));
        assert!(errors(&output).contains("or etcd://"), "{}", errors(&output));
    }
}

#[test]
fn a_service_manager_is_notified() {
    let folder = tempfile::tempdir().unwrap();
    let (store, manager) = (folder.path().join("krl.db"), ServiceManager::new(folder.path()));
    let mut command = program();
    let serving = Serving::start_by(manager.runs(command.arg("serve").arg("--store").arg(&store)));
    let status = format!("STATUS=serves at {}", serving.address);
    assert_eq!(manager.next(), ["READY=1", &status]);
    serving.signal(&["TERM"]);
    assert_eq!(manager.next(), ["STOPPING=1"]);
    assert_eq!(serving.ended().status.code(), Some(0));
}

#[test]
fn a_watchdog_learns_that_a_server_is_alive() {
    let folder = tempfile::tempdir().unwrap();
    let (store, manager) = (folder.path().join("krl.db"), ServiceManager::new(folder.path()));
    let mut command = program_under_watchdog(Duration::from_secs(2));
    command.arg("serve").arg("--store").arg(&store);
    let serving = Serving::start_by(manager.runs(&mut command));
    let mut reports = 0;
    while reports < 3 {
        reports += usize::from(manager.next() == ["WATCHDOG=1"]);
    }
    drop(serving);
}
