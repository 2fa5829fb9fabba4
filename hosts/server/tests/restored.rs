//! A client that is left running while its server's store is restored.
mod common;

use common::{Serving, errors, run, text, until};
use krl::error::Unsent;
use krl::{Address, Client, ErrorKind, Outcome, Row, Value};
use std::path::Path;
use std::sync::Barrier;
use std::sync::atomic::{AtomicBool, Ordering};
use std::thread;
use std::time::Duration;

fn row(key: u64, number: u64) -> Row {
    Row { key, value: Value::from(number) }
}

/// What the client finds in its cache, one after another, until it is stopped.
fn looked_up(client: &Client, ends: &AtomicBool) -> Vec<Option<Vec<Row>>> {
    let mut found = Vec::new();
    while !ends.load(Ordering::Relaxed) {
        found.push(client.cached(1..2).unwrap());
        found.dedup();
        // Otherwise it might keep the other callers from the client for long.
        thread::sleep(Duration::from_micros(50));
    }
    found
}

/// Signals that the test is over, even if it fails: otherwise the reader would continue forever.
struct Over<'f>(&'f AtomicBool);

impl Drop for Over<'_> {
    fn drop(&mut self) {
        self.0.store(true, Ordering::Relaxed);
    }
}

/// The restored server has reported what its client had seen.
fn reports_what_was_seen(serving: &Serving) {
    until("the alarm", || serving.sample("krl_store_alarms_total") > 0.0);
    let (status, page) = serving.get("/status");
    assert_eq!(status, 200);
    assert!(page.contains("ALARM: the store lacks what clients have seen"), "{page}");
    let (_, page) = serving.get("/status.json");
    let page: serde_json::Value = serde_json::from_str(&page).unwrap();
    assert_eq!(page["store_alarms_total"], 1);
    assert_eq!(page["alarms_total"], 0, "the library has found no contradiction");
}

#[test]
fn a_client_that_lives_through_a_restore_drops_its_cache_and_joins_again() {
    let folder = tempfile::tempdir().unwrap();
    let path = |name: &str| folder.path().join(name).to_str().unwrap().to_string();
    let [old, backup, new] = [path("old.db"), path("backup.db"), path("new.db")];
    let address = Address::Unix(folder.path().join("socket"));
    let serving = Serving::start_at(Path::new(&old), &address);
    let client = serving.join(folder.path(), 3);
    assert_eq!(client.insert(1, Value::from(1)), Ok(Outcome::Applied));
    assert_eq!(run(&["backup", &serving.status, &backup]).status.code(), Some(0));
    assert_eq!(client.put(1, Value::from(7)), Ok(Outcome::Applied));
    assert_eq!(client.read(1..2), Ok(vec![row(1, 7)]));
    serving.signal(&["KILL"]);
    serving.ended();
    std::fs::remove_file(folder.path().join("socket")).unwrap();
    let restored = run(&["restore", &backup, "--store", &new, "--clients-are-stopped"]);
    assert_eq!(restored.status.code(), Some(0), "{}", errors(&restored));
    assert!(text(&run(&["check", &new])).contains("clients that have left: 3"));

    assert_eq!(client.cached(1..2), Ok(Some(vec![row(1, 7)])), "nothing has come from the server");
    let (asked, ends) = (Barrier::new(2), AtomicBool::new(false));
    let serving = thread::scope(|scope| {
        let over = Over(&ends);
        let looks = scope.spawn(|| looked_up(&client, &ends));
        // No cache answers a write.
        let writes = scope.spawn(|| {
            asked.wait();
            client.insert(2, Value::from(2))
        });
        asked.wait();
        thread::sleep(Duration::from_millis(500));
        let serving = Serving::start_at(Path::new(&new), &address);
        let written = writes.join().unwrap().unwrap_err();
        // It may have left before the client noticed that the server had ended.
        let expected = [ErrorKind::StoreWentBack, ErrorKind::NotSent(Unsent::StoreWentBack)];
        assert!(expected.contains(&written.kind), "{written:?}");
        assert_eq!(client.read(1..2), Ok(vec![row(1, 1)]), "it has joined again");
        drop(over);
        let looked = looks.join().unwrap();
        let old = looked.iter().filter(|found| **found == Some(vec![row(1, 7)]));
        assert_eq!(old.count(), 1, "{looked:?}");
        serving
    });
    assert_eq!(client.status()[0].epoch, Ok(4_294_967_298));
    assert_eq!(client.insert(2, Value::from(3)), Ok(Outcome::Applied));
    reports_what_was_seen(&serving);
    client.leave().unwrap();
    serving.signal(&["TERM"]);
    let log = serving.ended().log;
    let is_alarm = |event: &&serde_json::Value| {
        let message = event["message"].as_str().unwrap_or_default();
        event["level"] == "ERROR" && message.starts_with("ALARM: the store lacks")
    };
    assert_eq!(log.iter().filter(is_alarm).count(), 1, "{log:?}");
}
