//! What a monitor sees of a server: its turns, its measurements and its store.
use krl::Value;
use krl::error::SnapshotError;
use krl::operate::Liveness;
use krl::store::{Change, Snapshot};
use krl::store::{Store, StoreError};
use krl::{Client, Listener, MemoryStore, Outcome, Server};
use std::path::PathBuf;
use std::sync::Arc;
use std::sync::atomic::{AtomicBool, Ordering};
use std::thread;
use std::time::{Duration, Instant};

/// A store in memory whose commits hang for as long as it is set to.
#[derive(Debug, Default)]
struct Hanging {
    store: MemoryStore,
    hangs: Arc<AtomicBool>,
    longest_wait: Duration,
}

impl Store for Hanging {
    fn load(&mut self) -> Result<Snapshot, StoreError> {
        self.store.load()
    }

    fn snapshot(&mut self) -> Result<Snapshot, StoreError> {
        self.store.snapshot()
    }

    fn commit(&mut self, changes: &[Change]) -> Result<(), StoreError> {
        while self.hangs.load(Ordering::Relaxed) {
            thread::sleep(Duration::from_millis(1));
        }
        self.store.commit(changes)
    }

    fn longest_wait(&self) -> Duration {
        self.longest_wait
    }
}

fn server(store: impl Store + 'static) -> Server {
    let address = "127.0.0.1:0".parse().unwrap();
    Server::start(Listener::bind(&address).unwrap(), store).unwrap()
}

fn lock_file(name: &str) -> PathBuf {
    std::env::temp_dir().join(format!("krl-monitor-{}-{name}.lock", std::process::id()))
}

fn until(what: &str, mut is_so: impl FnMut() -> bool) {
    let end = Instant::now() + Duration::from_secs(60);
    while !is_so() {
        assert!(Instant::now() < end, "not within a minute: {what}");
        thread::sleep(Duration::from_millis(5));
    }
}

/// An idle server asks its store once a second.
#[test]
fn a_server_is_alive_for_as_long_as_its_store_may_take() {
    let hangs = Arc::new(AtomicBool::new(false));
    let over = |longest_wait| {
        let hangs = Arc::clone(&hangs);
        server(Hanging { hangs, longest_wait, ..Hanging::default() })
    };
    let (patient, hasty) = (over(Duration::from_secs(3600)), over(Duration::from_millis(1)));
    hangs.store(true, Ordering::Relaxed);
    until("the loop waits for its store", || {
        matches!(patient.monitor().liveness(), Liveness::WaitsForStore { .. })
    });
    assert!(patient.monitor().liveness().is_alive());
    until("the store hangs", || matches!(hasty.monitor().liveness(), Liveness::StoreHangs { .. }));
    assert!(!hasty.monitor().liveness().is_alive());
    hangs.store(false, Ordering::Relaxed);
    until("the loops turn", || {
        [&patient, &hasty].iter().all(|server| server.monitor().liveness() == Liveness::Turns)
    });
}

#[test]
fn a_store_may_take_any_time() {
    let server = server(Hanging { longest_wait: Duration::MAX, ..Hanging::default() });
    let snapshot = server.monitor().snapshot().unwrap();
    assert_eq!(snapshot.epoch, 1);
    assert!(server.monitor().liveness().is_alive());
}

#[test]
fn a_commit_that_hangs_shows() {
    const LONG: Duration = Duration::from_millis(400);
    let hangs = Arc::new(AtomicBool::new(false));
    let server = server(Hanging { hangs: Arc::clone(&hangs), ..Hanging::default() });
    let monitor = server.monitor();
    let lock_file = lock_file("hangs");
    let client = Client::join(server.address(), 5, &lock_file).unwrap();
    assert_eq!(client.insert(1, Value::from(1)), Ok(Outcome::Applied));
    thread::sleep(2 * LONG);
    assert!(monitor.since_last_turn() < LONG, "an idle server turns");
    hangs.store(true, Ordering::Relaxed);
    thread::scope(|scope| {
        let insert = scope.spawn(|| client.insert(2, Value::from(2)));
        until("the turn is long", || monitor.since_last_turn() > LONG);
        hangs.store(false, Ordering::Relaxed);
        assert_eq!(insert.join().unwrap(), Ok(Outcome::Applied));
    });
    until("the server turns", || monitor.since_last_turn() < LONG);
    let measured = monitor.measured();
    // The client's Hello and its two writes.
    assert_eq!(measured.commit_changes.sum, 3);
    // The commit began some time after the last turn.
    let long = u64::try_from(LONG.as_micros() / 2).unwrap();
    assert!(measured.commits.sum >= long && measured.turns.sum >= long, "{measured:?}");
    drop(client);
    std::fs::remove_file(lock_file).unwrap();
}

#[test]
fn a_status_is_of_one_moment() {
    let server = server(MemoryStore::default());
    let (monitor, lock_file) = (server.monitor(), lock_file("moment"));
    for _ in 0..3 {
        let client = Client::join(server.address(), 5, &lock_file).unwrap();
        client.read(0..100).unwrap();
        until("what it holds is shown", || !monitor.status().holdings.is_empty());
        client.leave().unwrap();
        until("it is gone", || {
            let status = monitor.status();
            let is_gone = status.connected.is_empty();
            assert!(!is_gone || status.holdings.is_empty(), "{status}");
            is_gone
        });
    }
    std::fs::remove_file(lock_file).unwrap();
}

#[test]
fn a_snapshot_is_the_store_while_the_server_runs() {
    let server = server(MemoryStore::default());
    let monitor = server.monitor();
    let lock_file = lock_file("snapshot");
    let client = Client::join(server.address(), 5, &lock_file).unwrap();
    for key in 0..10 {
        assert_eq!(client.insert(key, Value::from(key)), Ok(Outcome::Applied));
        let snapshot = monitor.snapshot().unwrap();
        assert_eq!(snapshot.rows.len() as u64, key + 1);
        assert_eq!(snapshot.records[0].last, Some((key + 1, Outcome::Applied)));
        assert_eq!((snapshot.epoch, snapshot.judge()), (1, Ok(())));
    }
    drop(client);
    server.stop().unwrap();
    assert!(matches!(monitor.snapshot(), Err(SnapshotError::Ended)));
    // The client's Hello, its ten writes and its Bye.
    assert_eq!(monitor.status().changes, 12);
    std::fs::remove_file(lock_file).unwrap();
}

#[test]
fn what_no_server_kept_is_judged() {
    let server = server(MemoryStore::default());
    let mut snapshot = server.monitor().snapshot().unwrap();
    assert_eq!(snapshot.judge(), Ok(()));
    snapshot.rows.insert(u64::MAX, Value::from(1));
    assert!(snapshot.judge().is_err(), "there is no such key");
}
