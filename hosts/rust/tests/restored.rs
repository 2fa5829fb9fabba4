//! An earlier copy of the store is brought back while a client lives.
mod peer;

use krl::error::Unsent;
use krl::{
    Address, Client, ErrorKind, Listener, MemoryStore, Outcome, Reader, Row, Server, SqliteStore,
    Value,
};
use peer::{HELLO, Peer, frame};
use std::path::PathBuf;
use std::sync::Barrier;
use std::sync::atomic::{AtomicBool, Ordering};
use std::thread;
use std::time::{Duration, Instant};

/// A folder with a store, a copy of it, and a socket at which servers listen one after another.
struct Place {
    folder: PathBuf,
}

impl Place {
    fn new(name: &str) -> Place {
        let name = format!("krl-restored-{}-{name}", std::process::id());
        let folder = std::env::temp_dir().join(name);
        std::fs::create_dir_all(&folder).unwrap();
        Place { folder }
    }

    fn address(&self) -> Address {
        Address::Unix(self.folder.join("socket"))
    }

    fn serve_at(&self, address: &Address) -> Server {
        let store = SqliteStore::open(self.folder.join("table.db")).unwrap();
        Server::start(Listener::bind(address).unwrap(), store).unwrap()
    }

    fn serve(&self) -> Server {
        self.serve_at(&self.address())
    }

    fn join(&self, address: Address, number: u8) -> Client {
        Client::join(address, number, self.folder.join(format!("{number}.lock"))).unwrap()
    }

    /// Copies the store's file.
    fn copy(&self) {
        std::fs::copy(self.folder.join("table.db"), self.folder.join("copy.db")).unwrap();
    }

    fn bring_back(&self) {
        std::fs::copy(self.folder.join("copy.db"), self.folder.join("table.db")).unwrap();
    }
}

impl Drop for Place {
    fn drop(&mut self) {
        let _ = std::fs::remove_dir_all(&self.folder);
    }
}

fn row(key: u64, number: u64) -> Row {
    Row { key, value: Value::from(number) }
}

/// Waits until it is true, for a minute at most.
fn wait_until(is_so: impl Fn() -> bool) -> bool {
    let end = Instant::now() + Duration::from_secs(60);
    while !is_so() && Instant::now() < end {
        thread::sleep(Duration::from_millis(5));
    }
    is_so()
}

/// Looks into the cache again and again until it is stopped, and returns what it found there, one
/// after another.
fn looked_up(client: &Client, ends: &AtomicBool) -> Vec<Option<Vec<Row>>> {
    let mut found = Vec::new();
    while !ends.load(Ordering::Relaxed) {
        found.push(client.cached(1..2).unwrap());
        found.dedup();
        // Otherwise it might keep the other callers from the client for long.
        thread::sleep(Duration::from_micros(50));
    }
    found
}

/// Signals that the test is over, even if it fails: otherwise the reader would continue forever.
struct Over<'f>(&'f AtomicBool);

impl Drop for Over<'_> {
    fn drop(&mut self) {
        self.0.store(true, Ordering::Relaxed);
    }
}

/// The client has the row of the value 2 in its cache, and the store at this place has 1 instead.
/// Once it has heard from the server, the client never answers the 2 again.
fn notices(place: &Place, client: &Client) {
    let (asked, ends) = (Barrier::new(3), AtomicBool::new(false));
    assert_eq!(
        client.cached(1..2),
        Ok(Some(vec![row(1, 2)])),
        "no server runs: it has heard nothing"
    );
    assert_eq!(client.cached(0..600), Ok(None), "a read of it waits");
    thread::scope(|scope| {
        let over = Over(&ends);
        let looks = scope.spawn(|| looked_up(client, &ends));
        let writes = scope.spawn(|| {
            asked.wait();
            client.insert(700, Value::from(7))
        });
        let reads = scope.spawn(|| {
            asked.wait();
            client.read(0..600)
        });
        asked.wait();
        thread::sleep(Duration::from_millis(500));
        let server = place.serve();
        let written = writes.join().unwrap().unwrap_err();
        // It may have left before the client noticed that the server had ended.
        let expected = [ErrorKind::StoreWentBack, ErrorKind::NotSent(Unsent::StoreWentBack)];
        assert!(expected.contains(&written.kind), "{written:?}");
        assert_eq!(reads.join().unwrap(), Err(ErrorKind::StoreWentBack.into()));
        assert_eq!(client.read(1..2), Ok(vec![row(1, 1)]), "it has joined again");
        drop(over);
        let looked = looks.join().unwrap();
        let old = looked.iter().filter(|found| **found == Some(vec![row(1, 2)]));
        assert_eq!(old.count(), 1, "{looked:?}");
        assert!(wait_until(|| server.status().store_alarms == 1), "{}", server.status());
        assert!(server.status().to_string().contains("ALARM: the store lacks"));
        assert_eq!(client.put(1, Value::from(3)), Ok(Outcome::Applied));
        assert_eq!(client.cached(1..2), Ok(Some(vec![row(1, 3)])));
        server.stop().unwrap();
    });
}

#[test]
fn a_copy_of_an_older_epoch() {
    let place = Place::new("older");
    let server = place.serve();
    let first = place.join(place.address(), 1);
    assert_eq!(first.insert(1, Value::from(1)), Ok(Outcome::Applied));
    first.leave().unwrap();
    server.stop().unwrap();
    place.copy();
    for _ in 0..3 {
        place.serve().stop().unwrap();
    }
    let server = place.serve();
    let client = place.join(place.address(), 2);
    assert_eq!(client.put(1, Value::from(2)), Ok(Outcome::Applied));
    client.read(1..2).unwrap();
    server.stop().unwrap();
    place.bring_back();
    notices(&place, &client);
}

#[test]
fn a_copy_whose_next_epoch_is_the_one_that_the_client_has_joined() {
    let place = Place::new("equal");
    let server = place.serve();
    let client = place.join(place.address(), 2);
    assert_eq!(client.insert(1, Value::from(1)), Ok(Outcome::Applied));
    server.stop().unwrap();
    place.copy();
    let server = place.serve();
    assert_eq!(client.put(1, Value::from(2)), Ok(Outcome::Applied));
    client.read(1..2).unwrap();
    assert_eq!(client.status()[0].epoch, Ok(2));
    server.stop().unwrap();
    place.bring_back();
    notices(&place, &client);
    assert_eq!(client.status()[0].epoch, Ok(2));
}

#[test]
fn a_copy_that_has_gone_further_meanwhile() {
    let place = Place::new("further");
    place.serve().stop().unwrap();
    place.copy();
    let server = place.serve();
    let client = place.join(place.address(), 2);
    assert_eq!(client.insert(1, Value::from(2)), Ok(Outcome::Applied));
    client.read(1..2).unwrap();
    server.stop().unwrap();
    place.bring_back();
    let elsewhere = Address::Unix(place.folder.join("elsewhere"));
    let server = place.serve_at(&elsewhere);
    let other = place.join(elsewhere, 3);
    assert_eq!(other.insert(1, Value::from(1)), Ok(Outcome::Applied));
    for key in 10..40 {
        assert_eq!(other.insert(key, Value::from(key)), Ok(Outcome::Applied));
    }
    other.leave().unwrap();
    server.stop().unwrap();
    notices(&place, &client);
}

#[test]
fn a_snapshot_of_the_files_of_a_running_server() {
    let place = Place::new("snapshot");
    let server = place.serve();
    let client = place.join(place.address(), 2);
    assert_eq!(client.insert(1, Value::from(1)), Ok(Outcome::Applied));
    // The server has nothing to do just now: its file and its log are those of one moment.
    place.copy();
    std::fs::copy(place.folder.join("table.db-wal"), place.folder.join("copy.db-wal")).unwrap();
    assert_eq!(client.put(1, Value::from(2)), Ok(Outcome::Applied));
    client.read(1..2).unwrap();
    server.stop().unwrap();
    place.bring_back();
    std::fs::rename(place.folder.join("copy.db-wal"), place.folder.join("table.db-wal")).unwrap();
    notices(&place, &client);
}

/// The reader learns once that the store lacks what it has read, and then reads what is there.
#[test]
fn a_reader_learns_that_the_store_went_back() {
    let place = Place::new("reader");
    place.serve().stop().unwrap();
    place.copy();
    let server = place.serve();
    let client = place.join(place.address(), 2);
    let mut reader = Reader::new(place.address()).with_timeout(Duration::from_secs(60));
    assert_eq!(client.insert(1, Value::from(2)), Ok(Outcome::Applied));
    assert_eq!(reader.read(..), Ok(vec![row(1, 2)]));
    client.leave().unwrap();
    server.stop().unwrap();
    place.bring_back();
    let server = place.serve();
    assert_eq!(reader.read(..), Err(ErrorKind::StoreWentBack.into()));
    assert_eq!(reader.read(..), Ok(vec![]));
    server.stop().unwrap();
}

#[test]
fn a_server_that_starts_again_raises_no_alarm() {
    let place = Place::new("again");
    let mut server = place.serve();
    let (client, other) = (place.join(place.address(), 2), place.join(place.address(), 3));
    for turn in 0..5 {
        assert_eq!(other.insert(turn, Value::from(turn)), Ok(Outcome::Applied));
        let rows = client.read(0..100).unwrap();
        assert_eq!(rows.len() as u64, turn + 1);
        server.stop().unwrap();
        server = place.serve();
        assert_eq!(client.cached(0..100), Ok(Some(rows)));
        assert!(wait_until(|| server.status().is_serving));
        assert_eq!(server.status().store_alarms, 0);
    }
    client.leave().unwrap();
    other.leave().unwrap();
}

#[test]
fn what_a_client_had_pinned_is_free_and_its_old_pins_free_nothing() {
    let place = Place::new("pins");
    place.serve().stop().unwrap();
    place.copy();
    let server = place.serve();
    let client = place.join(place.address(), 2);
    assert_eq!(client.insert(1, Value::from(2)), Ok(Outcome::Applied));
    let (_, old) = client.pin_for_read(0..10).unwrap();
    server.stop().unwrap();
    place.bring_back();
    let server = place.serve();
    assert!(wait_until(|| client.cached(0..10).unwrap().is_none()));
    let other = place.join(place.address(), 3);
    assert_eq!(other.insert(1, Value::from(3)), Ok(Outcome::Applied), "nothing is pinned");
    let (rows, pin) = client.pin_for_read(0..10).unwrap();
    assert_eq!(rows, [row(1, 3)]);
    drop(old);
    other.set_timeout(Duration::from_millis(300));
    assert!(other.put(1, Value::from(4)).is_err(), "the new pin stands");
    drop(pin);
    other.set_timeout(Duration::from_secs(10));
    assert_eq!(other.put(1, Value::from(4)), Ok(Outcome::Applied));
    server.stop().unwrap();
}

#[test]
fn a_client_that_leaves_a_store_that_went_back() {
    let place = Place::new("leaves");
    let server = place.serve();
    let client = place.join(place.address(), 2);
    assert_eq!(client.insert(1, Value::from(1)), Ok(Outcome::Applied));
    server.stop().unwrap();
    place.copy();
    let server = place.serve();
    assert_eq!(client.put(1, Value::from(2)), Ok(Outcome::Applied));
    server.stop().unwrap();
    place.bring_back();
    thread::scope(|scope| {
        let leaves = scope.spawn(|| client.within(Duration::from_secs(10)).leave());
        thread::sleep(Duration::from_millis(100));
        let server = place.serve();
        assert_eq!(leaves.join().unwrap(), Ok(()));
        let status = server.status();
        assert!(wait_until(|| server.status().is_serving), "{status}");
        server.stop().unwrap();
    });
}

/// The Hello of a host that has seen this much, and the frame that the store lacks it.
fn host_hello(start: u128, commits: u64) -> Vec<u8> {
    let body = [&[0, 0][..], &start.to_le_bytes(), &commits.to_le_bytes(), &[4]].concat();
    [&(body.len() as u64).to_le_bytes()[..], &body].concat()
}

const WENT_BACK: [u8; 10] = [2, 0, 0, 0, 0, 0, 0, 0, 0, 19];

#[test]
fn nothing_is_taken_of_a_connection_whose_host_has_seen_more() {
    // It never sent a mark.
    let listener = std::net::TcpListener::bind("127.0.0.1:0").unwrap();
    let server = Server::start(listener, MemoryStore::default()).unwrap();
    let mut peer = Peer::new(&server);
    peer.send(&[host_hello(5, 1), frame(HELLO, 3, 1, &[])].concat());
    let begun = Instant::now();
    assert_eq!(peer.receive(Duration::from_secs(10)), WENT_BACK);
    assert!(begun.elapsed() < Duration::from_secs(5), "the connection ends");
    assert!(wait_until(|| server.status().store_alarms == 1), "{}", server.status());
    assert_eq!(server.status().taken, 0, "the library's Hello is lost");
}

/// A refusal for the reason 9, which has no numbers.
const OTHER_STORE: [u8; 11] = [19, 0, 0, 0, 0, 0, 0, 0, 0, 17, 9];

#[test]
fn nothing_is_taken_of_a_connection_whose_host_has_seen_another_store() {
    let place = Place::new("other");
    let listener = std::net::TcpListener::bind("127.0.0.1:0").unwrap();
    let store = SqliteStore::open(place.folder.join("table.db")).unwrap();
    let server = Server::start(listener, store).unwrap();
    let body = [&[0, 0][..], &[5; 16], &1u64.to_le_bytes(), &[7; 16], &[4]].concat();
    let seen = [&(body.len() as u64).to_le_bytes()[..], &body].concat();
    let mut peer = Peer::new(&server);
    peer.send(&[seen, frame(HELLO, 3, 1, &[])].concat());
    let begun = Instant::now();
    assert_eq!(peer.receive(Duration::from_secs(10)), [&OTHER_STORE[..], &[0; 16]].concat());
    assert!(begun.elapsed() < Duration::from_secs(5), "the connection ends");
    assert_eq!(server.status().taken, 0, "the library's Hello is lost");
    // A client that has seen no store is served after it.
    let client = place.join(server.address().clone(), 4);
    assert_eq!(client.insert(1, Value::from(1)), Ok(Outcome::Applied));
    let status = server.status();
    assert_eq!((status.store_alarms, status.alarms_raised), (0, 0), "{status}");
    server.stop().unwrap();
}
