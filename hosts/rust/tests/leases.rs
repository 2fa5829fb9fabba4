//! Leases: clients that go silent, servers that start again, and what is asked in between.
mod network;
mod peer;
mod shared_store;

use krl::error::Refusal;
use krl::operate::evict;
use krl::{
    Address, Client, ErrorKind, JoinError, JoinErrorKind, Leases, Listener, Outcome, Row, Server,
    Value,
};
use network::Network;
use peer::{HELLO, HOST_HELLO, Peer, frame};
use shared_store::SharedStore;
use std::path::PathBuf;
use std::thread;
use std::time::{Duration, Instant};

const T: Duration = Duration::from_millis(1500);

/// How much later than it could a server may evict on a busy machine.
const LATE: Duration = Duration::from_secs(4);

struct Folder(PathBuf);

impl Folder {
    fn new(name: &str) -> Folder {
        let folder = std::env::temp_dir().join(format!("krl-leases-{}-{name}", std::process::id()));
        std::fs::create_dir_all(&folder).unwrap();
        Folder(folder)
    }

    fn join(&self, address: &Address, number: u8) -> Client {
        Client::join(address, number, self.lock_file(number)).unwrap()
    }

    fn lock_file(&self, number: u8) -> PathBuf {
        self.0.join(format!("client-{number}.lock"))
    }
}

impl Drop for Folder {
    fn drop(&mut self) {
        let _ = std::fs::remove_dir_all(&self.0);
    }
}

fn anywhere() -> Listener {
    Listener::bind(&"127.0.0.1:0".parse().unwrap()).unwrap()
}

fn serve(listener: Listener, store: &SharedStore, length: Duration) -> Server {
    let leases = Leases::of(length).unwrap();
    Server::builder(listener, store.clone()).leases(leases).start().unwrap()
}

/// A server of a new store with leases of this length.
fn server(length: Duration) -> Server {
    serve(anywhere(), &SharedStore::default(), length)
}

fn row(key: u64, value: u64) -> Row {
    Row { key, value: Value::from(value) }
}

/// Waits until it is true, for a minute at most.
fn wait_until(is_so: impl Fn() -> bool) -> bool {
    let end = Instant::now() + Duration::from_secs(60);
    while !is_so() && Instant::now() < end {
        thread::sleep(Duration::from_millis(5));
    }
    is_so()
}

/// How long the client continued to answer, and how long it took until the other one's write was
/// done.
fn last_answer_and_write(
    client: &Client,
    write: impl FnOnce() -> Outcome + Send,
) -> (Duration, Duration) {
    let begun = Instant::now();
    thread::scope(|scope| {
        let write = scope.spawn(|| (write(), begun.elapsed()));
        let mut last = Duration::ZERO;
        while client.cached(0..100).unwrap().is_some() {
            last = begun.elapsed();
        }
        let (outcome, done) = write.join().unwrap();
        assert_eq!(outcome, Outcome::Applied);
        (last, done)
    })
}

#[test]
fn a_client_that_is_cut_off_stops_before_another_continues() {
    let (folder, server) = (Folder::new("cut"), server(T));
    let network = Network::to(server.address());
    let (cut, other) = (folder.join(&network.address(), 0), folder.join(server.address(), 1));
    assert_eq!(other.insert(10, Value::from(1)), Ok(Outcome::Applied));
    // It is idle, and stays a client. On a busy machine its lease may end now and then.
    let stays = || {
        assert_eq!(cut.read(0..100), Ok(vec![row(10, 1)]));
        thread::sleep(3 * T);
        cut.cached(0..100).unwrap().is_some()
    };
    assert!((0..20).any(|_| stays()), "its lease ends while it is idle");
    let (before, evicted) = (cut.status()[0].incarnation, server.status().evicted);
    network.cut(true);
    let (last, done) = last_answer_and_write(&cut, || other.put(10, Value::from(2)).unwrap());
    assert!(last < done && last <= T, "the last answer after {last:?}, the write after {done:?}");
    assert!(done < T + T / 4 + LATE, "{done:?}");
    assert_eq!(cut.cached(0..100), Ok(None));
    network.cut(false);
    assert_eq!(cut.read(0..100), Ok(vec![row(10, 2)]), "it is back by itself");
    assert!(cut.status()[0].incarnation > before);
    assert_eq!(server.status().evicted, evicted + 1);
}

#[test]
fn a_write_that_was_on_its_way_is_reported_as_such() {
    let (folder, server) = (Folder::new("write"), server(T));
    let network = Network::to(server.address());
    let client = folder.join(&network.address(), 0);
    assert_eq!(client.insert(10, Value::from(1)), Ok(Outcome::Applied));
    network.cut(true);
    // It holds the entry, so this is a write and no request.
    assert_eq!(client.put(10, Value::from(2)), Err(ErrorKind::LeaseEnded.into()));
    network.cut(false);
    let rows = client.read(0..100).unwrap();
    assert!(rows == [row(10, 1)] || rows == [row(10, 2)], "{rows:?}");
    assert_eq!(client.put(10, Value::from(3)), Ok(Outcome::Applied));
    assert_eq!(client.read(0..100), Ok(vec![row(10, 3)]));
}

#[test]
fn a_read_that_waits_continues_after_the_end() {
    let (folder, server) = (Folder::new("waits"), server(T));
    let network = Network::to(server.address());
    let client = folder.join(&network.address(), 0);
    network.cut(true);
    thread::scope(|scope| {
        let read = scope.spawn(|| client.read(0..100));
        thread::sleep(3 * T);
        assert_eq!(client.status()[0].lease_left, Some(Duration::ZERO));
        network.cut(false);
        assert_eq!(read.join().unwrap(), Ok(vec![]));
    });
}

#[test]
fn a_pin_ends_with_the_lease() {
    let (folder, server) = (Folder::new("pin"), server(T));
    let network = Network::to(server.address());
    let (cut, other) = (folder.join(&network.address(), 0), folder.join(server.address(), 1));
    cut.read(0..100).unwrap();
    let pin = cut.pin(0..100).unwrap();
    assert!(pin.holds() && cut.status()[0].lease_left.unwrap() <= T);
    network.cut(true);
    assert_eq!(pin.write_all([]), Ok(vec![]));
    assert_eq!(other.insert(10, Value::from(1)), Ok(Outcome::Applied));
    assert!(!pin.holds());
    assert_eq!(pin.write_all([]).unwrap_err().error.kind, ErrorKind::PinIsVoid);
    network.cut(false);
    assert_eq!(cut.read(0..100), Ok(vec![row(10, 1)]));
    let next = cut.pin(0..100).unwrap();
    assert!(!pin.holds() && next.holds());
    // It is a pin of the older incarnation, whatever its number is.
    drop(pin);
    assert!(cut.forget(0..100) == Err(ErrorKind::Pinned.into()) && next.holds());
}

#[test]
fn a_server_that_starts_again_waits_a_lease_for_who_does_not_report() {
    let (folder, store) = (Folder::new("restart"), SharedStore::default());
    let server = serve(anywhere(), &store, T);
    let network = Network::to(server.address());
    let (gone, other) = (folder.join(&network.address(), 0), folder.join(server.address(), 1));
    gone.read(0..100).unwrap();
    network.cut(true);
    let address = server.address().clone();
    server.stop().unwrap();
    let listener = Listener::bind(&address).unwrap();
    let begun = Instant::now();
    let again = serve(listener, &store, T);
    let (last, done) = last_answer_and_write(&gone, || other.insert(10, Value::from(1)).unwrap());
    assert!(last < done, "the last answer after {last:?}, the write after {done:?}");
    assert!(begun.elapsed() >= T + T / 4 && done < T + T / 4 + LATE, "{done:?}");
    assert_eq!(again.status().evicted, 1);
}

#[test]
fn a_longer_lease_of_before_is_waited_for() {
    let (folder, store) = (Folder::new("longer"), SharedStore::default());
    let server = serve(anywhere(), &store, 3 * T);
    let network = Network::to(server.address());
    let gone = folder.join(&network.address(), 0);
    gone.read(0..100).unwrap();
    network.cut(true);
    let address = server.address().clone();
    server.stop().unwrap();
    let begun = Instant::now();
    let again = serve(Listener::bind(&address).unwrap(), &store, T / 2);
    let other = folder.join(&address, 1);
    assert_eq!(other.insert(10, Value::from(1)), Ok(Outcome::Applied));
    assert_eq!(gone.cached(0..100), Ok(None));
    assert!(begun.elapsed() >= 3 * T, "{:?}", begun.elapsed());
    assert!(wait_until(|| again.status().longest_lease == T / 2), "{}", again.status());
}

#[test]
fn who_joined_without_a_lease_is_left_to_an_operator() {
    let (folder, store) = (Folder::new("without"), SharedStore::default());
    let server = Server::start(anywhere(), store.clone()).unwrap();
    let network = Network::to(server.address());
    let (gone, other) = (folder.join(&network.address(), 0), folder.join(server.address(), 1));
    gone.read(0..100).unwrap();
    assert_eq!(gone.status()[0].lease_left, None);
    network.cut(true);
    let address = server.address().clone();
    server.stop().unwrap();
    let again = serve(Listener::bind(&address).unwrap(), &store, T);
    thread::sleep(3 * T);
    assert!(gone.cached(0..100).unwrap().is_some(), "it answers forever");
    let status = again.status();
    assert!(!status.is_serving && status.missing == [0] && status.unleased == [0], "{status}");
    assert_eq!(status.evicted, 0);
    network.cut(false);
    assert_eq!(other.insert(10, Value::from(1)), Ok(Outcome::Applied));
    assert!(gone.read(0..100).is_ok());
    assert!(wait_until(|| again.status().unleased.is_empty()), "{}", again.status());
    assert!(wait_until(|| gone.status()[0].lease_left.is_some_and(|left| left <= T)));
}

#[test]
fn a_host_that_sends_no_signs_is_served_and_left_to_an_operator() {
    let (folder, server) = (Folder::new("older"), server(T));
    let mut older = Peer::new(&server);
    older.send(&HOST_HELLO);
    older.send(&frame(HELLO, 50, 1, &[]));
    assert!(!older.receive_messages(T / 2).is_empty(), "it is answered");
    thread::sleep(3 * T);
    let status = server.status();
    assert_eq!((status.evicted, &status.unleased[..]), (0, &[50][..]), "{status}");
    // The operator's vouching counts.
    evict(server.address(), 50, folder.lock_file(50)).unwrap();
    assert!(wait_until(|| server.status().unleased.is_empty()));
}

#[test]
fn a_second_process_of_a_number_waits_for_the_first_ones_lease() {
    let (folder, server) = (Folder::new("second"), server(T));
    let network = Network::to(server.address());
    let first = folder.join(&network.address(), 0);
    first.read(0..100).unwrap();
    // As from another machine, which has a lock file of its own.
    let join = |timeout| {
        let client = Client::builder(server.address(), 0, folder.0.join("elsewhere.lock"));
        client.timeout(timeout).join()
    };
    let refused = join(3 * T).unwrap_err();
    let runs = |error: &JoinError| {
        matches!(error.kind, JoinErrorKind::Unserved(Refusal::LeaseRuns { client: 0, .. }))
    };
    assert!(runs(&refused), "the first one lives: {refused}");
    assert!(first.cached(0..100).unwrap().is_some());
    network.cut(true);
    let begun = Instant::now();
    let second = join(Duration::from_secs(10)).unwrap();
    assert_eq!(first.cached(0..100), Ok(None));
    assert!(begun.elapsed() > T / 2);
    assert_eq!(second.read(0..100), Ok(vec![]));
}

#[test]
fn an_operator_waits_for_the_end_of_a_lease() {
    let (folder, server) = (Folder::new("operator"), server(T));
    let network = Network::to(server.address());
    let client = folder.join(&network.address(), 0);
    client.read(0..100).unwrap();
    network.cut(true);
    let begun = Instant::now();
    evict(server.address(), 0, folder.0.join("new.lock")).unwrap();
    assert_eq!(client.cached(0..100), Ok(None));
    assert!(begun.elapsed() > T / 2, "{:?}", begun.elapsed());
}

#[test]
fn a_process_that_starts_again_on_its_machine_waits_for_nothing() {
    let (folder, server) = (Folder::new("again"), server(Duration::from_secs(60)));
    let network = Network::to(server.address());
    let first = folder.join(&network.address(), 0);
    first.read(0..100).unwrap();
    network.cut(true);
    // Its Bye is lost, as a dead process sends none.
    drop(first);
    let begun = Instant::now();
    let again = folder.join(server.address(), 0);
    assert!(begun.elapsed() < Duration::from_secs(5), "{:?}", begun.elapsed());
    assert_eq!(again.read(0..100), Ok(vec![]));
}

#[test]
fn a_client_that_leaves_after_the_end_of_its_lease_has_left() {
    let (folder, server) = (Folder::new("leaves"), server(T));
    let network = Network::to(server.address());
    let client = folder.join(&network.address(), 0);
    client.read(0..100).unwrap();
    network.cut(true);
    thread::sleep(2 * T);
    network.cut(false);
    client.leave().unwrap();
    assert!(wait_until(|| server.status().connected.is_empty()), "{}", server.status());
    let other = folder.join(server.address(), 1);
    assert_eq!(other.insert(10, Value::from(1)), Ok(Outcome::Applied));
}
