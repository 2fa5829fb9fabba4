//! Connections that stay open and carry nothing, as through a proxy or an address translator that
//! has lost them, and connections that end before anything comes.

use krl::{Address, Client, ErrorKind, Leases, MemoryStore, Outcome, Server, Value};
use krl_testing::relay::{Plan, Relay};
use std::net::TcpListener;
use std::path::PathBuf;
use std::thread;
use std::time::{Duration, Instant};

/// How long a call waits: no connection that swallows is kept that long.
const LONG: Duration = Duration::from_secs(60);

/// Longer than the client waits for an answer on one connection, and on a busy machine too.
const SOON: Duration = Duration::from_secs(25);

/// A server, a relay to it, and where the lock file of its client is.
struct World {
    server: Server,
    relay: Relay,
    lock: PathBuf,
}

impl World {
    fn new(name: &str, leases: Option<Duration>) -> World {
        let listener = TcpListener::bind("127.0.0.1:0").unwrap();
        let builder = Server::builder(listener, MemoryStore::default());
        let server = match leases {
            Some(length) => builder.leases(Leases::of(length).unwrap()).start().unwrap(),
            None => builder.start().unwrap(),
        };
        let Address::Tcp(at) = *server.address() else { panic!("it listens elsewhere") };
        let lock = format!("krl-swallowed-{}-{name}.lock", std::process::id());
        World { server, relay: Relay::to(at), lock: std::env::temp_dir().join(lock) }
    }

    fn join(&self) -> Client {
        let builder = Client::builder(self.relay.at(), 5, &self.lock);
        builder.timeout(LONG).join().unwrap()
    }
}

impl Drop for World {
    fn drop(&mut self) {
        let _ = std::fs::remove_file(&self.lock);
    }
}

/// A client that has joined is answered soon though its connection swallows. Its lease, if it has
/// one, does not end for it.
fn is_answered_on_another_connection(name: &str, leases: Option<Duration>) {
    let world = World::new(name, leases);
    let client = world.join();
    let incarnation = client.status()[0].incarnation;
    world.relay.swallow();
    let begun = Instant::now();
    assert_eq!(client.read(0..10), Ok(vec![]));
    assert_eq!(client.insert(15, Value::from(1)), Ok(Outcome::Applied));
    assert!(begun.elapsed() < SOON, "{:?}", begun.elapsed());
    assert_eq!((world.relay.count(), client.status()[0].incarnation), (2, incarnation));
}

#[test]
fn a_client_without_a_lease_leaves_a_connection_that_swallows() {
    is_answered_on_another_connection("without", None);
}

#[test]
fn a_client_with_a_lease_leaves_a_connection_that_swallows() {
    is_answered_on_another_connection("leased", Some(2 * LONG));
}

#[test]
fn a_client_leaves_a_connection_that_swallows_from_its_first_byte() {
    let world = World::new("first", Some(2 * LONG));
    world.relay.plan([Plan::Swallow]);
    let begun = Instant::now();
    let client = world.join();
    assert!(begun.elapsed() < SOON, "{:?}", begun.elapsed());
    assert_eq!(world.relay.count(), 2);
    assert_eq!(client.insert(15, Value::from(1)), Ok(Outcome::Applied));
}

#[test]
fn connections_that_end_before_anything_comes_cost_no_lease() {
    let world = World::new("ends", Some(2 * LONG));
    world.relay.plan([Plan::End; 2]);
    let client = world.join();
    assert!(client.status()[0].lease_left.is_some_and(|left| left > Duration::ZERO));
    assert_eq!(world.relay.count(), 3);
    assert_eq!(world.server.status().connections, 1);
}

/// Reads that are not kept take turns. The first one waits until its connection counts as lost.
#[test]
fn a_read_that_is_not_kept_ends_at_its_deadline_next_to_a_longer_one() {
    const SHORT: Duration = Duration::from_millis(300);
    let world = World::new("turns", None);
    let client = world.join();
    assert_eq!(client.read_once(..), Ok(vec![]));
    world.relay.swallow();
    thread::scope(|scope| {
        let longer = scope.spawn(|| client.read_once(..));
        thread::sleep(SHORT);
        let begun = Instant::now();
        let late = client.within(SHORT).read_once(..).unwrap_err();
        assert!(begun.elapsed() < SHORT * 10, "{:?}", begun.elapsed());
        assert_eq!(late.kind, ErrorKind::TimedOut);
        assert_eq!(longer.join().unwrap(), Ok(vec![]));
    });
}
