//! An earlier copy of the store is brought back while a client lives that has shown who it is.
mod secure;

use krl::error::ServeError;
use krl::{Access, Address, Client, Listener, Outcome, Row, Server, SqliteStore};
use krl::{TlsConfig, Value};
use secure::Setup;
use std::path::PathBuf;
use std::thread;
use std::time::{Duration, Instant};

/// A store at which servers run by TLS, one after another, all at one address.
struct Place {
    setup: Setup,
    shown: TlsConfig,
    address: Address,
}

impl Place {
    /// A place at a loopback address of its own: nothing else takes a port there between two
    /// servers.
    fn new(name: &str, network: u8) -> Place {
        let setup = Setup::new(name);
        let shown = setup.config(&["krl:server"]);
        let [low, high, ..] = std::process::id().to_le_bytes();
        let address = format!("tls:127.{network}.{high}.{low}:0").parse().unwrap();
        Place { setup, shown, address }
    }

    fn file(&self, name: &str) -> PathBuf {
        self.setup.folder.join(name)
    }

    fn serve(&mut self) -> Server {
        let listener = Listener::bind(&self.address).unwrap();
        let store = SqliteStore::open(self.file("table.db")).unwrap();
        let access = Access::new().tls(self.shown.clone());
        let server = Server::builder(listener, store).access(access).start().unwrap();
        self.address = server.address().clone();
        server
    }

    fn copy(&self, from: &str, to: &str) {
        std::fs::copy(self.file(from), self.file(to)).unwrap();
    }

    /// A client of this number that has the value 2 in its cache, where `copy.db` has the earlier
    /// 1. No server runs.
    fn client_of_a_later_store(&mut self, number: u8) -> Client {
        let server = self.serve();
        let config = self.setup.config(&[&format!("krl:client:{number}")]);
        let client = self.setup.join(&server, &config, number).unwrap();
        assert_eq!(client.insert(1, Value::from(1)), Ok(Outcome::Applied));
        server.stop().unwrap();
        self.copy("table.db", "copy.db");
        let server = self.serve();
        assert_eq!(client.put(1, Value::from(2)), Ok(Outcome::Applied));
        assert_eq!(client.read(1..2), Ok(vec![row(2)]));
        server.stop().unwrap();
        client
    }
}

fn row(number: u64) -> Row {
    Row { key: 1, value: Value::from(number) }
}

/// Waits until it is true, for a minute at most.
fn wait_until(is_so: impl Fn() -> bool) -> bool {
    let end = Instant::now() + Duration::from_secs(60);
    while !is_so() && Instant::now() < end {
        thread::sleep(Duration::from_millis(5));
    }
    is_so()
}

/// The server ends by itself, and reports that this client has seen what its store lacks.
fn ends_by_the_word_of(number: u8, server: Server) {
    assert!(wait_until(|| !server.is_running()), "{}", server.status());
    let status = server.status();
    assert!(!status.is_serving && status.store_alarms > 0, "{status}");
    let error = server.stop().unwrap_err();
    let ServeError::OlderStore { identity, seen } = &error else { panic!("{error}") };
    assert_eq!(identity.to_string(), number.to_string());
    assert!(seen.commits > 0, "{seen:?}");
    assert_eq!(status.failure, Some(error.to_string()));
}

#[test]
fn a_server_over_an_older_copy_ends_and_serves_when_it_is_started_again() {
    let mut place = Place::new("older-copy", 71);
    let client = place.client_of_a_later_store(3);
    place.copy("copy.db", "table.db");
    assert_eq!(client.cached(1..2), Ok(Some(vec![row(2)])), "it has received nothing");
    ends_by_the_word_of(3, place.serve());
    assert!(wait_until(|| client.cached(1..2).unwrap().is_none()), "it was notified");
    let server = place.serve();
    assert_eq!(client.read(1..2), Ok(vec![row(1)]), "it has joined again");
    assert_eq!(client.put(1, Value::from(3)), Ok(Outcome::Applied));
    assert!(server.is_running());
    server.stop().unwrap();
}

#[test]
fn a_server_over_a_restored_backup_is_one_over_an_older_store() {
    let mut place = Place::new("restored-backup", 74);
    let client = place.client_of_a_later_store(3);
    let backup = SqliteStore::read(place.file("copy.db")).unwrap().snapshot;
    SqliteStore::create(place.file("restored.db"), &backup).unwrap();
    place.copy("restored.db", "table.db");
    ends_by_the_word_of(3, place.serve());
    assert!(wait_until(|| client.cached(1..2).unwrap().is_none()), "it was notified");
    let server = place.serve();
    assert_eq!(client.read(1..2), Ok(vec![row(1)]), "it has joined again");
    server.stop().unwrap();
}

#[test]
fn the_right_store_is_served_after_a_server_over_the_wrong_one_has_ended() {
    let mut place = Place::new("right-store", 72);
    let client = place.client_of_a_later_store(3);
    place.copy("table.db", "right.db");
    place.copy("copy.db", "table.db");
    ends_by_the_word_of(3, place.serve());
    assert!(wait_until(|| client.cached(1..2).unwrap().is_none()), "it was notified");
    place.copy("right.db", "table.db");
    let server = place.serve();
    assert_eq!(client.read(1..2), Ok(vec![row(2)]), "it has joined again");
    server.stop().unwrap();
}
