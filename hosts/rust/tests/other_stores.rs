//! A client that has seen one store meets the server of another one.
mod secure;

use krl::error::Refusal;
use krl::{
    Access, Address, Client, Error, ErrorKind, Listener, Outcome, Row, Server, SqliteStore,
    TlsConfig, Value,
};
use secure::Setup;
use std::thread;
use std::time::{Duration, Instant};

/// Servers by TLS over several stores, one after another, all at one address.
struct Place {
    setup: Setup,
    shown: TlsConfig,
    address: Address,
}

impl Place {
    /// A place at a loopback address of its own: nothing else takes a port there between two
    /// servers.
    fn new(name: &str, network: u8) -> Place {
        let setup = Setup::new(name);
        let shown = setup.config(&["krl:server"]);
        let [low, high, ..] = std::process::id().to_le_bytes();
        let address = format!("tls:127.{network}.{high}.{low}:0").parse().unwrap();
        Place { setup, shown, address }
    }

    /// Serves the store of this name, which is a new one if there is none.
    fn serve(&mut self, store: &str) -> Server {
        let listener = Listener::bind(&self.address).unwrap();
        let store = SqliteStore::open(self.setup.folder.join(store)).unwrap();
        let access = Access::new().tls(self.shown.clone());
        let server = Server::builder(listener, store).access(access).start().unwrap();
        self.address = server.address().clone();
        server
    }

    fn join(&self, server: &Server, number: u8) -> Client {
        let config = self.setup.config(&[&format!("krl:client:{number}")]);
        self.setup.join(server, &config, number).unwrap()
    }
}

fn row(key: u64) -> Row {
    Row { key, value: Value::from(key) }
}

/// Whether the client has dropped its cache, within half a minute.
fn drops_its_cache(client: &Client) -> bool {
    let end = Instant::now() + Duration::from_secs(30);
    while client.cached(0..100).unwrap().is_some() && Instant::now() < end {
        thread::sleep(Duration::from_millis(5));
    }
    client.cached(0..100).unwrap().is_none()
}

/// How a read ends once the server has answered or refused the client, within half a minute.
fn read(client: &Client) -> Result<Vec<Row>, Error> {
    let end = Instant::now() + Duration::from_secs(30);
    loop {
        match client.read(0..100) {
            Err(Error { kind: ErrorKind::TimedOut, .. }) if Instant::now() < end => {}
            read => return read,
        }
    }
}

#[test]
fn a_server_continues_and_a_client_of_another_store_waits_for_its_own() {
    let mut place = Place::new("other-store", 73);
    let server = place.serve("own.db");
    let client = place.join(&server, 3);
    assert_eq!(client.insert(1, Value::from(1)), Ok(Outcome::Applied));
    assert_eq!(client.read(0..100), Ok(vec![row(1)]));
    server.stop().unwrap();

    let server = place.serve("other.db");
    let is_refused = Err(ErrorKind::Unserved(Refusal::OtherStore).into());
    client.set_timeout(Duration::from_millis(500));
    assert!(drops_its_cache(&client));
    assert_eq!(read(&client), is_refused);
    let other = place.join(&server, 4);
    assert_eq!(other.insert(2, Value::from(2)), Ok(Outcome::Applied));
    assert_eq!(read(&client), is_refused, "it is refused as often as it comes");
    let status = server.status();
    assert!(server.is_running() && status.is_serving && status.store_alarms == 0, "{status}");
    other.leave().unwrap();
    server.stop().unwrap();

    let server = place.serve("own.db");
    client.set_timeout(Duration::from_secs(60));
    assert_eq!(client.read(0..100), Ok(vec![row(1)]), "it has kept its mark, and joins again");
    server.stop().unwrap();
}
