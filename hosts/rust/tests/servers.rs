//! Servers that are full, and servers that fail.
use krl::error::{Refusal, ServeError};
use krl::store::{Change, History, Mark, Snapshot, Store, StoreError};
use krl::{Address, Client, ErrorKind, JoinErrorKind, Listener, MemoryStore, Server, Value};
use std::io::{Read, Write};
use std::net::{TcpListener, TcpStream};
use std::path::PathBuf;
use std::thread;
use std::time::{Duration, Instant};

fn listener() -> TcpListener {
    TcpListener::bind("127.0.0.1:0").unwrap()
}

fn lock_file(name: &str) -> PathBuf {
    std::env::temp_dir().join(format!("krl-servers-{}-{name}.lock", std::process::id()))
}

/// Waits until it is true, for a minute at most.
fn wait_until(is_so: impl Fn() -> bool) -> bool {
    let end = Instant::now() + Duration::from_secs(60);
    while !is_so() && Instant::now() < end {
        thread::sleep(Duration::from_millis(10));
    }
    is_so()
}

#[test]
fn a_full_server_takes_a_client_when_another_one_has_left() {
    let server = Server::builder(listener(), MemoryStore::default()).max_connections(1);
    let server = server.start().unwrap();
    let locks = [lock_file("one"), lock_file("two")];
    let first = Client::join(server.address(), 1, &locks[0]).unwrap();
    let second = || Client::builder(server.address(), 2, &locks[1]);
    let refused = second().timeout(Duration::from_secs(3)).join().unwrap_err();
    let full = Refusal::Full { connections: 1 };
    assert!(matches!(refused.kind, JoinErrorKind::Unserved(why) if why == full), "{refused:?}");
    assert_eq!(refused.to_string(), "the server has 1 connections, and takes no more");
    first.leave().unwrap();
    assert!(wait_until(|| server.status().connections == 0));
    second().join().unwrap().leave().unwrap();
    for lock in locks {
        std::fs::remove_file(lock).unwrap();
    }
}

/// A store that takes this many batches, and then fails as it is set to.
struct Failing {
    store: MemoryStore,
    batches: usize,
    fail: fn() -> StoreError,
}

impl Store for Failing {
    fn load(&mut self) -> Result<Snapshot, StoreError> {
        self.store.load()
    }

    fn snapshot(&mut self) -> Result<Snapshot, StoreError> {
        self.store.snapshot()
    }

    fn commit(&mut self, changes: &[Change]) -> Result<(), StoreError> {
        if changes.is_empty() {
            return Ok(());
        }
        if self.batches == 0 {
            return Err((self.fail)());
        }
        self.batches -= 1;
        self.store.commit(changes)
    }
}

/// A server whose store fails at the write of its client, and how it ended.
fn fails(name: &str, fail: fn() -> StoreError) -> (String, ServeError) {
    // The start and the join are two batches.
    let store = Failing { store: MemoryStore::default(), batches: 2, fail };
    let (server, lock) = (Server::start(listener(), store).unwrap(), lock_file(name));
    let client = Client::join(server.address(), 1, &lock).unwrap();
    assert!(server.is_running() && server.status().failure.is_none());
    client.set_timeout(Duration::from_millis(300));
    // On a busy machine a write may not leave by then.
    let is_unsent = |error: &krl::Error| matches!(error.kind, ErrorKind::NotSent(_));
    let mut tries = (0..200).map(|_| client.insert(1, Value::from(1)));
    let written = tries.find(|written| !written.as_ref().is_err_and(is_unsent));
    assert_eq!(written, Some(Err(ErrorKind::TimedOut.into())));
    assert!(wait_until(|| !server.is_running()));
    let status = server.status();
    assert!(!status.is_serving);
    assert!(status.to_string().contains(status.failure.as_ref().unwrap()), "{status}");
    drop(client);
    std::fs::remove_file(lock).unwrap();
    (status.failure.unwrap(), server.stop().unwrap_err())
}

#[test]
fn a_server_whose_store_fails_reports_it() {
    let (shown, error) = fails("fails", || StoreError::failed("the disk is gone"));
    assert_eq!(shown, "the store failed: the disk is gone");
    assert!(matches!(error, ServeError::Store(_)), "{error:?}");
}

#[test]
fn a_server_that_panics_reports_it() {
    let (shown, error) = fails("panics", || panic!("the test's"));
    assert_eq!(shown, "a thread of the server panicked");
    assert!(matches!(error, ServeError::Panicked), "{error:?}");
}

#[test]
fn a_client_joins_by_a_name_of_the_host() {
    let (server, lock) =
        (Server::start(listener(), MemoryStore::default()).unwrap(), lock_file("name"));
    let port = server.address().to_string().rsplit(':').next().unwrap().to_string();
    let address: krl::Address = format!("localhost:{port}").parse().unwrap();
    Client::join(&address, 1, &lock).unwrap().leave().unwrap();
    std::fs::remove_file(lock).unwrap();
}

/// A store whose last start is this one, and that another server may have taken over.
struct Behind {
    store: MemoryStore,
    start: u128,
    is_deposed: bool,
}

impl Store for Behind {
    fn load(&mut self) -> Result<Snapshot, StoreError> {
        self.store.load()
    }

    fn snapshot(&mut self) -> Result<Snapshot, StoreError> {
        self.store.snapshot()
    }

    fn commit(&mut self, changes: &[Change]) -> Result<(), StoreError> {
        match changes {
            [] if self.is_deposed => Err(StoreError::Deposed("another server".to_string())),
            _ => self.store.commit(changes),
        }
    }

    fn history(&mut self) -> Result<Option<History>, StoreError> {
        Ok(History::new([7, self.start].map(|start| Mark { start, commits: 1 }).to_vec()))
    }
}

/// A client that has seen more than an older server has makes that server ask who has the store. It
/// ends then, and raises no alarm: the store did not go back.
#[test]
fn a_server_after_which_another_one_started_ends_and_raises_no_alarm() {
    let lock = lock_file("behind");
    let address = krl::Address::Unix(lock.with_extension("socket"));
    let serve = |start, is_deposed| {
        let store = Behind { store: MemoryStore::default(), start, is_deposed };
        Server::start(Listener::bind(&address).unwrap(), store).unwrap()
    };
    let newer = serve(2, false);
    let client = Client::join(&address, 1, &lock).unwrap();
    assert_eq!(client.insert(1, Value::from(1)), Ok(krl::Outcome::Applied));
    newer.stop().unwrap();
    let older = serve(1, true);
    assert!(wait_until(|| !older.is_running()));
    assert_eq!(older.status().store_alarms, 0);
    let ended = older.stop().unwrap_err();
    assert!(matches!(ended, ServeError::Store(StoreError::Deposed(_))), "{ended:?}");
    drop(client);
    std::fs::remove_file(lock).unwrap();
}

/// A server asks now and then who has the store, though no client asks anything of it.
#[test]
fn an_idle_server_after_which_another_one_started_ends() {
    let store = Behind { store: MemoryStore::default(), start: 1, is_deposed: true };
    let server = Server::start(listener(), store).unwrap();
    assert!(wait_until(|| !server.is_running()));
    let ended = server.stop().unwrap_err();
    assert!(matches!(ended, ServeError::Store(StoreError::Deposed(_))), "{ended:?}");
}

/// A connection that the server has taken.
fn connect(server: &Server) -> TcpStream {
    let Address::Tcp(at) = *server.address() else { panic!("it listens elsewhere") };
    let stream = TcpStream::connect(at).unwrap();
    assert!(wait_until(|| server.status().connections == 1));
    stream
}

#[test]
fn a_server_sleeps_while_nothing_comes() {
    let server = Server::start(listener(), MemoryStore::default()).unwrap();
    let mut stream = connect(&server);
    // Half a frame waits, and the other half does not come.
    stream.write_all(&[18, 0, 0]).unwrap();
    let turns = || server.monitor().measured().turns.count;
    let (before, begun) = (turns(), Instant::now());
    assert!(wait_until(|| turns() - before >= 5), "it turns now and then");
    thread::sleep(Duration::from_secs(1));
    let (turned, time) = (turns() - before, begun.elapsed());
    assert!(u128::from(turned) * 1000 <= 30 * time.as_millis(), "{turned} turns in {time:?}");
}

#[test]
fn a_server_that_stops_answers_what_has_come() {
    const HOST_HELLO: [u8; 11] = [3, 0, 0, 0, 0, 0, 0, 0, 0, 0, 4];
    const HOST_ANSWER: [u8; 12] = [4, 0, 0, 0, 0, 0, 0, 0, 0, 16, 1, 4];
    const HELLO: [u8; 26] =
        [18, 0, 0, 0, 0, 0, 0, 0, 1, 0, 50, 0, 0, 0, 0, 0, 0, 0, 1, 0, 0, 0, 0, 0, 0, 0];
    for _ in 0..20 {
        let server = Server::start(listener(), MemoryStore::default()).unwrap();
        let mut stream = connect(&server);
        stream.write_all(&[&HOST_HELLO[..], &HELLO].concat()).unwrap();
        server.stop().unwrap();
        let mut answer = Vec::new();
        stream.read_to_end(&mut answer).unwrap();
        assert!(answer.len() > HOST_ANSWER.len(), "{answer:?}");
    }
}

#[test]
fn who_asks_an_idle_server_is_answered_at_once() {
    let server = Server::start(listener(), MemoryStore::default()).unwrap();
    let monitor = server.monitor();
    let ask = || {
        let begun = Instant::now();
        assert_eq!(monitor.snapshot().unwrap().rows.len(), 0);
        begun.elapsed()
    };
    // The server makes a turn by itself every 50 milliseconds. One that answered then would hold up
    // each of these but the first for that long; a busy machine leaves some out.
    let times: Vec<_> = (0..20).map(|_| ask()).collect();
    let least = times[1..].iter().min().unwrap();
    assert!(*least < Duration::from_millis(25), "{times:?}");
    server.stop().unwrap();
    assert!(monitor.snapshot().is_err());
}
