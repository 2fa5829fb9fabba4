//! Clones of a client, pins that outlive it, and the one way to leave.
use krl::error::LockFileError;
use krl::{
    Client, ErrorKind, JoinError, JoinErrorKind, MemoryStore, Outcome, Pin, Row, Server, Value,
    Waited,
};
use std::net::TcpListener;
use std::path::PathBuf;
use std::thread;
use std::time::Duration;

const LONG: Duration = Duration::from_secs(60);

struct World {
    server: Server,
    name: &'static str,
}

impl World {
    fn new(name: &'static str) -> World {
        let listener = TcpListener::bind("127.0.0.1:0").unwrap();
        World { server: Server::start(listener, MemoryStore::default()).unwrap(), name }
    }

    fn lock_file(&self, number: u8) -> PathBuf {
        let name = format!("krl-leaving-{}-{}-{number}.lock", self.name, std::process::id());
        std::env::temp_dir().join(name)
    }

    fn try_join(&self, number: u8) -> Result<Client, JoinError> {
        let builder = Client::builder(self.server.address(), number, self.lock_file(number));
        builder.timeout(LONG).join()
    }

    fn join(&self, number: u8) -> Client {
        self.try_join(number).unwrap()
    }
}

/// What a task of an application keeps: nothing of it borrows from the client.
struct Task {
    pin: Pin,
    rows: Vec<Row>,
}

fn row(key: u64, value: u64) -> Row {
    Row { key, value: Value::from(value) }
}

#[test]
fn a_clone_is_the_same_client() {
    let world = World::new("clone");
    let client = world.join(1);
    let clone = client.clone();
    assert_eq!(client.insert(1, Value::from(5)), Ok(Outcome::Applied));
    assert_eq!(clone.read(0..9), Ok(vec![row(1, 5)]));
    assert_eq!(client.cached(0..9), Ok(Some(vec![row(1, 5)])));
    clone.set_timeout(Duration::from_secs(7));
    assert_eq!(client.timeout(), Duration::from_secs(7));
    drop(client);
    assert_eq!(clone.put(1, Value::from(6)), Ok(Outcome::Applied), "one is left");
    drop(clone);
    world.join(1).leave().unwrap();
}

#[test]
fn a_pin_outlives_the_handle_that_made_it() {
    let world = World::new("pin");
    let (client, other) = (world.join(1), world.join(2));
    assert_eq!(client.insert(1, Value::from(5)), Ok(Outcome::Applied));
    let (rows, pin) = client.pin_for_update(0..9).unwrap();
    drop(client);
    let task = Task { pin, rows };
    let (waits, waiting) = std::sync::mpsc::channel();
    let writer = thread::spawn(move || {
        waits.send(()).unwrap();
        other.put(1, Value::from(7))
    });
    waiting.recv().unwrap();
    let task = thread::spawn(move || {
        assert!(task.pin.holds());
        assert_eq!(task.rows, [row(1, 5)]);
        assert_eq!(task.pin.put(1, Value::from(6)), Ok(Outcome::Applied));
        task
    });
    let task = task.join().unwrap();
    let joined = world.try_join(1);
    assert!(matches!(
        joined.unwrap_err().kind,
        JoinErrorKind::LockFile { error: LockFileError::Taken, .. }
    ));
    drop(task);
    assert_eq!(writer.join().unwrap(), Ok(Outcome::Applied));
    world.join(1).leave().unwrap();
}

#[test]
fn one_that_has_left_stays_so_for_all_its_clones() {
    let world = World::new("left");
    let client = world.join(1);
    let (clone, pin) = (client.clone(), client.pin(0..9).unwrap());
    assert_eq!(client.insert(1, Value::from(5)), Ok(Outcome::Applied));
    client.read(0..9).unwrap();
    assert_eq!(clone.leave(), Ok(()));
    for again in [&client, &clone] {
        assert_eq!(again.leave(), Ok(()));
        assert_eq!(again.within(LONG).leave(), Ok(()));
        assert_eq!(again.read(0..9), Err(ErrorKind::Left.into()));
        assert_eq!(again.insert(2, Value::from(5)), Err(ErrorKind::Left.into()));
        assert_eq!(again.cached(0..9), Ok(None));
        assert_eq!(again.wait_for_change(0..9, &[], LONG), Ok(Waited::Changed));
    }
    assert!(!pin.holds());
    // The number is free, though its old client still has an owner.
    let next = world.join(1);
    assert_eq!(next.read(0..9), Ok(vec![row(1, 5)]));
    next.leave().unwrap();
}

#[test]
fn threads_that_leave_at_once_all_learn_that_it_is_done() {
    let world = World::new("at-once");
    let client = world.join(1);
    assert_eq!(client.insert(1, Value::from(5)), Ok(Outcome::Applied));
    let leaving: Vec<_> = (0..8)
        .map(|_| {
            let client = client.clone();
            thread::spawn(move || client.leave())
        })
        .collect();
    for left in leaving {
        assert_eq!(left.join().unwrap(), Ok(()));
    }
}

#[test]
fn one_whose_server_is_away_may_leave_again() {
    let world = World::new("away");
    let client = world.join(1);
    let address = world.server.address().clone();
    let snapshot = world.server.monitor().snapshot().unwrap();
    world.server.stop().unwrap();
    assert_eq!(client.within(Duration::from_millis(50)).leave(), Err(ErrorKind::TimedOut.into()));
    let listener = TcpListener::bind(address.to_string()).unwrap();
    let _server = Server::start(listener, MemoryStore::from(snapshot)).unwrap();
    assert_eq!(client.within(LONG).leave(), Ok(()));
}
