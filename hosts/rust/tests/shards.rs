//! A client of two servers, each with a part of the keys.
use krl::error::{LockFileError, Unsent};
use krl::{
    Client, Error, ErrorKind, JoinErrorKind, Listener, MemoryStore, Outcome, Row, Server, Shard,
    ShardMap, Value, Waited,
};
use std::path::PathBuf;
use std::thread;
use std::time::{Duration, Instant};

const SHORT: Duration = Duration::from_millis(300);

/// No wait of a test is longer.
const LONG: Duration = Duration::from_secs(60);

/// The second shard begins here.
const BOUND: u64 = 100;

/// Two servers, and a folder that is gone when the test is.
struct World {
    servers: Vec<Server>,
    map: ShardMap,
    folder: PathBuf,
}

impl World {
    fn new(name: &str) -> World {
        World::of(name, &[0, BOUND])
    }

    /// A server for each of these shards, which begin at these keys.
    fn of(name: &str, first_keys: &[u64]) -> World {
        let folder = std::env::temp_dir().join(format!("krl-shards-{}-{name}", std::process::id()));
        std::fs::create_dir_all(&folder).unwrap();
        let start = |_| {
            let listener = Listener::bind(&"127.0.0.1:0".parse().unwrap()).unwrap();
            Server::start(listener, MemoryStore::default()).unwrap()
        };
        let servers: Vec<Server> = first_keys.iter().map(start).collect();
        let shard = |(&first, server): (&u64, &Server)| Shard::new(first, server.address());
        let map = ShardMap::new(first_keys.iter().zip(&servers).map(shard).collect());
        World { map: map.unwrap(), servers, folder }
    }

    fn join(&self, number: u8) -> Client {
        let builder = Client::builder(self.map.clone(), number, &self.folder);
        builder.timeout(LONG).join().unwrap()
    }

    /// A client of only one shard.
    fn join_one(&self, shard: usize, number: u8) -> Client {
        let lock_file = self.folder.join(format!("client-{number}.lock"));
        let servers = self.map.shards()[shard].servers.clone();
        Client::builder(servers, number, lock_file).timeout(LONG).join().unwrap()
    }

    /// Makes rows by a client that then leaves: one that stays would hold them to change them.
    fn insert_rows(&self, keys: impl IntoIterator<Item = u64>) {
        let client = self.join(0);
        for key in keys {
            assert_eq!(client.insert(key, Value::from(key)), Ok(Outcome::Applied));
        }
        client.leave().unwrap();
    }
}

impl Drop for World {
    fn drop(&mut self) {
        let _ = std::fs::remove_dir_all(&self.folder);
    }
}

fn row(key: u64, value: u64) -> Row {
    Row { key, value: Value::from(value) }
}

#[test]
fn calls_go_to_the_shards_that_have_the_keys() {
    let world = World::new("calls");
    world.insert_rows([10, 99, 100, 300]);
    let client = world.join(1);
    assert_eq!(client.cached(0..400), Ok(None));
    let all = [row(10, 10), row(99, 99), row(100, 100), row(300, 300)];
    assert_eq!(client.read(..), Ok(all.to_vec()));
    assert_eq!(client.cached(50..=100), Ok(Some(all[1..3].to_vec())));
    let mut keys = Vec::new();
    assert!(client.for_each_cached(.., |row| keys.push(row.key)).unwrap());
    assert_eq!(keys, [10, 99, 100, 300]);
    assert_eq!((client.cached(7..7), client.read(7..7)), (Ok(Some(vec![])), Ok(vec![])));
    assert_eq!(client.put(99, Value::from(1)), Ok(Outcome::Applied));
    assert_eq!(client.put(101, Value::from(1)), Ok(Outcome::Absent));
    assert_eq!(client.insert(100, Value::from(1)), Ok(Outcome::Exists));
    assert_eq!(client.delete(100), Ok(Outcome::Applied));
    assert_eq!(client.read(90..400), Ok(vec![row(99, 1), row(300, 300)]));
    // Each server has the keys of its shard only.
    let counts = world.servers.iter().map(|server| server.monitor().snapshot().unwrap().rows.len());
    assert_eq!(counts.collect::<Vec<_>>(), [2, 1]);
    assert_eq!(client.forget(..), Ok(()));
    assert_eq!((client.cached(10..11), client.cached(300..301)), (Ok(None), Ok(None)));
    client.leave().unwrap();
}

#[test]
fn a_delete_of_the_last_key_of_a_shard_stays_in_the_shard() {
    let world = World::new("bound");
    world.insert_rows([99, 100]);
    let client = world.join(1);
    assert_eq!(client.delete(99), Ok(Outcome::Applied));
    assert_eq!(client.read(..), Ok(vec![row(100, 100)]));
    assert_eq!(client.insert(99, Value::from(5)), Ok(Outcome::Applied));
    assert_eq!(client.cached(99..100), Ok(Some(vec![row(99, 5)])));
}

#[test]
fn errors_name_the_shard() {
    let mut world = World::new("errors");
    world.insert_rows([10, 300]);
    let client = world.join(1);
    assert_eq!(client.read(..=u64::MAX), Err(ErrorKind::BadRange.into()));
    assert_eq!(client.put(u64::MAX, Value::from(1)), Err(ErrorKind::BadKey.into()));
    assert_eq!(client.pin(5..5).map(drop), Err(ErrorKind::BadRange.into()));
    assert_eq!(client.read(0..50).unwrap().len(), 1);
    assert!(client.status().iter().all(|shard| shard.epoch == Ok(1) && shard.is_connected));
    world.servers.pop().unwrap().stop().unwrap();
    client.set_timeout(SHORT);
    let refused = client.read(0..400).unwrap_err();
    assert_eq!((refused.shard, refused.kind), (Some(1), ErrorKind::TimedOut));
    assert!(refused.to_string().starts_with("shard 1: no answer came in time: "), "{refused}");
    // The other shard continues, and so do the caches.
    assert_eq!(client.cached(0..50), Ok(Some(vec![row(10, 10)])));
    assert_eq!(client.put(10, Value::from(1)), Ok(Outcome::Applied));
    let refused = client.put(300, Value::from(1)).unwrap_err();
    assert_eq!(refused.shard, Some(1));
    let begun = Instant::now();
    assert_eq!(client.leave().unwrap_err().shard, Some(1));
    assert!(begun.elapsed() < LONG);
}

#[test]
fn a_client_of_some_keys_joins_only_their_shards() {
    let mut world = World::new("keys");
    world.insert_rows([10, 300]);
    world.servers.remove(0).stop().unwrap();
    let builder = Client::builder(world.map.clone(), 1, &world.folder).timeout(LONG);
    let client = builder.keys(200..301).join().unwrap();
    assert_eq!(client.read(BOUND..), Ok(vec![row(300, 300)]));
    assert_eq!(client.cached(200..), Ok(Some(vec![row(300, 300)])));
    assert_eq!(client.put(300, Value::from(1)), Ok(Outcome::Applied));
    assert_eq!(client.status().len(), 1);
    assert_eq!(client.read(99..), Err(ErrorKind::BadRange.into()));
    assert_eq!(client.forget(..), Err(ErrorKind::BadRange.into()));
    assert_eq!(client.pin(0..5).map(drop), Err(ErrorKind::BadRange.into()));
    assert_eq!(client.cached(0..5), Err(ErrorKind::BadRange.into()));
    assert_eq!(client.put(99, Value::from(1)), Err(ErrorKind::BadKey.into()));
    client.leave().unwrap();
    let builder = Client::builder(world.map.clone(), 1, &world.folder);
    let error = builder.keys(5..5).join().unwrap_err();
    assert!(matches!(error.kind, JoinErrorKind::Incomplete(_)), "{error}");
}

#[test]
fn a_number_that_is_taken_at_one_shard_is_not_joined() {
    let world = World::new("number");
    let first = world.join(1);
    let error = Client::join(world.map.clone(), 1, &world.folder).unwrap_err();
    assert_eq!((error.number, error.shard), (Some(1), Some(0)));
    let is_taken =
        matches!(error.kind, JoinErrorKind::LockFile { error: LockFileError::Taken, .. });
    assert!(is_taken, "{error:?}");
    first.leave().unwrap();
    world.join(1).leave().unwrap();
    let none = Client::builder_with_numbers(world.map.clone(), [], &world.folder);
    let incomplete = none.join().unwrap_err();
    assert!(matches!(incomplete.kind, JoinErrorKind::Incomplete("a number")), "{incomplete}");
    assert_eq!((incomplete.number, incomplete.shard), (None, None));
}

#[test]
fn a_thread_that_waits_is_woken_by_a_change_at_any_shard() {
    let world = World::new("woken");
    world.insert_rows([10, 300]);
    let (watcher, writer) = (world.join(1), world.join(2));
    for (key, value) in [(10, 1), (300, 1), (300, 2), (10, 2)] {
        let (rows, begun) = (watcher.read(..).unwrap(), Instant::now());
        let short = Duration::from_millis(20);
        assert_eq!(watcher.wait_for_change(.., &rows, short), Ok(Waited::Unchanged));
        thread::scope(|scope| {
            let waiting = scope.spawn(|| watcher.wait_for_change(.., &rows, 3 * LONG));
            assert_eq!(writer.put(key, Value::from(value)), Ok(Outcome::Applied));
            assert_eq!(waiting.join().unwrap(), Ok(Waited::Changed));
        });
        assert!(begun.elapsed() < 3 * LONG, "nobody woke the thread: {key}");
    }
}

/// One that did not send Bye would keep others waiting for what it has written.
#[test]
fn a_client_that_is_dropped_leaves_each_shard() {
    let mut world = World::new("dropped");
    world.insert_rows([10, 300]);
    let other = world.join(2);
    let join_and_write = || {
        let client = world.join(1);
        for key in [10, 300] {
            assert_eq!(client.put(key, Value::from(1)), Ok(Outcome::Applied));
        }
        client
    };
    let client = join_and_write();
    let (_, pin) = client.pin_for_read(0..400).unwrap();
    drop(client);
    assert!(pin.holds(), "a pin keeps its client");
    drop(pin);
    for key in [10, 300] {
        assert_eq!(other.put(key, Value::from(2)), Ok(Outcome::Applied));
    }
    // A server that is down does not keep it from leaving another one.
    let client = join_and_write();
    world.servers.remove(0).stop().unwrap();
    drop(client);
    assert_eq!(other.put(300, Value::from(3)), Ok(Outcome::Applied));
}

/// Otherwise a program would take the longer to end the more servers are down.
#[test]
fn a_client_that_is_dropped_leaves_all_shards_at_once() {
    let first_keys: Vec<u64> = (0..16).map(|shard| shard * BOUND).collect();
    let mut world = World::of("at-once", &first_keys);
    let client = world.join(1);
    world.servers.drain(..).for_each(|server| server.stop().unwrap());
    let begun = Instant::now();
    drop(client);
    // It waits for a second for the servers, not for a second for each of them.
    assert!(begun.elapsed() < Duration::from_secs(8), "{:?}", begun.elapsed());
}

#[test]
fn a_range_that_is_pinned_does_not_change_at_any_shard() {
    let world = World::new("pins");
    world.insert_rows([10, 300]);
    let (client, writer) = (world.join(1), world.join(2));
    let (rows, pin) = client.pin_for_update(0..400).unwrap();
    assert_eq!(rows, [row(10, 10), row(300, 300)]);
    writer.set_timeout(SHORT);
    for key in [10, 300] {
        assert_eq!(
            writer.put(key, Value::from(1)).unwrap_err().kind,
            ErrorKind::NotSent(Unsent::TimedOut)
        );
    }
    drop(pin);
    writer.set_timeout(LONG);
    for key in [10, 300] {
        assert_eq!(writer.put(key, Value::from(1)), Ok(Outcome::Applied));
    }
    let pin = client.pin(0..400).unwrap();
    assert_eq!(client.cached(..), Ok(Some(vec![row(10, 1), row(300, 1)])));
    assert_eq!(client.forget(..).unwrap_err().kind, ErrorKind::Pinned);
    drop(pin);
}

#[test]
fn a_write_is_bound_to_the_pin_at_the_shard_of_its_key() {
    let world = World::new("bound_writes");
    world.insert_rows([10, 300]);
    let client = world.join(1);
    let (_, pin) = client.pin_for_update(0..400).unwrap();
    assert_eq!(pin.put(10, Value::from(1)), Ok(Outcome::Applied));
    assert_eq!(pin.insert(200, Value::from(2)), Ok(Outcome::Applied));
    assert_eq!(pin.delete(300), Ok(Outcome::Applied));
    drop(pin);
    let (rows, pin) = client.pin_for_update(0..50).unwrap();
    assert_eq!(rows, [row(10, 1)]);
    assert_eq!(pin.put(200, Value::from(3)).unwrap_err().kind, ErrorKind::PinIsVoid);
    assert_eq!(client.read(0..400), Ok(vec![row(10, 1), row(200, 2)]));
}

#[test]
fn a_call_waits_for_a_time_of_its_own() {
    let world = World::new("within");
    // The gap after the pinned range ends here.
    world.insert_rows([150]);
    let (client, other) = (world.join(0), world.join(1));
    assert_eq!((client.number(), other.number()), (0, 1));
    let (_, pin) = client.pin_for_write(90..110).unwrap();
    let (_, pinned) = other.pin_for_read(200..210).unwrap();
    let (begun, short) = (Instant::now(), SHORT);
    let why = |refused: Error| (refused.kind, refused.shard);
    let within = other.within(short);
    assert_eq!(within.read(100..101).map_err(why), Err((ErrorKind::TimedOut, Some(1))));
    assert_eq!(
        within.set(99, Value::from(1)).map_err(why),
        Err((ErrorKind::NotSent(Unsent::TimedOut), Some(0)))
    );
    assert_eq!(
        within.pin_for_update(99..101).map_err(why).err(),
        Some((ErrorKind::TimedOut, Some(0)))
    );
    let (own, value) = (pinned.within(short), Value::from(1));
    assert_eq!(
        own.insert(100, value).map_err(why),
        Err((ErrorKind::NotSent(Unsent::TimedOut), Some(1)))
    );
    assert_eq!(own.put(99, value).map_err(why), Err((ErrorKind::PinIsVoid, Some(0))));
    assert!(begun.elapsed() < other.timeout(), "it waited as its other calls do");
    drop(pin);
    assert_eq!(other.within(Duration::MAX).set(100, Value::from(2)), Ok(Outcome::Applied));
    // What `within` has returned is a clone of the pin.
    drop((pinned, own));
    assert_eq!(other.within(LONG).forget(..), Ok(()));
}

/// What a client has pinned gives way after half a second. A write that had to wait for that takes
/// longer than this.
const AT_ONCE: Duration = Duration::from_millis(450);

/// How long a write of the second part takes while a client waits for the first one in this call.
fn time_of_a_write(world: &World, call: fn(&Client) -> Result<Vec<Row>, Error>) -> Duration {
    let client = world.join(1);
    // It has the second part, and another client has pinned the first one to write it.
    client.read(BOUND..400).unwrap();
    let (left, right) = (world.join_one(0, 2), world.join_one(1, 3));
    let held = left.pin(0..50).unwrap();
    assert_eq!(left.put(10, Value::from(1)), Ok(Outcome::Applied));
    let taken = thread::scope(|scope| {
        let waiting = scope.spawn(|| call(&client));
        let server = &world.servers[0];
        let waits = || server.status().waits.iter().any(|wait| wait.client == 1);
        assert!(is_so_soon(waits), "nobody waits");
        // Time for a read to begin to take its parts.
        thread::sleep(SHORT);
        let begun = Instant::now();
        assert_eq!(right.put(300, Value::from(2)), Ok(Outcome::Applied));
        let taken = begun.elapsed();
        assert!(!waiting.is_finished());
        drop(held);
        assert_eq!(waiting.join().unwrap(), Ok(vec![row(10, 1), row(300, 2)]));
        taken
    });
    for client in [left, right, client] {
        client.leave().unwrap();
    }
    taken
}

/// A client that waits for a point has pinned nothing from there on: so no client that has that
/// point waits for this one. On a busy machine some writes take long by themselves, and not all.
#[test]
fn a_client_that_waits_keeps_nothing_that_comes_after() {
    let world = World::new("waits");
    world.insert_rows([10, 300]);
    for call in [
        |client: &Client| client.read(0..400),
        |client: &Client| client.pin_for_read(0..400).map(|(rows, _)| rows),
        |client: &Client| client.pin_for_update(0..400).map(|(rows, _)| rows),
        |client: &Client| client.pin(0..400).and_then(|_| client.read(0..400)),
    ] {
        assert!((0..6).any(|_| time_of_a_write(&world, call) < AT_ONCE));
    }
}

/// Client 2 has the first part of a range, and waits for the second one after client 3, who waits for
/// client 1, who has pinned both, and waits for the first part to write there.
#[test]
fn a_part_of_a_range_gives_way_to_a_client_that_has_pinned_the_rest() {
    let world = World::new("gives-way");
    world.insert_rows([10, 90, 300]);
    let [updater, reader] = [1, 2].map(|number| world.join(number));
    let (left, right) = (world.join_one(0, 4), world.join_one(1, 3));
    let (_, pin) = updater.pin_for_update(60..400).unwrap();
    let waits = |shard: usize, client| {
        let waits = || world.servers[shard].status().waits.iter().any(|wait| wait.client == client);
        assert!(is_so_soon(waits), "client {client} does not wait");
    };
    reader.read(BOUND..400).unwrap();
    let first = left.pin(0..50).unwrap();
    assert_eq!(left.put(10, Value::from(1)), Ok(Outcome::Applied));
    thread::scope(|scope| {
        let reading = scope.spawn(|| reader.read(0..400));
        waits(0, 2);
        let writing = scope.spawn(|| right.put(300, Value::from(2)));
        waits(1, 3);
        drop(first);
        waits(1, 2);
        assert_eq!(pin.delete(90), Ok(Outcome::Applied));
        drop(pin);
        assert_eq!(writing.join().unwrap(), Ok(Outcome::Applied));
        assert_eq!(reading.join().unwrap(), Ok(vec![row(10, 1), row(300, 2)]));
    });
}

fn is_so_soon(is_so: impl Fn() -> bool) -> bool {
    let end = Instant::now() + LONG;
    while !is_so() {
        if Instant::now() > end {
            return false;
        }
        thread::sleep(Duration::from_millis(2));
    }
    true
}
