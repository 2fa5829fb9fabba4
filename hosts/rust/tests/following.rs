//! Clients that follow a map whose shards are cut, merged and moved.
use krl::error::Unsent;
use krl::store::{KeptShard, MapHome, Snapshot, StoreError};
use krl::{
    AsyncClient, Client, ErrorKind, JoinErrorKind, Leases, Listener, MemoryStore, Mutation,
    Outcome, Reader, Row, Server, Servers, Shard, ShardMap, Value,
};
use std::collections::BTreeMap;
use std::future::Future;
use std::io;
use std::num::NonZeroU64;
use std::path::{Path, PathBuf};
use std::pin::pin;
use std::sync::atomic::{AtomicBool, Ordering};
use std::sync::{Arc, Mutex, mpsc};
use std::task::{Context, Poll, Wake, Waker};
use std::thread::{self, Thread};
use std::time::{Duration, Instant};

/// No wait of a test is longer.
const LONG: Duration = Duration::from_secs(60);

const SHORT: Duration = Duration::from_millis(300);

/// The second shard begins here.
const BOUND: u64 = 100;

/// The servers of a map, which is in a file. All is gone when the test is.
struct World {
    folder: PathBuf,
    map: ShardMap,
    /// By the first keys of their shards.
    servers: BTreeMap<u64, Server>,
    /// How many addresses were used.
    places: u32,
}

impl World {
    /// Two shards, whose rows have these keys.
    fn new(name: &str, keys: impl IntoIterator<Item = u64>) -> World {
        let folder = std::env::temp_dir().join(format!("krl-{}-{name}", std::process::id()));
        std::fs::create_dir_all(&folder).unwrap();
        let at = |place: u32| World::server(&folder, place);
        let map = ShardMap::new(vec![Shard::new(0, at(1)), Shard::new(BOUND, at(2))]).unwrap();
        let map = map.with_version(NonZeroU64::MIN);
        let mut world = World { folder, map, servers: BTreeMap::new(), places: 2 };
        world.publish();
        let rows = keys.into_iter().map(|key| (key, Value::from(key))).collect();
        let (lower, upper) = Snapshot { rows, ..Snapshot::default() }.split(BOUND);
        world.start(0, lower);
        world.start(BOUND, upper);
        world
    }

    fn server(folder: &Path, place: u32) -> Servers {
        format!("unix:{}/{place}", folder.display()).parse().unwrap()
    }

    /// A place at which no server was.
    fn new_place(&mut self) -> Servers {
        self.places += 1;
        World::server(&self.folder, self.places)
    }

    fn map_file(&self) -> PathBuf {
        self.folder.join("map.toml")
    }

    /// The map takes the place of the one before, in one step.
    fn publish(&self) {
        let next = self.folder.join("map.tmp");
        std::fs::write(&next, self.map.to_toml()).unwrap();
        std::fs::rename(next, self.map_file()).unwrap();
    }

    /// Starts the server of the shard that begins with this key, over these rows.
    fn start(&mut self, first: u64, mut rows: Snapshot) {
        let place = self.map.shard_of(first).unwrap();
        rows.shard = self.map.bounds_of(place).map(KeptShard::open);
        let address = self.map.shards()[place].servers.iter().next().unwrap();
        let listener = Listener::bind(address).unwrap();
        self.servers.insert(first, Server::start(listener, MemoryStore::from(rows)).unwrap());
    }

    /// Stops a server when its clients have left, and returns what it has.
    fn stop(&mut self, first: u64) -> Snapshot {
        let server = self.servers.remove(&first).unwrap();
        let has_clients = || !server.monitor().snapshot().unwrap().present().is_empty();
        wait_until(|| !has_clients());
        let snapshot = server.monitor().snapshot().unwrap();
        server.stop().unwrap();
        snapshot
    }

    /// Cuts the shard that begins with `first` at a key, while its clients continue.
    fn split(&mut self, first: u64, at: u64) {
        let upper = self.new_place();
        self.map = self.map.split(at, upper).unwrap();
        self.publish();
        let (below, from) = self.stop(first).split(at);
        self.start(first, below);
        self.start(at, from);
    }

    /// The shard that begins with `at` becomes one with the shard below it.
    fn merge(&mut self, at: u64) {
        let first = self.map.shards()[self.map.shard_of(at).unwrap() - 1].first;
        self.map = self.map.merge(at).unwrap();
        self.publish();
        let (below, from) = (self.stop(first), self.stop(at));
        self.start(first, below.merge(from).unwrap());
    }

    /// The next map, in which the shard that begins with this key is at another place.
    fn publish_move(&mut self, first: u64) {
        let servers = self.new_place();
        self.map = self.map.with_servers(first, servers).unwrap();
        self.publish();
    }

    /// The shard that begins with this key moves.
    fn move_away(&mut self, first: u64) {
        self.publish_move(first);
        let rows = self.stop(first);
        self.start(first, rows);
    }

    /// A client that follows the map.
    fn join(&self, number: u8) -> Client {
        let builder = Client::builder(self.map.clone(), number, &self.folder);
        let client = builder.timeout(LONG).join().unwrap();
        client.follow(self.map_file()).unwrap();
        client
    }

    /// A reader that follows the map in this file.
    fn reader(&self, file: &Path) -> Reader {
        let mut reader = Reader::new(&self.map).with_timeout(LONG);
        reader.follow(file).unwrap();
        reader
    }

    /// The keys of all servers, in the order of the shards.
    fn keys(&self) -> Vec<u64> {
        let rows = |server: &Server| server.monitor().snapshot().unwrap().rows;
        self.servers.values().flat_map(|server| rows(server).into_keys()).collect()
    }
}

impl Drop for World {
    fn drop(&mut self) {
        self.servers.clear();
        let _ = std::fs::remove_dir_all(&self.folder);
    }
}

fn wait_until(is_so: impl Fn() -> bool) {
    let end = Instant::now() + LONG;
    while !is_so() {
        assert!(Instant::now() < end, "it did not come");
        thread::sleep(Duration::from_millis(2));
    }
}

fn version(client: &Client) -> u64 {
    client.map().unwrap().version().unwrap().get()
}

/// Waits until the client has joined all shards. A server that is stopped before is not one that it
/// can leave, and the stores of these tests do not show who came last.
fn has_joined(client: &Client) {
    client.read(..).unwrap();
}

fn keys_of(rows: &[Row]) -> Vec<u64> {
    rows.iter().map(|row| row.key).collect()
}

/// What is done until this value is gone, even if the test fails.
struct Working<'w>(&'w AtomicBool);

impl Drop for Working<'_> {
    fn drop(&mut self) {
        self.0.store(true, Ordering::Relaxed);
    }
}

/// Works until it is over, and once at least.
fn until_over(is_over: &AtomicBool, mut work: impl FnMut(u64)) {
    for turn in 0.. {
        work(turn);
        if is_over.load(Ordering::Relaxed) {
            return;
        }
    }
}

/// Writes rows whose keys are not multiples of 10, and leaves one more each time.
fn write(client: &Client, turn: u64) {
    let (key, value) = (turn % 20 * 10 + 1, Value::from(turn));
    assert_eq!(client.set(key, value), Ok(Outcome::Applied));
    let both = [key, key + 1].map(|key| Mutation::Set(Row { key, value }));
    assert_eq!(client.write_all(both), Ok(vec![Outcome::Applied; 2]));
    assert_eq!(client.delete(key + 1), Ok(Outcome::Applied));
}

/// All rows were read, among which there is always one at each multiple of 10.
fn check(rows: &[Row]) {
    let keys = keys_of(rows);
    assert_eq!(keys.iter().filter(|key| **key % 10 == 0).count(), 20, "{keys:?}");
    assert!(keys.is_sorted_by(|one, next| one < next), "{keys:?}");
}

#[test]
fn calls_are_made_by_each_next_map_and_none_fails() {
    let mut world = World::new("calls", (0..200).step_by(10));
    let (client, other) = (world.join(0), world.join(1));
    let mut reader = world.reader(&world.map_file());
    let is_over = &AtomicBool::new(false);
    let (first, second) = (&client, &other);
    thread::scope(|scope| {
        let working = Working(is_over);
        let work = [
            scope.spawn(move || until_over(is_over, |turn| write(first, turn))),
            scope.spawn(move || until_over(is_over, |_| check(&first.read(..).unwrap()))),
            scope.spawn(move || until_over(is_over, |_| check(&second.read(..).unwrap()))),
            scope.spawn(move || until_over(is_over, |_| check(&second.read_once(..).unwrap()))),
            scope.spawn(move || until_over(is_over, |_| check(&reader.read(..).unwrap()))),
            scope.spawn(move || {
                until_over(is_over, |_| drop(second.pin_for_update(40..60).unwrap()));
            }),
        ];
        let changes: [fn(&mut World); 4] = [
            |world| world.split(0, 50),
            |world| world.move_away(50),
            |world| world.merge(50),
            |world| world.split(BOUND, 150),
        ];
        for (change, next) in changes.into_iter().zip(2..) {
            change(&mut world);
            for client in [first, second] {
                wait_until(|| version(client) == next);
                has_joined(client);
            }
        }
        drop(working);
        for work in work {
            work.join().unwrap();
        }
    });
    let keys = world.keys();
    assert!(keys.is_sorted_by(|one, next| one < next), "{keys:?}");
    assert_eq!(keys_of(&client.read(..).unwrap()), keys);
}

/// For longer than a client that joins waits for a server that is not there.
#[test]
fn reads_that_are_not_kept_wait_for_the_server_of_the_next_map() {
    let mut world = World::new("not-kept", [10, 150]);
    let (client, mut reader) = (world.join(0), world.reader(&world.map_file()));
    reader.connect(..).unwrap();
    world.publish_move(0);
    let rows = world.stop(0);
    wait_until(|| version(&client) == 2);
    thread::scope(|scope| {
        let reads = [
            scope.spawn(|| client.read_once(..).unwrap()),
            scope.spawn(|| reader.read(..).unwrap()),
        ];
        thread::sleep(Duration::from_secs(2));
        world.start(0, rows);
        for read in reads {
            assert_eq!(keys_of(&read.join().unwrap()), [10, 150]);
        }
    });
}

/// For longer than a client waits where nothing listens: the old server serves the whole shard yet,
/// and that of the upper half is about to start.
#[test]
fn one_that_starts_while_its_shard_changes_waits_for_the_servers() {
    let mut world = World::new("starts", [10, 60, 150]);
    let upper = world.new_place();
    world.map = world.map.split(50, upper).unwrap();
    let (map, folder) = (world.map.clone(), world.folder.clone());
    let mut reader = Reader::new(&map).with_timeout(LONG);
    thread::scope(|scope| {
        let builder = Client::builder(map, 0, folder).timeout(LONG);
        let joins = scope.spawn(|| builder.join().unwrap());
        let connects = scope.spawn(|| reader.connect(..).unwrap());
        thread::sleep(Duration::from_secs(2));
        let (below, from) = world.stop(0).split(50);
        world.start(0, below);
        world.start(50, from);
        assert_eq!(keys_of(&joins.join().unwrap().read(..).unwrap()), [10, 60, 150]);
        connects.join().unwrap();
    });
}

/// The change by which the process starts is taken back.
#[test]
fn one_that_joins_continues_by_the_next_map_of_its_file() {
    let mut world = World::new("taken-back", [10, 150]);
    let old = world.map.shards()[0].servers.clone();
    world.publish_move(0);
    let map = ShardMap::from_file(world.map_file()).unwrap();
    let builder = Client::builder(map, 0, world.folder.clone()).timeout(Duration::from_secs(20));
    thread::scope(|scope| {
        let joins = scope.spawn(|| builder.join().unwrap());
        thread::sleep(SHORT);
        let rows = world.stop(0);
        world.map = world.map.with_servers(0, old).unwrap();
        world.start(0, rows);
        world.publish();
        let client = joins.join().unwrap();
        assert_eq!((version(&client), keys_of(&client.read(..).unwrap())), (3, vec![10, 150]));
    });
}

#[test]
fn one_with_a_wrong_map_learns_at_its_deadline_what_is_wrong() {
    let world = World::new("wrong", [10, 150]);
    let elsewhere = world.map.with_servers(0, World::server(&world.folder, 9)).unwrap();
    let of_another = world.map.merge(BOUND).unwrap();
    let time = Duration::from_millis(1500);
    let why = |map: &ShardMap| {
        let begun = Instant::now();
        let join = Client::builder(map, 0, &world.folder).timeout(time).join();
        let connect = Reader::new(map).with_timeout(time).connect(..);
        assert!(begun.elapsed() > time);
        let errors = (join.unwrap_err(), connect.unwrap_err());
        assert_eq!(errors.0.kind.to_string(), errors.1.kind.to_string());
        errors.0.kind
    };
    let nothing = why(&elsewhere);
    assert!(matches!(nothing, JoinErrorKind::NothingListens { .. }), "{nothing}");
    let other = why(&of_another);
    assert!(matches!(other, JoinErrorKind::OtherShard(_)), "{other}");
}

/// The lower half is where the whole was.
#[test]
fn a_reader_waits_for_the_next_map_where_it_comes_late() {
    let mut world = World::new("late", [10, 60, 150]);
    let late = world.folder.join("late.toml");
    std::fs::copy(world.map_file(), &late).unwrap();
    let mut reader = world.reader(&late);
    reader.connect(..).unwrap();
    world.split(0, 50);
    thread::scope(|scope| {
        let read = scope.spawn(|| reader.read(..).unwrap());
        thread::sleep(SHORT);
        std::fs::copy(world.map_file(), world.folder.join("next.toml")).unwrap();
        std::fs::rename(world.folder.join("next.toml"), &late).unwrap();
        assert_eq!(keys_of(&read.join().unwrap()), [10, 60, 150]);
    });
}

#[test]
fn a_shard_that_does_not_change_keeps_its_connection_and_its_cache() {
    let mut world = World::new("kept", [10, 150]);
    let client = world.join(0);
    client.read(..).unwrap();
    let before = client.status()[1].clone();
    let (rows, pin) = client.pin_for_update(BOUND..200).unwrap();
    let moved = client.pin_for_read(0..50).unwrap().1;
    thread::scope(|scope| {
        let moving = scope.spawn(|| {
            world.move_away(0);
            world
        });
        while !moving.is_finished() {
            assert_eq!(client.cached(BOUND..200), Ok(Some(rows.clone())));
            assert_eq!(pin.put(150, Value::from(150)), Ok(Outcome::Applied));
        }
        wait_until(|| version(&client) == 2);
        let after = client.status()[1].clone();
        assert_eq!((after.incarnation, after.epoch), (before.incarnation, before.epoch));
        assert!(pin.holds() && !moved.holds());
        let void = moved.put(10, Value::from(1)).unwrap_err();
        assert_eq!(void.kind, ErrorKind::PinIsVoid);
        assert_eq!(client.read(..).unwrap().len(), 2);
        moving.join().unwrap();
    });
}

#[test]
fn no_tenure_is_one_of_an_earlier_map() {
    let mut world = World::new("tenures", [10, 60, 150]);
    let client = world.join(0);
    let tenure = || {
        client.read(0..BOUND).unwrap();
        client.tenure(0..BOUND).unwrap().unwrap()
    };
    let mut tenures = vec![tenure()];
    for turn in 0..3 {
        world.split(0, 50);
        wait_until(|| version(&client) == 2 * turn + 2);
        tenures.push(tenure());
        world.merge(50);
        wait_until(|| version(&client) == 2 * turn + 3);
        tenures.push(tenure());
        assert_eq!(client.held_since(&[(0..BOUND, tenures[0])]), Ok(vec![false]));
    }
    let numbers: Vec<u64> = tenures.into_iter().map(u64::from).collect();
    assert!(numbers.is_sorted_by(|one, next| one < next), "{numbers:?}");
}

/// Its server may still be asked for keys that it no longer has.
#[test]
fn an_older_map_is_passed_over_and_so_is_what_is_no_map() {
    let mut world = World::new("older", [10, 150]);
    let (client, old) = (world.join(0), std::fs::read(world.map_file()).unwrap());
    world.split(0, 50);
    wait_until(|| version(&client) == 2);
    for text in [&old[..], b"version = 9"] {
        std::fs::write(world.map_file(), text).unwrap();
        thread::sleep(SHORT);
        assert_eq!(version(&client), 2);
    }
    std::fs::remove_file(world.map_file()).unwrap();
    world.move_away(50);
    wait_until(|| version(&client) == 3);
    assert_eq!(client.read(..).unwrap().len(), 2);
}

#[test]
fn a_call_at_a_shard_that_changes_ends_at_its_deadline() {
    let mut world = World::new("deadline", [10, 150]);
    let client = world.join(0);
    world.publish_move(0);
    let _rows = world.stop(0);
    let within = client.within(SHORT);
    assert_eq!(within.read(0..50).unwrap_err().kind, ErrorKind::TimedOut);
    assert_eq!(within.read_once(0..50).unwrap_err().kind, ErrorKind::TimedOut);
    let late = ErrorKind::NotSent(Unsent::TimedOut);
    assert_eq!(within.put(10, Value::from(1)).unwrap_err().kind, late);
    assert_eq!(client.put(150, Value::from(1)), Ok(Outcome::Applied));
    let task = AsyncClient::from(within);
    assert_eq!(block_on(task.read(0..50)).unwrap_err().kind, ErrorKind::TimedOut);
}

#[test]
fn a_task_waits_for_the_next_map_too() {
    let mut world = World::new("task", [10, 60, 150]);
    let client = AsyncClient::from(world.join(0));
    thread::scope(|scope| {
        let calls = scope.spawn(|| {
            block_on(async {
                for turn in 0.. {
                    assert_eq!(client.set(60, Value::from(turn)).await, Ok(Outcome::Applied));
                    assert_eq!(client.read(0..BOUND).await.unwrap().len(), 2);
                    if version(client.client()) == 3 {
                        return;
                    }
                }
            });
        });
        world.split(0, 50);
        wait_until(|| version(client.client()) == 2);
        has_joined(client.client());
        world.merge(50);
        calls.join().unwrap();
    });
}

#[test]
fn a_client_that_is_dropped_while_its_map_changes_may_join_again() {
    let mut world = World::new("dropped", [10, 150]);
    for pause in [0, 50, 60, 100] {
        let client = world.join(0);
        world.publish_move(0);
        thread::sleep(Duration::from_millis(pause));
        drop(client);
        let rows = world.stop(0);
        world.start(0, rows);
        drop(world.join(0));
    }
}

#[test]
fn a_program_may_hand_over_each_next_map_itself() {
    let mut world = World::new("handed", [10, 150]);
    let first = world.map.clone();
    let client = Client::builder(first.clone(), 0, &world.folder).timeout(LONG).join().unwrap();
    world.publish_move(0);
    client.change_map(world.map.clone()).unwrap();
    let rows = world.stop(0);
    world.start(0, rows);
    assert_eq!(client.read(..).unwrap().len(), 2);
    client.change_map(first).unwrap();
    assert_eq!(client.map(), Some(world.map.clone()));
}

/// A map that a program keeps in its memory. At first it can't be read.
struct KeptMap(Arc<Mutex<Option<String>>>);

impl MapHome for KeptMap {
    fn read(&mut self) -> Result<Option<String>, StoreError> {
        self.0.lock().unwrap().clone().map(Some).ok_or(StoreError::failed("it is not there yet"))
    }

    fn replace(&mut self, _: Option<&str>, _: &str) -> Result<bool, StoreError> {
        Ok(false)
    }

    fn wait(&mut self, _: Duration) {
        thread::sleep(Duration::from_millis(2));
    }
}

#[test]
fn a_map_is_followed_at_any_home() {
    let mut world = World::new("home", [10, 150]);
    let client = Client::builder(world.map.clone(), 0, &world.folder).timeout(LONG).join().unwrap();
    let kept = Arc::default();
    client.follow_at(KeptMap(Arc::clone(&kept))).unwrap();
    for next in [2, 3] {
        world.publish_move(0);
        *kept.lock().unwrap() = Some(world.map.to_toml());
        wait_until(|| version(&client) == next);
        let rows = world.stop(0);
        world.start(0, rows);
        assert_eq!(client.read(..).unwrap().len(), 2);
    }
    drop(client);
    wait_until(|| Arc::strong_count(&kept) == 1);
}

/// A call in a task has no thread that could wait for its deadline.
#[test]
fn a_task_gives_up_at_its_deadline_while_the_next_map_cannot_be_followed() {
    let mut world = World::new("given-up", [10, 150]);
    let client = Client::builder(world.map.clone(), 0, &world.folder).timeout(LONG).join().unwrap();
    let place = world.new_place();
    let next = world.map.split(50, place).unwrap();
    std::fs::create_dir(world.folder.join("shard-50-client-0.lock")).unwrap();
    client.change_map(next).unwrap_err();
    let late = client.within(SHORT).read(10..20).unwrap_err();
    assert_eq!(late.kind, ErrorKind::TimedOut);
    let task = AsyncClient::from(client.within(SHORT));
    let (done, ended) = mpsc::channel();
    thread::spawn(move || done.send(block_on(task.read(10..20)).map_err(|error| error.kind)));
    assert_eq!(ended.recv_timeout(LONG / 2), Ok(Err(ErrorKind::TimedOut)));
}

/// A client that does not follow the map keeps a change waiting no longer than its lease.
#[test]
fn a_server_that_gives_way_evicts_who_stays_and_reports_the_next_shard() {
    let shard = "0..@1".parse().unwrap();
    let listener = Listener::bind(&"127.0.0.1:0".parse().unwrap()).unwrap();
    let builder = Server::builder(listener, MemoryStore::default()).shard(shard);
    let server = builder.leases(Leases::of(Duration::from_millis(500)).unwrap()).start().unwrap();
    let folder = std::env::temp_dir().join(format!("krl-{}-gives-way", std::process::id()));
    std::fs::create_dir_all(&folder).unwrap();
    let map = ShardMap::new(vec![Shard::new(0, server.address())]).unwrap();
    let map = map.with_version(NonZeroU64::MIN);
    let client = Client::builder(map, 0, &folder).timeout(LONG).join().unwrap();
    assert_eq!(client.insert(1, Value::from(1)), Ok(Outcome::Applied));
    let monitor = server.monitor();
    let next = Some("0..50@2".parse().unwrap());
    assert!(monitor.give_way(next));
    wait_until(|| monitor.snapshot().unwrap().present().is_empty());
    wait_until(|| client.cached(..) == Ok(None));
    match client.within(SHORT).read(..).unwrap_err().kind {
        ErrorKind::OtherShard(other) => {
            assert_eq!((other.expected, other.served), (Some(shard), next));
        }
        other => panic!("{other}"),
    }
    assert!(monitor.give_way(None));
    wait_until(|| client.read(..).is_ok_and(|rows| rows.len() == 1));
    drop(client);
    std::fs::remove_dir_all(folder).unwrap();
}

#[test]
fn only_a_client_of_a_map_with_a_version_follows_one() {
    let world = World::new("versions", [10]);
    let server = Listener::bind(&"127.0.0.1:0".parse().unwrap()).unwrap();
    let server = Server::start(server, MemoryStore::default()).unwrap();
    let refused = |client: &Client| client.follow(world.map_file()).unwrap_err().kind();
    let client = Client::join(server.address(), 1, world.folder.join("client-1.lock")).unwrap();
    assert_eq!(refused(&client), io::ErrorKind::InvalidInput);
    let reader = Reader::new(server.address()).follow(world.map_file()).unwrap_err();
    assert_eq!(reader.kind(), io::ErrorKind::InvalidInput);
    let why = client.change_map(world.map.clone()).unwrap_err().kind;
    assert!(matches!(why, JoinErrorKind::Incomplete("a map with a version")), "{why}");
    client.leave().unwrap();
    let map = ShardMap::new(vec![Shard::new(0, server.address())]).unwrap();
    let client = Client::join(map, 2, &world.folder).unwrap();
    assert_eq!(refused(&client), io::ErrorKind::InvalidInput);
}

struct Unpark(Thread);

impl Wake for Unpark {
    fn wake(self: Arc<Unpark>) {
        self.0.unpark();
    }
}

/// Runs a future on this thread, which sleeps until it is woken.
fn block_on<T>(future: impl Future<Output = T>) -> T {
    let (waker, mut future) = (Waker::from(Arc::new(Unpark(thread::current()))), pin!(future));
    loop {
        match future.as_mut().poll(&mut Context::from_waker(&waker)) {
            Poll::Ready(value) => return value,
            Poll::Pending => thread::park(),
        }
    }
}
