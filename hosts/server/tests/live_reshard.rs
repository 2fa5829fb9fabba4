//! Shards that are cut, merged and moved by one command, while clients write and read.
mod common;
mod shard_world;

use common::{errors, killer, program, text};
use krl::store::Snapshot;
use krl::{Client, Outcome, ShardMap, Value};
use krl_testing::cluster::Cluster;
use krl_testing::database::Database;
use shard_world::{Engine, World, refused, run};
use std::collections::BTreeSet;
use std::fs;
use std::os::unix::process::ExitStatusExt;
use std::process::{Child, Command, Stdio};
use std::sync::atomic::{AtomicBool, Ordering};
use std::thread;

static FILES: Engine = Engine::Files;

fn postgres() -> Option<Engine> {
    Database::start().map(Engine::Postgres)
}

fn etcd() -> Option<Engine> {
    Cluster::start().map(Engine::Etcd)
}

/// What is done until this value is gone, even if the test fails.
struct Working<'w>(&'w AtomicBool);

impl Drop for Working<'_> {
    fn drop(&mut self) {
        self.0.store(true, Ordering::Relaxed);
    }
}

/// Writes and reads until it is over, and no call fails. Returns the keys that were inserted.
fn work(client: &Client, first: u64, is_over: &AtomicBool) -> BTreeSet<u64> {
    let mut inserted = BTreeSet::new();
    for turn in 0.. {
        if is_over.load(Ordering::Relaxed) {
            break;
        }
        let key = (turn * 37) % 1000 * 10 + first;
        if client.insert(key, Value::from(turn)).unwrap() == Outcome::Applied {
            inserted.insert(key);
        }
        let rows = client.read(..).unwrap();
        assert!(inserted.iter().all(|key| rows.binary_search_by_key(key, |row| row.key).is_ok()));
    }
    inserted
}

/// Cuts, moves and merges shards of a table, whose clients notice nothing.
fn grows_shrinks_and_moves(engine: &Engine) {
    let mut world = World::new(engine, (0..1000).map(|key| key * 10));
    let clients = [1, 2].map(|number| world.join(number));
    let is_over = &AtomicBool::new(false);
    let inserted: Vec<u64> = thread::scope(|scope| {
        let working = Working(is_over);
        let workers: Vec<_> = (1..)
            .zip(&clients)
            .map(|(first, client)| scope.spawn(move || work(client, first, is_over)))
            .collect();
        let done = run(&mut world.split("a", 5000, "b"));
        assert_eq!(text(&done), "map.toml: version 2 is served\n");
        run(&mut world.split("b", 8000, "c"));
        run(&mut world.move_away("b", 5000, "d"));
        run(&mut world.merge(["a", "d"], 5000, "e"));
        drop(working);
        workers.into_iter().flat_map(|worker| worker.join().unwrap()).collect()
    });
    assert_eq!(world.version(), 5);
    let expected: BTreeSet<u64> = (0..1000).map(|key| key * 10).chain(inserted).collect();
    let read: BTreeSet<u64> = clients[0].read(..).unwrap().iter().map(|row| row.key).collect();
    assert_eq!(read, expected);
    drop(clients);
    // Each is done, and is repeated without a change.
    run(&mut world.merge(["a", "d"], 5000, "e"));
    world.stop_all();
    assert_eq!(world.keys(), expected);
    let kept = ["0..5000@5 sealed", "5000..8000@4 sealed", "8000..@3", "5000..8000@5 sealed"];
    assert_eq!(world.kept(&["a", "b", "c", "d", "e"]), [&kept[..], &["0..8000@5"]].concat());
}

#[test]
fn a_table_grows_shrinks_and_moves_while_its_clients_continue() {
    grows_shrinks_and_moves(&FILES);
}

#[test]
fn so_does_a_table_in_postgresql() {
    let Some(engine) = postgres() else { return };
    grows_shrinks_and_moves(&engine);
}

#[test]
fn so_does_a_table_in_etcd() {
    let Some(engine) = etcd() else { return };
    grows_shrinks_and_moves(&engine);
}

#[test]
fn a_shard_moves_from_a_file_to_a_database_and_back() {
    let [Some(postgres), Some(etcd)] = [postgres(), etcd()] else { return };
    let mut world = World::new(&FILES, [10, 20]);
    world.put_store("b", &postgres.place("b"));
    world.put_store("c", &etcd.place("c"));
    let client = world.join(1);
    for (old, new) in [("a", "b"), ("b", "c"), ("c", "d")] {
        run(&mut world.move_away(old, 0, new));
        assert_eq!(client.set(10, Value::from(u64::from(new.as_bytes()[0]))), Ok(Outcome::Applied));
    }
    assert_eq!(client.read(..).unwrap().len(), 2);
    drop(client);
    world.stop_all();
    assert_eq!(world.keys(), [10, 20].into());
    let kept = ["0..@2 sealed", "0..@3 sealed", "0..@4 sealed", "0..@4"];
    assert_eq!(world.kept(&["a", "b", "c", "d"]), kept);
}

/// Changes a table whose map is at home in a database, which its servers watch. One client follows a
/// copy of it, and one follows none.
fn is_followed_from_a_database(engine: &Engine) {
    let home = engine.place("maps");
    let mut world = World::watching(engine, [10, 20], &home);
    let copy = world.path("copy.toml");
    let map = |word: &str, file: &str| {
        let mut command = program();
        command.current_dir(world.path("")).args(["map", word, &home, file]);
        command
    };
    run(&mut map("put", "map.toml"));
    run(map("follow", "copy.toml").arg("--once"));
    let follower = map("follow", "copy.toml").stderr(Stdio::null()).spawn().unwrap();
    let _follower = Killed(follower);
    run(&mut map("put", "map.toml"));
    let (client, deaf) = (world.join_by(&copy, 1), world.join_deaf(3));
    assert_eq!(deaf.set(20, Value::from(3)), Ok(Outcome::Applied));
    let server = env!("CARGO_BIN_EXE_krl-server");
    let publish = format!("'{server}' map put '{home}' \"$KRL_MAP\"");
    run(world.split("a", 20, "b").args(["--publish", &publish]));
    assert_eq!(client.read(..).unwrap().len(), 2);
    assert_eq!(ShardMap::from_file(&copy).unwrap(), world.map());
    assert!(deaf.read(..).is_err(), "it is evicted");
    fs::write(world.path("other.toml"), world.map().to_toml().replace("= 20", "= 15")).unwrap();
    let mut other = program();
    let why = refused(other.current_dir(world.path("")).args(["map", "put", &home, "other.toml"]));
    assert!(why.contains("has a map of version 2, and this one is of version 2"), "{why}");
}

/// A process that ends with the test.
struct Killed(Child);

impl Drop for Killed {
    fn drop(&mut self) {
        // One that has ended needs no end.
        let _ = self.0.kill();
        let _ = self.0.wait();
    }
}

#[test]
fn a_map_is_followed_from_postgresql() {
    let Some(engine) = postgres() else { return };
    is_followed_from_a_database(&engine);
}

#[test]
fn a_map_is_followed_from_etcd() {
    let Some(engine) = etcd() else { return };
    is_followed_from_a_database(&engine);
}

#[test]
fn a_client_that_does_not_follow_is_named_and_the_map_is_taken_back() {
    let mut world = World::new(&FILES, [10, 20]);
    let (deaf, follower) = (world.join_deaf(3), world.join(4));
    assert_eq!(deaf.insert(30, Value::from(30)), Ok(Outcome::Applied));
    let why = refused(world.split("a", 20, "b").args(["--wait", "2"]));
    assert!(why.contains("client 3 at unix:user="), "{why}");
    assert!(why.contains("by version 3"), "{why}");
    assert!(!world.path("b.db").exists());
    assert_eq!(world.map().bounds_of(0).unwrap().to_string(), "0..@1");
    for client in [&deaf, &follower] {
        assert_eq!(client.set(10, Value::from(1)), Ok(Outcome::Applied));
    }
    drop(deaf);
    run(&mut world.split("a", 20, "b"));
    assert_eq!(world.version(), 4);
    assert_eq!(follower.read(..).unwrap().len(), 3);
}

#[test]
fn a_client_that_does_not_follow_is_evicted_by_a_server_that_does() {
    let mut world = World::new(&FILES, [10, 20]);
    let deaf = world.join_deaf(3);
    assert_eq!(deaf.insert(30, Value::from(30)), Ok(Outcome::Applied));
    run(world.split("a", 20, "b").args(["--wait", "60"]));
    assert_eq!(world.version(), 2);
    let why = deaf.read(..20).unwrap_err().to_string();
    assert!(why.contains("the client takes the server for 0..@1, and it serves 0..20@2"), "{why}");
    assert_eq!(world.join(4).read(..).unwrap().len(), 3);
}

#[test]
fn stores_of_other_shards_are_refused_before_the_map_changes() {
    let mut world = World::new(&FILES, [10, 20]);
    run(&mut world.split("a", 20, "b"));
    for (mut command, expected) in [
        (world.split("a", 30, "c"), "a.db is of the shard 0..20@2, and by the map it is 20..@2"),
        (world.move_away("b", 0, "c"), "b.db is of the shard 20..@2, and by the map it is 0..20@2"),
        (world.move_away("a", 5, "c"), "give no next map"),
        (world.merge(["b", "a"], 20, "d"), "b.db is of the shard 20..@2"),
        (world.move_away("none", 0, "c"), "there is no store none.db"),
        (world.move_away("a", 0, "b"), "has shard 1 in the map"),
    ] {
        let why = refused(&mut command);
        assert!(why.contains(expected), "{why}");
        assert_eq!(world.version(), 2);
    }
    let mut words = world.merge(["a", "b"], 20, "c");
    words.args(["--status", "127.0.0.1:1"]);
    assert_eq!(words.output().unwrap().status.code(), Some(2));
}

#[test]
fn an_earlier_new_store_that_was_not_used_is_set_aside() {
    let mut world = World::new(&FILES, [10, 20]);
    let unused = Snapshot {
        rows: [(20, Value::from(1))].into(),
        shard: Some("20..@2 sealed".parse().unwrap()),
        ..Snapshot::default()
    };
    world.create("b", &unused);
    let done = run(&mut world.split("a", 20, "b"));
    assert!(errors(&done).contains("no change used it"), "{}", errors(&done));
    assert_eq!(world.join(1).read(20..).unwrap()[0].value, Value::from(20));
    let files = fs::read_dir(world.path("")).unwrap();
    let is_aside = |name: &str| name.starts_with("b.db.unused-");
    assert!(
        files.map(|file| file.unwrap().file_name()).any(|name| is_aside(&name.to_string_lossy()))
    );
    // One that is served, or may be, is never taken for it.
    let why = refused(&mut world.split("a", 10, "b"));
    assert!(why.contains("has shard 1 in the map"), "{why}");
}

const SIGKILL: i32 = 9;

/// Before what a command is killed.
const CHANGE_OF_A_FILE: &str = "KILL_BEFORE_CHANGE";
const MESSAGE: &str = "KILL_BEFORE_SEND";

/// A change of a table whose shards are in `a`, and from 20 on in `b`.
type Changed = fn(&mut World) -> Command;

const SPLIT: Changed = |world| world.split("b", 30, "c");
const MERGE: Changed = |world| world.merge(["a", "b"], 20, "c");
const MOVE: Changed = |world| world.move_away("b", 20, "c");

/// Kills the command before one of its changes of a file, or of the messages that it sends, starts
/// what does not run, as a service manager would, and repeats the command; and so on with later ones,
/// some of them in between.
fn killed_at_some_points(engine: &Engine, before: &str, step: usize, change: Changed) {
    let library = tempfile::tempdir().unwrap();
    let killer = killer(library.path());
    for count in (1..).step_by(step) {
        let mut world = World::new(engine, [10, 20, 30]);
        run(&mut world.split("a", 20, "b"));
        let client = world.join(1);
        let mut interrupted = change(&mut world);
        interrupted.env("LD_PRELOAD", &killer).env(before, count.to_string());
        let interrupted = interrupted.output().unwrap();
        let is_done = interrupted.status.success();
        let is_killed = interrupted.status.signal() == Some(SIGKILL);
        assert!(is_done || is_killed, "before {count}: {}", errors(&interrupted));
        for name in ["a", "b"] {
            let command = world.start_command(name);
            // A store that is served or sealed is refused.
            let _ = Command::new("sh").args(["-c", &command]).output().unwrap();
        }
        run(&mut change(&mut world));
        assert_eq!(client.read(..).unwrap().len(), 3, "before {count}");
        assert_eq!(client.insert(25, Value::from(25)), Ok(Outcome::Applied));
        drop(client);
        world.stop_all();
        assert_eq!(world.keys(), [10, 20, 25, 30].into(), "before {count}");
        if is_done {
            return;
        }
    }
}

#[test]
fn a_split_that_is_killed_is_repeated() {
    killed_at_some_points(&FILES, CHANGE_OF_A_FILE, 23, SPLIT);
}

#[test]
fn a_merge_that_is_killed_is_repeated() {
    killed_at_some_points(&FILES, CHANGE_OF_A_FILE, 29, MERGE);
}

#[test]
fn a_move_that_is_killed_is_repeated() {
    killed_at_some_points(&FILES, CHANGE_OF_A_FILE, 19, MOVE);
}

#[test]
fn a_change_that_is_killed_is_repeated_over_postgresql() {
    let Some(engine) = postgres() else { return };
    for (change, step) in [(SPLIT, 7), (MERGE, 11), (MOVE, 7)] {
        killed_at_some_points(&engine, MESSAGE, step, change);
    }
}

#[test]
fn a_change_that_is_killed_is_repeated_over_etcd() {
    let Some(engine) = etcd() else { return };
    for (change, step) in [(SPLIT, 173), (MERGE, 283), (MOVE, 179)] {
        killed_at_some_points(&engine, MESSAGE, step, change);
    }
}

#[test]
fn a_store_that_has_moved_is_made_once() {
    let mut world = World::new(&FILES, [10, 20]);
    run(&mut world.move_away("a", 0, "b"));
    run(&mut world.move_away("a", 0, "b"));
    // The new store of a mistyped name would be a second one.
    let servers = world.address("b");
    let why = refused(&mut world.reshard(
        &["move", "a.db", "c.db", "--first", "0", "--servers", &servers],
        &["a"],
        "c",
    ));
    assert!(why.contains("has shard 0 in the map"), "{why}");
    assert!(!world.path("c.db").exists());
}

#[test]
fn another_store_is_not_opened_while_the_old_one_is_served() {
    let mut world = World::new(&FILES, [10, 20]);
    run(&mut world.split("a", 20, "b"));
    world.stop("b");
    world.rename("b.db", "kept.db");
    let unused = Snapshot {
        rows: [(20, Value::from(1))].into(),
        shard: Some("20..@2 sealed".parse().unwrap()),
        first_start: Some(7),
        ..Snapshot::default()
    };
    world.create("b", &unused);
    let why = refused(&mut world.split("a", 20, "b"));
    assert!(why.contains("is not the store that was made of them"), "{why}");
    assert_eq!(world.kept(&["b"]), ["20..@2 sealed"]);
    world.rename("b.db", "unused.db");
    world.rename("kept.db", "b.db");
    run(&mut world.split("a", 20, "b"));
    assert_eq!(world.join(1).read(..).unwrap().len(), 2);
}
