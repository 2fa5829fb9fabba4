//! Changes of shards by several operators, at once and one after another, and after a command that
//! was cut off.
mod common;
mod shard_world;

use common::{errors, killer, program};
use krl::{Outcome, ShardMap, Value};
use krl_testing::cluster::Cluster;
use krl_testing::database::Database;
use shard_world::{Engine, World, refused, run, with};
use std::fs;
use std::process::{Child, Command, Stdio};
use std::thread;
use std::time::{Duration, Instant};

static FILES: Engine = Engine::Files;

/// What a command runs at the step at which it is to be killed.
const KILL: &str = "kill -9 $PPID";

/// A table whose shards are in `a`, and from 20 on in `b`.
fn two_shards(engine: &Engine) -> World<'_> {
    let mut world = World::new(engine, [10, 15, 20, 30]);
    run(&mut world.split("a", 20, "b"));
    world
}

/// Each row is served, and is in one store.
fn has_all(world: &mut World<'_>) {
    let client = world.join(1);
    assert_eq!(client.read(..).unwrap().len(), 4);
    drop(client);
    world.stop_all();
    assert_eq!(world.keys(), [10, 15, 20, 30].into());
}

fn begin(command: &mut Command) -> Child {
    command.stdout(Stdio::null()).stderr(Stdio::piped()).spawn().unwrap()
}

/// Waits until the map has this version.
fn wait_for_version(world: &World<'_>, version: u64) {
    let end = Instant::now() + Duration::from_secs(60);
    while world.version() < version {
        assert!(Instant::now() < end, "the map is of version {}", world.version());
        thread::sleep(Duration::from_millis(5));
    }
}

#[test]
fn a_change_next_to_another_one_is_refused_and_takes_nothing_back() {
    let mut world = two_shards(&FILES);
    let deaf = world.join_deaf(3);
    assert_eq!(deaf.set(20, Value::from(1)), Ok(Outcome::Applied));
    let waits = begin(world.move_away("b", 20, "c").args(["--wait", "3"]));
    wait_for_version(&world, 3);
    let why = refused(&mut world.split("a", 15, "d"));
    let by = format!("map.toml is changed already, by process {}, reshard move ", waits.id());
    assert!(why.contains(&by), "{why}");
    let late = waits.wait_with_output().unwrap();
    assert_eq!(late.status.code(), Some(1));
    let why = errors(&late);
    assert!(why.contains("the old servers serve: the map is what it was, by version 4"), "{why}");
    drop(deaf);
    run(&mut world.split("a", 15, "d"));
    run(&mut world.move_away("b", 20, "c"));
    assert_eq!(world.version(), 6);
    has_all(&mut world);
}

#[test]
fn of_two_changes_at_one_moment_none_is_lost() {
    let mut world = two_shards(&FILES);
    let places = ["a", "b", "c", "d", "e", "f", "g", "h"];
    for (turn, place) in places.windows(4).step_by(2).enumerate() {
        let [lower, upper, next_lower, next_upper] = [place[0], place[1], place[2], place[3]];
        let mut moves =
            [world.move_away(lower, 0, next_lower), world.move_away(upper, 20, next_upper)];
        let ended = moves.each_mut().map(begin).map(|process| process.wait_with_output().unwrap());
        for (made, again) in ended.iter().zip(&mut moves) {
            if !made.status.success() {
                assert!(errors(made).contains("is changed already"), "{}", errors(made));
                run(again);
            }
        }
        assert_eq!(world.version(), 4 + 2 * turn as u64);
    }
    has_all(&mut world);
}

/// Cuts a change of `b` off at one of its commands, changes the other shard, and repeats the first one.
fn cut_off_at(option: &str, change: fn(&mut World<'_>) -> Command) {
    let mut world = two_shards(&FILES);
    let client = world.join(5);
    assert!(!with(&change(&mut world), option, KILL).output().unwrap().status.success());
    run(&mut world.split("a", 15, "d"));
    run(&mut change(&mut world));
    assert_eq!(client.read(..).unwrap().len(), 4, "{option}");
    // All have ended.
    run(&mut world.merge(["a", "d"], 15, "e"));
    run(&mut change(&mut world));
    drop(client);
    has_all(&mut world);
}

#[test]
fn a_change_that_was_cut_off_continues_whatever_ran_since() {
    for option in ["--publish", "--stop", "--start-new"] {
        cut_off_at(option, |world| world.move_away("b", 20, "c"));
        cut_off_at(option, |world| world.split("b", 30, "c"));
    }
}

#[test]
fn a_change_that_was_killed_while_stores_changed_continues_whatever_ran_since() {
    let library = tempfile::tempdir().unwrap();
    let killer = killer(library.path());
    for count in (40..).step_by(37) {
        let mut world = two_shards(&FILES);
        let mut cut_off = world.move_away("b", 20, "c");
        cut_off.env("LD_PRELOAD", &killer).env("KILL_BEFORE_CHANGE", count.to_string());
        let is_done = cut_off.output().unwrap().status.success();
        run(&mut world.split("a", 15, "d"));
        run(&mut world.move_away("b", 20, "c"));
        has_all(&mut world);
        if is_done {
            return;
        }
    }
}

#[test]
fn another_change_of_shards_whose_change_was_cut_off_is_refused() {
    let mut world = two_shards(&FILES);
    let mut cut_off = with(&world.move_away("b", 20, "c"), "--stop", KILL);
    assert!(!cut_off.output().unwrap().status.success());
    for mut other in
        [world.split("b", 30, "d"), world.move_away("b", 20, "d"), world.merge(["a", "b"], 20, "e")]
    {
        let why = refused(&mut other);
        assert!(why.contains("repeat 'krl-server reshard move /"), "{why}");
        assert!(why.contains("--undo"), "{why}");
    }
    assert_eq!(world.version(), 3);
    run(&mut world.move_away("b", 20, "c"));
    run(&mut world.split("c", 30, "d"));
    has_all(&mut world);
}

/// Two operators, each with a file of a map that is at home in a database.
fn each_has_a_file(engine: &Engine, is_repeated_at_once: bool) {
    let home = engine.place("maps");
    let mut world = two_shards(&FILES);
    let map = |world: &World<'_>, words: &[&str], file: &str| {
        let mut command = program();
        command.current_dir(world.path("")).arg("map").args(words).args([&home, file]);
        command
    };
    run(&mut map(&world, &["put"], "map.toml"));
    run(&mut map(&world, &["follow", "--once"], "theirs.toml"));
    let server = env!("CARGO_BIN_EXE_krl-server");
    let publish = format!("'{server}' map put '{home}' \"$KRL_MAP\"");
    run(world.split("a", 15, "d").args(["--publish", &publish]));
    world.changed = "theirs.toml".into();
    let mut late = world.move_away("b", 20, "c");
    late.args(["--publish", &publish]);
    let why = refused(&mut late);
    assert!(why.contains("a map of version 3, and this one is of version 3"), "{why}");
    assert!(why.contains("which is not the one in"), "{why}");
    let read = |file| ShardMap::from_file(world.path(file)).unwrap();
    assert_eq!(read("theirs.toml").version().unwrap().get(), 2);
    run(&mut map(&world, &["follow", "--once"], "home.toml"));
    assert_eq!(read("home.toml"), read("map.toml"));
    assert_eq!(world.join(1).read(..).unwrap().len(), 4);
    run(&mut map(&world, &["follow", "--once"], "theirs.toml"));
    run(&mut late);
    run(&mut map(&world, &["follow", "--once"], "map.toml"));
    assert_eq!(
        fs::read(world.path("map.toml")).unwrap(),
        fs::read(world.path("theirs.toml")).unwrap()
    );
    // A command that is killed after the home has its map leaves the file as it was.
    let split = world.split("c", 30, "e");
    let killed = with(&split, "--publish", &format!("{publish}; {KILL}")).output().unwrap();
    assert!(!killed.status.success());
    if is_repeated_at_once {
        run(&mut with(&split, "--publish", &publish));
    } else {
        let why = refused(&mut with(&world.split("a", 10, "f"), "--publish", &publish));
        assert!(why.contains("take it by 'krl-server map follow"), "{why}");
        run(&mut map(&world, &["follow", "--once"], "theirs.toml"));
    }
    run(&mut with(&world.split("a", 10, "f"), "--publish", &publish));
    run(&mut with(&split, "--publish", &publish));
    run(&mut map(&world, &["follow", "--once"], "map.toml"));
    has_all(&mut world);
}

#[test]
fn operators_of_a_map_in_postgresql_lose_no_change() {
    let Some(database) = Database::start() else { return };
    each_has_a_file(&Engine::Postgres(database), true);
}

#[test]
fn operators_of_a_map_in_etcd_lose_no_change() {
    let Some(cluster) = Cluster::start() else { return };
    each_has_a_file(&Engine::Etcd(cluster), false);
}
