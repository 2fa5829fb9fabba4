//! Changes of shards that can't be made, or that fail on the way: what is served then, and how they are
//! taken back.
mod common;
mod shard_world;

use common::{killer, program};
use krl::store::{KeptShard, Snapshot};
use krl::{Outcome, SqliteStore, Value};
use krl_testing::database::Database;
use shard_world::{Engine, World, refused, run, with};
use std::fs::{self, File};
use std::io::{BufRead, BufReader, Write};
use std::net::TcpListener;
use std::os::unix::process::ExitStatusExt;
use std::process::Command;
use std::thread;
use std::time::Duration;

static FILES: Engine = Engine::Files;

/// What a command runs at the step at which it is to be killed.
const KILL: &str = "kill -9 $PPID";

fn one_shard() -> World<'static> {
    World::new(&FILES, [10, 20])
}

/// The shard of `a` is served, with its rows.
fn is_served(world: &mut World<'_>) {
    let status = world.status("a");
    run(program().args(["health", "--ready", &status]));
    let client = world.join(1);
    assert_eq!(client.set(10, Value::from(1)), Ok(Outcome::Applied));
    assert_eq!(client.read(..).unwrap().len(), 2);
}

#[test]
fn what_cannot_be_made_is_refused_before_the_map_changes() {
    let mut world = one_shard();
    fs::write(world.path("notes.txt"), "notes").unwrap();
    let nowhere = world.path("nowhere/b.db").display().to_string();
    let notes = world.path("notes.txt").display().to_string();
    world.put_store("nowhere", &nowhere);
    world.put_store("notes", &notes);
    let split = world.split("a", 20, "b");
    for (mut command, expected) in [
        (world.split("a", 20, "nowhere"), "no file can be made at "),
        (world.split("a", 20, "notes"), "notes.txt is there already"),
        (with(&split, "--stop", "systemctll stop a"), "--stop: there is no command 'systemctll'"),
        (with(&split, "--start", "./none a"), "--start: there is no command './none'"),
        (with(&split, "--start-new", "nonesuch"), "--start-new: there is no command 'nonesuch'"),
        (with(&split, "--publish", "scpp x y"), "--publish: there is no command 'scpp'"),
        (with(&split, "--status", "127.0.0.1:1"), "127.0.0.1:1 gives no answer"),
    ] {
        let why = refused(&mut command);
        assert!(why.contains(expected), "{why}");
        assert_eq!(world.version(), 1);
    }
    is_served(&mut world);
}

#[test]
fn words_of_the_shell_are_no_missing_commands() {
    let mut world = one_shard();
    let split = world.split("a", 20, "b");
    let words = [
        "cd . && false",
        "{ false; }",
        "N=3 false",
        "${NONE:-false}",
        ". ./none",
        "if false; then :; fi; false",
    ];
    for word in words {
        let why = refused(&mut with(&split, "--stop", word));
        assert!(why.contains("' has ended: exit status: "), "{why}");
    }
    is_served(&mut world);
}

#[test]
fn a_change_that_fails_is_taken_back_and_the_old_server_serves() {
    let mut world = one_shard();
    let split = world.split("a", 20, "b");
    let nothing_moves = world.split("a", 30, "b");
    let once = format!("mkdir '{}'", world.path("asked").display());
    let fails_once = format!("{once} && exit 1; true");
    for (mut command, expected, version) in [
        (with(&split, "--stop", "false"), "'false' has ended: exit status: 1", 3),
        (with(&split, "--publish", &fails_once), "has ended: exit status: 1", 5),
        (nothing_moves, "has no row from 30 on", 7),
    ] {
        let why = refused(&mut command);
        assert!(why.contains(expected), "{why}");
        let served = format!(
            "the old servers serve: the map is what it was, by version {version}, with 0..@1 at unix:"
        );
        assert!(why.contains(&served), "{why}");
        assert_eq!(world.version(), version);
        is_served(&mut world);
    }
    assert!(!world.path("b.db").exists());
    let why = refused(&mut with(&split, "--publish", "false"));
    assert!(
        why.contains("No store has changed, but not all could be taken back: 'false'"),
        "{why}"
    );
    assert_eq!(world.version(), 7);
    is_served(&mut world);
}

#[test]
fn a_store_without_room_is_named_and_the_old_server_serves() {
    let library = tempfile::tempdir().unwrap();
    let killer = killer(library.path());
    let mut world = one_shard();
    let split = |world: &mut World<'_>, full: &str| {
        let mut command = world.split("a", 20, "b");
        let full = world.path("").canonicalize().unwrap().join(full);
        command.env("LD_PRELOAD", &killer).env("FULL", full);
        command
    };
    for (full, expected) in [("b.db", "b.db can't be made: "), ("a.db-", "a.db: ")] {
        let why = refused(&mut split(&mut world, full));
        assert!(why.contains(expected) && why.contains("the old servers serve"), "{why}");
        is_served(&mut world);
    }
    let version = world.version();
    let why = refused(&mut split(&mut world, "map.toml.changes"));
    assert!(why.contains("map.toml.changes can't be written: No space left"), "{why}");
    assert_eq!(world.version(), version);
    run(&mut world.split("a", 20, "b"));
    assert_eq!(world.join(1).read(..).unwrap().len(), 2);
}

#[test]
fn a_change_that_fails_after_a_store_has_changed_is_repeated() {
    for option in ["--start-new", "--start"] {
        let mut world = one_shard();
        let split = world.split("a", 20, "b");
        let why = refused(&mut with(&split, option, "false"));
        assert!(why.contains("so keys of 0..@1 at unix:"), "{why}");
        assert!(why.contains("are not served until the command is repeated"), "{why}");
        let undone = refused(world.split("a", 20, "b").arg("--undo"));
        assert!(undone.contains("a store has changed already"), "{undone}");
        run(&mut world.split("a", 20, "b"));
        assert_eq!(world.join(1).read(..).unwrap().len(), 2);
        let undone = refused(world.split("a", 20, "b").arg("--undo"));
        assert!(undone.contains("nothing is to be taken back"), "{undone}");
    }
}

fn is_given_up(engine: &Engine) {
    let mut world = World::new(engine, [10, 20]);
    let client = world.join(2);
    let refused_first = refused(world.split("a", 20, "b").arg("--undo"));
    assert!(refused_first.contains("nothing is to be taken back"), "{refused_first}");
    for (option, version) in [("--publish", 2), ("--stop", 4)] {
        let split = world.split("a", 20, "b");
        assert!(!with(&split, option, KILL).output().unwrap().status.success());
        if option == "--stop" {
            world.stop("a");
        }
        let done = run(world.split("a", 20, "b").arg("--undo"));
        let expected = format!("map.toml: version {} as before the change\n", version + 1);
        assert_eq!(common::text(&done), expected);
        is_served(&mut world);
        assert_eq!(client.set(10, Value::from(1)), Ok(Outcome::Applied));
    }
    run(&mut world.move_away("a", 0, "c"));
    assert_eq!(client.read(..).unwrap().len(), 2);
}

#[test]
fn a_change_that_was_cut_off_is_given_up() {
    is_given_up(&FILES);
}

#[test]
fn a_change_over_postgresql_is_given_up() {
    let Some(database) = Database::start() else { return };
    is_given_up(&Engine::Postgres(database));
}

/// Answers as the status port of a server does that starts.
fn of_a_server_that_starts() -> String {
    let listener = TcpListener::bind("127.0.0.1:0").unwrap();
    let address = listener.local_addr().unwrap().to_string();
    thread::spawn(move || {
        for stream in listener.incoming() {
            let mut stream = stream.unwrap();
            let mut lines = BufReader::new(stream.try_clone().unwrap()).lines();
            while lines.next().is_some_and(|line| line.is_ok_and(|line| !line.is_empty())) {}
            let page = r#"{"role": "starts", "shard": null}"#;
            let head = format!("HTTP/1.1 200 OK\r\nContent-Length: {}\r\n\r\n", page.len());
            // The command may have asked for something else already.
            let _ = stream.write_all((head + page).as_bytes());
        }
    });
    address
}

#[test]
fn a_server_that_starts_is_waited_for() {
    let mut world = one_shard();
    world.stop("a");
    let lock = File::options().write(true).open(world.path("a.db.lock")).unwrap();
    lock.lock().unwrap();
    let mut split = with(&world.split("a", 20, "b"), "--status", &of_a_server_that_starts());
    thread::scope(|scope| {
        let made = scope.spawn(|| run(&mut split));
        thread::sleep(Duration::from_millis(300));
        drop(lock);
        made.join().unwrap();
    });
    assert_eq!(world.join(1).read(..).unwrap().len(), 2);
}

/// The map that a command has written is there after a loss of power.
fn syncs_the_folder_of_the_new_map(words: &[&str], map: &str) {
    let folder = tempfile::tempdir().unwrap();
    let killer = killer(folder.path());
    let path = |name: &str| folder.path().canonicalize().unwrap().join(name);
    for (name, shard, key) in [("a.db", "0..20@3", 10), ("b.db", "20..@3", 20)] {
        let rows = [(key, Value::from(key))].into();
        let shard: Option<KeptShard> = Some(shard.parse().unwrap());
        SqliteStore::create(path(name), &Snapshot { epoch: 1, rows, shard, ..Snapshot::default() })
            .unwrap();
    }
    fs::write(path("map.toml"), map).unwrap();
    fs::create_dir(path("maps")).unwrap();
    let command = || {
        let mut command: Command = program();
        command.current_dir(path("")).args(words);
        command.args(["--map", "map.toml", "--new-map", "maps/next.toml"]);
        command
    };
    let mut cut_off = command();
    cut_off.env("LD_PRELOAD", &killer).env("KILL_BEFORE_SYNC", path("maps"));
    assert_eq!(cut_off.output().unwrap().status.signal(), Some(9));
    run(&mut command());
}

#[test]
fn a_new_map_is_on_the_disk_when_the_command_ends() {
    let first = "version = 3\n\n[[shard]]\nfirst = 0\nservers = \"127.0.0.1:1\"\n";
    let second = "\n[[shard]]\nfirst = 20\nservers = \"127.0.0.1:2\"\n";
    let both = format!("{first}{second}");
    syncs_the_folder_of_the_new_map(&["merge", "a.db", "b.db", "c.db", "--at", "20"], &both);
    let split = ["split", "b.db", "25", "c.db", "--servers", "127.0.0.1:3", "--allow-empty"];
    syncs_the_folder_of_the_new_map(&split, &both);
}
