//! The program over two servers, each with a part of the keys.
mod support;

use krl::Server;
use nix::sys::signal::Signal;
use std::io::{BufRead, BufReader};
use support::{Ended, World, signal, start};

/// The second shard begins here.
const BOUND: u64 = 100;

/// A world with a second server, and a map of both.
struct Shards {
    world: World,
    upper: Server,
    map: String,
}

impl Shards {
    fn new(name: &str) -> Shards {
        let world = World::over(name, Some("0..100@1"));
        let upper = start(Some("100..@1"));
        let shard = |first, server: &Server| {
            format!("[[shard]]\nfirst = {first}\nservers = \"{}\"\n", server.address())
        };
        let text = ["version = 1\n".into(), shard(0, &world.server), shard(BOUND, &upper)].concat();
        let map = world.folder.join("map.toml");
        std::fs::write(&map, text).unwrap();
        Shards { map: map.to_str().unwrap().into(), world, upper }
    }

    /// The words, after those that name the map.
    fn words<'w>(&'w self, words: &[&'w str]) -> Vec<&'w str> {
        [&["--map", &self.map], words].concat()
    }

    fn run(&self, words: &[&str]) -> Ended {
        self.world.run(&self.words(words))
    }

    fn prints(&self, words: &[&str]) -> String {
        self.world.prints(&self.words(words))
    }
}

#[test]
fn each_row_is_at_the_server_of_its_key_and_a_scan_has_all() {
    let shards = Shards::new("shards");
    for row in ["5=a", "99=b", "100=c", "300=d"] {
        assert_eq!(shards.prints(&["insert", row]), "applied\n");
    }
    assert_eq!(shards.prints(&["scan", ".."]), "5=a\n99=b\n100=c\n300=d\n");
    assert_eq!(shards.prints(&["scan", "99", "101"]), "99=b\n100=c\n");
    assert_eq!(shards.prints(&["put", "100", "e"]), "applied\n");
    assert_eq!(shards.prints(&["delete", "5"]), "applied\n");
    assert_eq!(
        (shards.prints(&["get", "100"]), shards.run(&["get", "5"]).status),
        ("100=e\n".into(), 1)
    );
    let rows = |server: &Server| server.monitor().snapshot().unwrap().rows.len();
    assert_eq!((rows(&shards.world.server), rows(&shards.upper)), (1, 2));
    let lines = shards.world.run_lines(&shards.words(&[]), "get 99\nget 300\n");
    assert_eq!((lines.status, lines.out.as_str()), (0, "99=b\n300=d\n"));
}

#[test]
fn a_command_joins_only_the_shards_of_its_keys() {
    let shards = Shards::new("joins");
    for row in ["5=a", "300=d"] {
        assert_eq!(shards.prints(&["insert", row]), "applied\n");
    }
    let Shards { world, upper, map } = shards;
    upper.stop().unwrap();
    let run =
        |words: &[&str]| world.run(&[&["--map", map.as_str(), "--timeout", "60s"], words].concat());
    for (words, printed) in [
        (&["scan", "0", "100"][..], "5=a\n"),
        (&["get", "5"], "5=a\n"),
        (&["put", "5=b"], "applied\n"),
        (&["hold", "0", "50", "--", "echo", "held"], "held\n"),
        (&["delete", "5"], "applied\n"),
    ] {
        let ended = run(words);
        assert_eq!((ended.status, ended.out.as_str()), (0, printed), "{words:?}: {}", ended.errors);
    }
    let ended = world.run(&["--map", &map, "--timeout", "1s", "scan", "0", "101"]);
    assert_eq!(ended.status, 3, "the shard of 100 is down: {}", ended.errors);
}

#[test]
fn each_server_is_pinged() {
    let shards = Shards::new("pings");
    let printed = shards.prints(&["ping"]);
    let lines: Vec<&str> = printed.lines().collect();
    assert_eq!(lines.len(), 2, "{printed}");
    for (shard, server) in [&shards.world.server, &shards.upper].into_iter().enumerate() {
        let expected = format!("shard {shard} at {} answered in ", server.address());
        assert!(lines[shard].starts_with(&expected), "{printed}");
    }
    let json = shards.prints(&["ping", "--json"]);
    assert!(json.lines().nth(1).unwrap().contains("\"shard\":1"), "{json}");
}

#[test]
fn a_change_at_any_shard_ends_a_watch() {
    let shards = Shards::new("watch");
    shards.prints(&["insert", "99=a"]);
    let mut watch = shards.world.spawn(&shards.words(&["watch", "..", "--count", "2"]));
    let mut lines = BufReader::new(watch.stdout.take().unwrap()).lines().map(Result::unwrap);
    let mut next = |count: usize| lines.by_ref().take(count).collect::<Vec<String>>();
    assert_eq!(next(2), ["# change 0, rows 1", "99=a"]);
    shards.prints(&["insert", "100=b"]);
    assert_eq!(next(3), ["# change 1, rows 2", "99=a", "100=b"]);
    shards.prints(&["put", "99=c"]);
    assert_eq!(next(3), ["# change 2, rows 2", "99=c", "100=b"]);
    assert_eq!(watch.wait().unwrap().code(), Some(0));
}

#[test]
fn a_signal_ends_a_watch_of_all_shards_and_the_client_leaves() {
    let shards = Shards::new("ends");
    let mut watch = shards.world.spawn(&shards.words(&["watch", ".."]));
    let mut lines = BufReader::new(watch.stdout.take().unwrap()).lines().map(Result::unwrap);
    assert_eq!(lines.next().as_deref(), Some("# change 0, rows 0"));
    signal(&watch, Signal::SIGINT);
    assert_eq!(watch.wait().unwrap().code(), Some(0));
    for server in [&shards.world.server, &shards.upper] {
        let snapshot = server.monitor().snapshot().unwrap();
        assert!(snapshot.records.iter().all(|record| record.left), "{:?}", snapshot.records);
    }
}

#[test]
fn a_held_range_of_both_shards_is_changed_by_nobody() {
    let shards = Shards::new("hold");
    shards.prints(&["insert", "99=a"]);
    shards.prints(&["insert", "100=b"]);
    let program = env!("CARGO_BIN_EXE_krl-client");
    let put = ["--timeout", "3s", "put", "100", "c"];
    let inner = [&["hold", "90", "110", "--", program, "--map", &shards.map], &put[..]].concat();
    let held = shards.run(&inner);
    assert_eq!(held.status, 3, "{held:?}");
    assert!(held.errors.contains("shard 1: "), "{held:?}");
    assert_eq!(shards.run(&["hold", "90", "110", "--update", "--", "true"]).status, 0);
}

#[test]
fn failures_name_the_shard_and_what_is_expected() {
    let shards = Shards::new("fails");
    let bad = shards.world.folder.join("bad.toml");
    std::fs::write(&bad, "version = 1\n[[shard]]\nfirst = 1\nservers = \"127.0.0.1:1\"\n").unwrap();
    let ended = shards.world.run(&["--map", bad.to_str().unwrap(), "get", "5"]);
    assert_eq!(ended.status, 2);
    assert!(ended.errors.contains("bad.toml can't be used: a map has 1 to 64 shards"), "{ended:?}");
    let ended = shards.run(&["--lock-file", "a", "--number", "3", "get", "5"]);
    assert_eq!(ended.status, 2);
    assert!(ended.errors.contains("--lock-file can't be used with --map"), "{ended:?}");
    shards.upper.stop().unwrap();
    let timed = |key| ["--map", &shards.map, "--timeout", "3s", "get", key];
    let ended = shards.world.run(&timed("105"));
    assert_eq!(ended.status, 3);
    assert!(ended.errors.contains("krl-client: shard 1: "), "{ended:?}");
    // The other shard's keys need only its server.
    assert_eq!(shards.world.run(&timed("5")).status, 1);
}

/// The lock file of a number keeps what a wrong clock has left in it.
#[test]
fn a_lock_file_of_a_wrong_clock_is_named() {
    let shards = Shards::new("ahead");
    let folder = shards.world.folder.join("krl");
    std::fs::create_dir(&folder).unwrap();
    let file = folder.join("shard-100-client-63.lock");
    // Of the year 2046.
    std::fs::write(&file, "krl client 63 incarnation 02426388266503144698\n").unwrap();
    let ended = shards.run(&["--number", "63", "get", "105"]);
    assert_eq!(ended.status, 3, "{ended:?}");
    let file = format!("Its lock file is {}", file.display());
    for why in ["shard 1: ", "more than a day ahead of the server's clock", &file] {
        assert!(ended.errors.contains(why), "{why}: {ended:?}");
    }
}

#[test]
fn another_map_is_refused_and_the_message_gives_the_remedy() {
    let shards = Shards::new("other");
    let old = shards.world.folder.join("old.toml");
    let text = std::fs::read_to_string(&shards.map).unwrap();
    std::fs::write(&old, text.replace("first = 100", "first = 50")).unwrap();
    let old = old.to_str().unwrap();
    let ended = shards.world.run(&["--map", old, "--timeout", "2s", "insert", "60=a"]);
    assert_eq!(ended.status, 4);
    let expected = "shard 1: the client of number 63 can't join: the client takes the server for \
                    50..@1, and it serves 100..@1: ";
    assert!(ended.errors.contains(expected), "{ended:?}");
    let ended = shards.world.run(&["insert", "60=a"]);
    assert_eq!(ended.status, 4);
    assert!(ended.errors.contains("the client needs a map with this version"), "{ended:?}");
    assert_eq!(shards.prints(&["scan", ".."]), "");
}
