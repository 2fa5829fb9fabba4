//! A benchmark measures, leaves no rows, and touches nobody's rows.
mod support;

use krl::{Address, Outcome, Value};
use krl_testing::relay::{Plan, Relay};
use nix::sys::signal::Signal;
use std::time::{Duration, Instant};
use support::{Ended, World, signal, wait_for};

const WORDS: [&str; 13] = [
    "bench",
    "--warm-up",
    "0",
    "--seconds",
    "1",
    "--clients",
    "2",
    "--threads",
    "2",
    "--keys",
    "50",
    "--mix",
    "90,10",
];

#[test]
fn a_benchmark_prints_calls_rates_and_quantiles() {
    let world = World::new("bench");
    let words = [&WORDS[..], &["--skew", "zipf:0.9", "--readers", "3", "--json"]].concat();
    let report: serde_json::Value = serde_json::from_str(&world.prints(&words)).unwrap();
    for kind in ["cached_scans", "reads_that_asked", "writes", "reads_by_readers"] {
        let times = &report[kind];
        assert!(times["calls"].as_u64().unwrap() > 0, "{report}");
        assert!(times["per_second"].as_f64().unwrap() > 0.0, "{report}");
        let names = ["p50_seconds", "p99_seconds", "p99.9_seconds", "max_seconds"];
        let quantiles = names.map(|name| times[name].as_f64().unwrap());
        assert!(quantiles[0] > 0.0 && quantiles.is_sorted(), "{report}");
    }
    assert_eq!((&report["clients"], &report["failed"]), (&2.into(), &0.into()), "{report}");
    let fewest = report["fewest_reads_of_a_reader"].as_u64().unwrap();
    assert!(3 * fewest <= report["reads_by_readers"]["calls"].as_u64().unwrap(), "{report}");
    assert_eq!(
        (&report["skew"], &report["value_size"]),
        (&"zipf:0.9".into(), &8.into()),
        "{report}"
    );
    assert_eq!(world.prints(&["scan", ".."]), "", "its rows are gone");
}

#[test]
fn a_benchmark_prints_a_table() {
    let world = World::new("table");
    let report = world.prints(&[&WORDS[..], &["--rows", "5"]].concat());
    let heads: Vec<&str> = report.lines().map(|line| line.split("  ").next().unwrap()).collect();
    assert!(heads[0].starts_with("clients 2, threads of each 2, readers 0, "), "{report}");
    let kinds = ["cached scans", "reads that asked", "writes", "reads by readers", "failed"];
    assert_eq!(heads[2..], kinds, "{report}");
}

#[test]
fn rows_that_are_there_stay_as_they_are() {
    let world = World::new("there");
    assert_eq!(world.client(1).insert(20, Value::from(1)), Ok(Outcome::Applied));
    let ended = world.run(&WORDS);
    assert_eq!((ended.status, ended.out.as_str()), (1, ""), "{ended:?}");
    assert!(ended.errors.contains("keys from 0 to 49"), "{ended:?}");
    assert_eq!(world.prints(&["scan", ".."]), "20=u64:1\n");
    world.prints(&[&WORDS[..], &["--first-key", "21"]].concat());
    assert_eq!(world.prints(&["scan", ".."]), "20=u64:1\n");
}

#[test]
fn a_warm_up_is_no_part_of_the_time() {
    let world = World::new("warm");
    let words = ["bench", "--json", "--warm-up", "1", "--seconds", "1", "--keys", "20"];
    let report = world.prints(&[&words[..], &["--value-size", "32", "--rate", "40"]].concat());
    let report: serde_json::Value = serde_json::from_str(&report).unwrap();
    // With the warm-up there are two seconds, and a busy machine adds to both.
    assert!(report["seconds"].as_f64().unwrap() >= 1.0, "{report}");
    assert_eq!(
        (&report["warm_up_seconds"], &report["value_size"]),
        (&1.into(), &32.into()),
        "{report}"
    );
    assert_eq!((&report["failed"], &report["rate"]), (&0.into(), &40.into()), "{report}");
    let calls = |kind: &str| report[kind]["calls"].as_u64().unwrap();
    let calls = calls("cached_scans") + calls("reads_that_asked") + calls("writes");
    let most = 40.0 * report["seconds"].as_f64().unwrap() + 1.0;
    assert!(calls > 0 && f64::from(u32::try_from(calls).unwrap()) <= most, "{report}");
}

#[test]
fn nothing_of_the_warm_up_is_counted() {
    const KEYS: u64 = 20;
    let world = World::new("warming");
    let words = ["bench", "--json", "--warm-up", "3600", "--keys", "20", "--mix", "50,50"];
    let program = world.spawn(&words);
    wait_for("it writes, after its inserts", || world.server.status().commits > 3 * KEYS);
    signal(&program, Signal::SIGINT);
    let ended = Ended::from(program.wait_with_output().unwrap());
    assert_eq!(ended.status, 0, "{ended:?}");
    let report: serde_json::Value = serde_json::from_str(&ended.out).unwrap();
    for kind in ["cached_scans", "reads_that_asked", "writes"] {
        assert_eq!((&report[kind]["calls"], &report["failed"]), (&0.into(), &0.into()), "{report}");
    }
    assert_eq!(world.prints(&["scan", ".."]), "", "its rows are gone");
}

#[test]
fn a_signal_ends_it_soon_though_the_server_is_away() {
    let world = World::new("away");
    let Address::Tcp(server) = *world.server.address() else { panic!("it listens elsewhere") };
    let relay = Relay::to(server);
    let at = relay.at().to_string();
    let words = ["--server", &at, "--timeout", "3s", "bench", "--clients", "8"];
    let program = world.spawn(&[&words[..], &["--warm-up", "3600", "--keys", "20"]].concat());
    wait_for("it writes, after its inserts", || world.server.status().commits > 60);
    relay.plan(vec![Plan::Swallow; 1000]);
    relay.swallow();
    signal(&program, Signal::SIGTERM);
    let begun = Instant::now();
    let ended = Ended::from(program.wait_with_output().unwrap());
    // A call that waits has three seconds, and the clients do not leave one after the other.
    assert!(begun.elapsed() < Duration::from_secs(20), "{:?}", begun.elapsed());
    assert_eq!(ended.status, 3, "{ended:?}");
    assert!(ended.errors.contains("the server did not learn that client 63, 62, "), "{ended:?}");
}

#[test]
fn what_a_benchmark_cannot_do_is_a_usage() {
    let world = World::new("usage");
    let cases: [(&[&str], &str); 15] = [
        (&["--rate", "0"], "0 is not in 1..=1000000"),
        (&["--clients", "0"], "0 is not in 1..=64"),
        (&["--clients", "65"], "65 is not in 1..=64"),
        (&["--clients", "9"], "9 clients need as many numbers, and 56 to 63 are 8"),
        (&["--threads", "0"], "0 is not in 1..=256"),
        (&["--seconds", "0"], "0 is not in 1..=86400"),
        (&["--warm-up", "3601"], "3601 is not in 0..=3600"),
        (&["--mix", "95,6"], "two numbers whose sum is 100 are expected, such as 95,5"),
        (&["--skew", "normal"], "uniform, zipf, or zipf:EXPONENT of 0 to 10 is expected"),
        (&["--skew", "zipf:11"], "uniform, zipf, or zipf:EXPONENT of 0 to 10 is expected"),
        (&["--keys", "65537"], "65537 is not in 1..=65536"),
        (&["--rows", "0"], "0 is not in 1..=65536"),
        (&["--rows", "20", "--keys", "10"], "20 rows needs as many keys, and there are 10"),
        (&["--value-size", "33"], "33 is not in 0..=32"),
        (&["--first-key", "9223372036854775806"], "the keys end above 2^63 - 2"),
    ];
    for (words, sentence) in cases {
        let ended = world.run(&[&["bench"], words].concat());
        assert_eq!((ended.status, ended.out.as_str()), (2, ""), "{words:?}: {ended:?}");
        assert!(ended.errors.contains(sentence), "{words:?}: {ended:?}");
    }
}
