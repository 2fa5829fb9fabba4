//! Watches: each change that stands is shown, and nothing else.
mod support;

use krl::{Outcome, Value};
use nix::sys::signal::Signal;
use std::io::{BufRead, BufReader, Lines};
use std::process::{Child, ChildStdout};
use std::thread;
use std::time::Duration;
use support::{World, signal};

fn value(text: &str) -> Value {
    Value::try_from(text).unwrap()
}

/// A watch, and the lines that it prints.
fn watch(world: &World, words: &[&str]) -> (Child, Lines<BufReader<ChildStdout>>) {
    let mut program = world.spawn(&[&["watch"], words].concat());
    let lines = BufReader::new(program.stdout.take().unwrap()).lines();
    (program, lines)
}

fn next(lines: &mut Lines<BufReader<ChildStdout>>, count: usize) -> Vec<String> {
    lines.by_ref().take(count).map(Result::unwrap).collect()
}

#[test]
fn a_watch_prints_the_range_and_each_change() {
    let world = World::new("watch");
    let client = world.client(1);
    assert_eq!(client.insert(15, value("a")), Ok(Outcome::Applied));
    assert_eq!(client.insert(25, value("b")), Ok(Outcome::Applied));
    let (mut program, mut lines) = watch(&world, &["10", "20", "--count", "3"]);
    assert_eq!(next(&mut lines, 2), ["# change 0, rows 1", "15=a"]);
    assert_eq!(client.put(15, value("c")), Ok(Outcome::Applied));
    assert_eq!(next(&mut lines, 2), ["# change 1, rows 1", "15=c"]);
    // What lies outside the range is not a change.
    assert_eq!(client.put(25, value("d")), Ok(Outcome::Applied));
    assert_eq!(client.insert(12, value("e")), Ok(Outcome::Applied));
    assert_eq!(next(&mut lines, 3), ["# change 2, rows 2", "12=e", "15=c"]);
    assert_eq!(client.delete(15), Ok(Outcome::Applied));
    assert_eq!(next(&mut lines, 3), ["# change 3, rows 1", "12=e"]);
    assert_eq!(program.wait().unwrap().code(), Some(0));
}

#[test]
fn each_change_that_stands_is_shown_once() {
    const CHANGES: u64 = 40;
    let world = World::new("stands");
    let client = world.client(1);
    assert_eq!(client.insert(15, value("start")), Ok(Outcome::Applied));
    let (mut program, mut lines) = watch(&world, &["15..16", "--count", "40"]);
    assert_eq!(next(&mut lines, 2), ["# change 0, rows 1", "15=start"]);
    for turn in 1..=CHANGES {
        assert_eq!(client.put(15, Value::from(turn)), Ok(Outcome::Applied));
        let shown = next(&mut lines, 2);
        assert_eq!(shown, [format!("# change {turn}, rows 1"), format!("15=u64:{turn}")]);
    }
    assert_eq!(program.wait().unwrap().code(), Some(0));
}

#[test]
fn a_write_that_changes_nothing_is_no_change() {
    let world = World::new("same");
    let client = world.client(1);
    assert_eq!(client.insert(15, value("a")), Ok(Outcome::Applied));
    let (mut program, mut lines) = watch(&world, &["10", "20", "--count", "1"]);
    assert_eq!(next(&mut lines, 2), ["# change 0, rows 1", "15=a"]);
    assert_eq!(client.put(15, value("a")), Ok(Outcome::Applied));
    // The watch has the range again by then.
    thread::sleep(Duration::from_millis(500));
    assert_eq!(client.put(15, value("b")), Ok(Outcome::Applied));
    assert_eq!(next(&mut lines, 3), ["# change 1, rows 1", "15=b"]);
    assert_eq!(program.wait().unwrap().code(), Some(0));
}

#[test]
fn a_watch_that_sees_no_change_asks_the_server_nothing() {
    let world = World::new("quiet");
    assert_eq!(world.client(1).insert(15, value("a")), Ok(Outcome::Applied));
    let (mut program, mut lines) = watch(&world, &["10", "20"]);
    assert_eq!(next(&mut lines, 2).len(), 2);
    thread::sleep(Duration::from_millis(500));
    let before = world.server.status();
    thread::sleep(Duration::from_secs(2));
    let after = world.server.status();
    // A client sends a sign of life four times a second.
    let taken = after.taken - before.taken;
    assert!(taken <= 12, "{taken} messages in two seconds");
    signal(&program, Signal::SIGINT);
    assert_eq!(program.wait().unwrap().code(), Some(0));
}

#[test]
fn ctrl_c_ends_a_watch_with_status_0_and_gives_the_range_back() {
    let world = World::new("ctrl-c");
    let client = world.client(1);
    for ending in [Signal::SIGINT, Signal::SIGTERM] {
        let (mut program, mut lines) = watch(&world, &["10", "20", "--format", "json"]);
        let first: serde_json::Value = serde_json::from_str(&next(&mut lines, 1)[0]).unwrap();
        assert_eq!(first, serde_json::json!({ "change": 0, "rows": [] }));
        signal(&program, ending);
        assert_eq!(program.wait().unwrap().code(), Some(0));
        // A client that had ended without a Bye would keep this one waiting.
        assert_eq!(client.insert(15, value("a")), Ok(Outcome::Applied));
        assert_eq!(client.delete(15), Ok(Outcome::Applied));
    }
}

#[test]
fn a_watch_outlives_a_writer_that_holds_the_range_for_long() {
    let world = World::new("long");
    let client = world.client(1);
    assert_eq!(client.insert(15, value("a")), Ok(Outcome::Applied));
    let (mut program, mut lines) = watch(&world, &["10", "20", "--count", "1", "--timeout", "3s"]);
    assert_eq!(next(&mut lines, 2).len(), 2);
    let pin = client.pin(10..20).unwrap();
    assert_eq!(client.put(15, value("b")), Ok(Outcome::Applied));
    thread::sleep(Duration::from_secs(4));
    assert!(program.try_wait().unwrap().is_none(), "the watch continues");
    drop(pin);
    assert_eq!(next(&mut lines, 2), ["# change 1, rows 1", "15=b"]);
    assert_eq!(program.wait().unwrap().code(), Some(0));
}
