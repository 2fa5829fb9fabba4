//! The states of a range, one after the other, at one server and at several.
mod two_servers;

use krl::{Error, ErrorKind, Outcome, Value};
use std::thread;
use std::time::Duration;
use two_servers::{World, row};

#[test]
fn the_last_state_comes_however_many_are_missed() {
    let world = World::new("last");
    let (watcher, writer) = (world.join(0), world.join(1));
    let mut changes = watcher.changes(10..20).unwrap();
    assert_eq!(changes.next(), Some(Ok(vec![])));
    assert_eq!(changes.next_within(Duration::from_millis(1)), Ok(None));
    assert_eq!(writer.insert(15, Value::from(1)), Ok(Outcome::Applied));
    assert_eq!(changes.next(), Some(Ok(vec![row(15, 1)])));
    let writing = thread::spawn(move || {
        for number in 2..100 {
            assert_eq!(writer.put(15, Value::from(number)), Ok(Outcome::Applied));
        }
    });
    let mut before = 1;
    while before < 99 {
        let rows = changes.next().unwrap().unwrap();
        let number = rows[0].value.to_u64().unwrap();
        assert!(number > before, "{number} came after {before}");
        before = number;
    }
    writing.join().unwrap();
}

#[test]
fn it_ends_when_the_client_has_left() {
    let world = World::new("left");
    let watcher = world.join(0);
    let mut changes = watcher.changes(..).unwrap();
    assert_eq!(changes.next(), Some(Ok(vec![])));
    let waits = thread::spawn(move || changes.next());
    watcher.leave().unwrap();
    assert_eq!(waits.join().unwrap(), None);
    assert_eq!(watcher.changes(..).unwrap().count(), 0);
    assert!(matches!(watcher.changes(5..5), Err(Error { kind: ErrorKind::BadRange, .. })));
}

#[test]
fn the_states_of_several_shards_are_those_of_one_moment() {
    let world = World::new("shards");
    let (watcher, writer) = (world.join_both(0), world.join_both(1));
    let mut changes = watcher.changes(90..110).unwrap();
    assert_eq!(changes.next(), Some(Ok(vec![])));
    for (key, rows) in [(105, vec![row(105, 1)]), (95, vec![row(95, 1), row(105, 1)])] {
        assert_eq!(writer.insert(key, Value::from(1)), Ok(Outcome::Applied));
        assert_eq!(changes.next(), Some(Ok(rows)));
    }
    assert!(watcher.changes(5..5).is_err());
    watcher.leave().unwrap();
    assert_eq!(changes.next(), None);
}
