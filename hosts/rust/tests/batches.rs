//! Several writes in one call, at one server and at several.
mod two_servers;

use krl::error::{Fate, Unsent};
use krl::{BatchError, ErrorKind, Mutation};
use std::time::Duration;
use two_servers::{World, row};

use Mutation::{Delete, Insert, Put, Set};
use krl::Outcome::{Absent, Applied, Exists};

/// No wait of a test is longer.
const LONG: Duration = Duration::from_secs(60);

const SHORT: Duration = Duration::from_millis(100);

#[test]
fn each_write_has_its_outcome_in_order() {
    let world = World::new("order");
    let (first, second) = (world.join(0), world.join(1));
    let writes =
        [Insert(row(10, 1)), Insert(row(10, 2)), Put(row(11, 3)), Set(row(11, 4)), Delete(12)];
    assert_eq!(first.write_all(writes), Ok(vec![Applied, Exists, Absent, Applied, Absent]));
    assert_eq!(second.read(0..50), Ok(vec![row(10, 1), row(11, 4)]));
    assert_eq!(first.write_all([]), Ok(vec![]));
    let (_, pin) = first.pin_for_write(0..50).unwrap();
    assert_eq!(pin.write_all((20..30).map(|key| Insert(row(key, 0)))), Ok(vec![Applied; 10]));
    assert_eq!(pin.within(LONG).write_all([Delete(20)]), Ok(vec![Applied]));
    drop(pin);
    assert_eq!(second.read(0..50).unwrap().len(), 11);
}

#[test]
fn a_bad_key_is_refused_before_any_write() {
    let world = World::new("bad");
    let client = world.join(0);
    let refused = client.write_all([Insert(row(10, 1)), Delete(krl::END)]).unwrap_err();
    assert_eq!(refused, BatchError::new(vec![Fate::NotMade; 2], ErrorKind::BadKey.into()));
    assert_eq!(client.read(0..50), Ok(vec![]));
    client.leave().unwrap();
    let late = client.write_all([Insert(row(10, 1))]).unwrap_err();
    assert_eq!(late.fates, [Fate::NotMade]);
}

#[test]
fn an_error_reports_the_fate_of_each_write() {
    let world = World::new("error");
    let (first, second) = (world.join(0), world.join(1));
    // The gap after the pinned range ends at the second row.
    assert_eq!(second.write_all([10, 15].map(|key| Insert(row(key, 1)))), Ok(vec![Applied; 2]));
    first.read(50..60).unwrap();
    let (_, pin) = second.pin_for_write(5..15).unwrap();
    // The client knows by itself that the first key has no row.
    let _own = first.pin(50..60).unwrap();
    let failed =
        first.within(SHORT).write_all([Delete(55), Put(row(10, 2)), Delete(56)]).unwrap_err();
    // The second one waited for its lock.
    assert_eq!(failed.fates, [Fate::Judged(Absent), Fate::NotMade, Fate::NotMade]);
    assert_eq!(failed.error.kind, ErrorKind::NotSent(Unsent::TimedOut));
    assert!(!failed.error.is_unknown_outcome());
    drop(pin);
}

#[test]
fn many_threads_write_batches_by_one_client() {
    let world = World::new("threads");
    let client = world.join(0);
    std::thread::scope(|scope| {
        for thread in 0..4 {
            let client = client.clone();
            scope.spawn(move || {
                let keys = (0..50).map(|place| 4 * place + thread);
                let inserted = client.write_all(keys.clone().map(|key| Insert(row(key, thread))));
                assert_eq!(inserted, Ok(vec![Applied; 50]));
                let deleted = client.write_all(keys.step_by(2).map(Delete));
                assert_eq!(deleted, Ok(vec![Applied; 25]));
            });
        }
    });
    assert_eq!(client.read(..).unwrap().len(), 100);
}

#[test]
fn the_writes_of_all_shards_are_made_at_once() {
    let world = World::new("shards");
    let client = world.join_both(0);
    let writes = [150, 1, 101, 2, 1].map(|key| Insert(row(key, key)));
    assert_eq!(client.write_all(writes), Ok(vec![Applied, Applied, Applied, Applied, Exists]));
    assert_eq!(client.read(..), Ok([1, 2, 101, 150].map(|key| row(key, key)).to_vec()));
    let (_, pin) = client.pin_for_write(0..160).unwrap();
    assert_eq!(
        pin.write_all([Delete(150), Delete(1), Delete(3)]),
        Ok(vec![Applied, Applied, Absent])
    );
    drop(pin);
    let (_, of_first) = client.pin_for_write(0..10).unwrap();
    let refused = of_first.write_all([Delete(2), Delete(101)]).unwrap_err();
    assert_eq!(refused.fates, [Fate::NotMade; 2]);
    assert_eq!((refused.error.shard, refused.error.kind), (Some(1), ErrorKind::PinIsVoid));
    drop(of_first);
    let bad = client.write_all([Delete(2), Delete(krl::END)]).unwrap_err();
    assert_eq!((bad.fates, bad.error.kind), (vec![Fate::NotMade; 2], ErrorKind::BadKey));
    assert_eq!(client.read(..), Ok([2, 101].map(|key| row(key, key)).to_vec()));
}
