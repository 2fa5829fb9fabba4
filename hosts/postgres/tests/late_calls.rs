//! Commits that wait for each other, that come late, and whose answers get lost. They start a
//! server of PostgreSQL.
use krl::Value;
use krl::store::store_tests::{REGISTER, is_deposed, put};
use krl::store::{Change, Store, StoreError};
use krl_postgres::{PostgresAddress, PostgresStore};
use krl_testing::database::{Database, address_at};
use krl_testing::relay::Relay;
use std::thread;
use std::time::Duration;

/// Makes every other transaction that changes the head wait until this one ends.
const LOCK_HEAD: &str = "BEGIN; SELECT * FROM krl.head FOR UPDATE;";

/// What a server of another epoch does as it starts.
const START: &str = "UPDATE krl.head SET epoch = 2, owner = repeat('a', 32), transaction = 1,
    commits = 1;";

fn loaded(address: &PostgresAddress) -> PostgresStore {
    let mut store = PostgresStore::open(address, None).unwrap();
    store.load().unwrap();
    store
}

/// What begins a table: a server of epoch 1, and a client.
const BEGIN: [Change; 2] = [Change::Started { epoch: 1 }, REGISTER];

fn value_of(database: &Database) -> Option<u64> {
    let mut store = PostgresStore::open(&database.address(), None).unwrap();
    store.load().unwrap().rows.get(&10).and_then(Value::to_u64)
}

#[test]
fn of_two_commits_that_wait_for_the_head_one_is_made() {
    let Some(database) = Database::start() else { return };
    let mut old = loaded(&database.address()).with_commit_timeout(Duration::from_secs(60));
    old.commit(&BEGIN).unwrap();
    let mut new = loaded(&database.address()).with_commit_timeout(Duration::from_secs(60));
    let sql = database.connect();
    sql.run(LOCK_HEAD);
    let (old, new) = thread::scope(|scope| {
        let old = scope.spawn(|| old.commit(&[put(1, 1)]));
        let new = scope.spawn(|| new.commit(&[Change::Started { epoch: 2 }]));
        database.wait_for_waiting(2);
        sql.run("COMMIT");
        (old.join().unwrap(), new.join().unwrap())
    });
    assert!(is_deposed(&old) ^ is_deposed(&new), "{old:?}, {new:?}");
    assert!(old.is_ok() ^ new.is_ok(), "{old:?}, {new:?}");
    assert_eq!(value_of(&database), old.is_ok().then_some(1));
}

#[test]
fn a_commit_that_comes_after_another_start_is_not_made() {
    let Some(database) = Database::start() else { return };
    loaded(&database.address()).commit(&BEGIN).unwrap();
    let mut old = loaded(&database.address()).with_commit_timeout(Duration::from_millis(300));
    let sql = database.connect();
    sql.run(LOCK_HEAD);
    let lost = old.commit(&[put(1, 1)]);
    assert!(matches!(lost, Err(StoreError::Unanswered(_))), "{lost:?}");
    database.wait_for_waiting(1);
    sql.run(START);
    sql.run("COMMIT");
    database.wait_for_none_waiting();
    assert_eq!(value_of(&database), None);
}

#[test]
fn a_commit_whose_answer_got_lost_is_found_to_be_made() {
    let Some(database) = Database::start() else { return };
    let relay = Relay::to(database.at());
    let mut store = loaded(&address_at(relay.at()));
    store.commit(&BEGIN).unwrap();
    relay.lose_next_answer();
    store.commit(&[put(1, 1)]).unwrap();
    assert!(relay.has_lost());
    store.commit(&[put(2, 2)]).unwrap();
    assert_eq!(value_of(&database), Some(2));
}

#[test]
fn a_commit_whose_answer_got_lost_is_reported_as_unknown_if_the_database_is_gone() {
    let Some(mut database) = Database::start() else { return };
    let relay = Relay::to(database.at());
    let store = loaded(&address_at(relay.at()));
    let mut store = store.with_commit_timeout(Duration::from_secs(2));
    store.commit(&BEGIN).unwrap();
    relay.lose_all_answers();
    let lost = store.commit(&[put(1, 1)]);
    database.stop();
    assert!(matches!(lost, Err(StoreError::Unanswered(_))), "{lost:?}");
    assert!(relay.has_lost());
}

#[test]
fn a_connection_that_is_silent_is_left_for_a_new_one() {
    let Some(database) = Database::start() else { return };
    let relay = Relay::to(database.at());
    let store = loaded(&address_at(relay.at()));
    let mut store = store.with_commit_timeout(Duration::from_secs(15));
    store.commit(&BEGIN).unwrap();
    relay.swallow();
    let before = relay.count();
    store.commit(&[put(1, 1)]).unwrap();
    assert!(relay.count() > before);
    assert_eq!(value_of(&database), Some(1));
}
