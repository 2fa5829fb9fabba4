//! What is committed is what is loaded, and who commits. They start a server of PostgreSQL.
use super::*;
use crate::map::PostgresMap;
use krl::store::MapHome;
use krl::store::store_tests::{self, REGISTER, is_deposed, put};
use krl_testing::database::{Database, TRAPS};

fn open(database: &Database) -> PostgresStore {
    PostgresStore::open(&database.address(), None).unwrap()
}

fn loaded(database: &Database) -> (PostgresStore, Snapshot) {
    store_tests::loaded(&mut || open(database))
}

fn value(database: &Database) -> Option<Value> {
    loaded(database).1.rows.get(&10).copied()
}

#[test]
fn what_is_loaded_is_what_was_committed() {
    let Some(database) = Database::start() else { return };
    store_tests::keeps_what_is_committed(|| open(&database));
}

#[test]
fn nothing_of_others_is_called_in_the_name_of_the_server() {
    let Some(database) = Database::start() else { return };
    let sql = database.connect();
    sql.run(TRAPS);
    sql.run(
        "CREATE ROLE app LOGIN; GRANT CREATE ON DATABASE postgres TO app;
         ALTER ROLE app SET search_path = public, pg_catalog",
    );
    let app = ("app".to_string(), String::new());
    let open = || PostgresStore::open(&database.address(), Some(&app)).unwrap();
    store_tests::keeps_what_is_committed(open);
    let mut map = PostgresMap::open(&database.address(), Some(&app)).unwrap();
    assert!(map.replace(None, "1").unwrap() && map.replace(Some("1"), "2").unwrap());
    assert_eq!(map.read().unwrap().as_deref(), Some("2"));
}

#[test]
fn an_older_server_is_deposed_for_good() {
    let Some(database) = Database::start() else { return };
    store_tests::deposes_an_older_value(|| open(&database));
}

#[test]
fn two_that_start_at_once_are_distinguished() {
    let Some(database) = Database::start() else { return };
    store_tests::distinguishes_two_starts(|| open(&database));
}

#[test]
fn a_commit_whose_answer_was_lost_is_found_and_is_not_done_late() {
    let Some(database) = Database::start() else { return };
    let (mut store, _) = loaded(&database);
    store.commit(&[Change::Started { epoch: 1 }, REGISTER]).unwrap();
    let before = (store.head, store.next);
    store.commit(&[put(1, 1)]).unwrap();
    (store.head, store.next) = before;
    store.commit(&[put(1, 1)]).unwrap();
    store.commit(&[put(2, 2)]).unwrap();
    (store.head, store.next) = before;
    assert!(is_deposed(&store.commit(&[put(1, 1)])), "it comes late");
    assert_eq!(value(&database), Some(2.into()));
}

#[test]
fn a_history_has_each_start() {
    let Some(database) = Database::start() else { return };
    store_tests::counts_each_start_and_each_batch(|| open(&database));
}

#[test]
fn a_database_that_ends_ends_the_store() {
    let Some(mut database) = Database::start() else { return };
    let (store, _) = loaded(&database);
    let mut store = store.with_commit_timeout(Duration::from_millis(300));
    database.stop();
    let asked = store.commit(&[Change::Started { epoch: 1 }]);
    assert!(matches!(asked, Err(StoreError::Unanswered(_))), "{asked:?}");
    assert!(matches!(store.commit(&[]), Err(StoreError::Unanswered(_))));
}

#[test]
fn a_database_that_loses_what_it_answers_is_refused() {
    let Some(database) = Database::start_with(&["fsync=off"]) else { return };
    let mut store = open(&database);
    let error = store.load().unwrap_err().to_string();
    assert!(error.contains("fsync"), "{error}");
}

#[test]
fn a_commit_is_synced_whatever_the_database_does_else() {
    let settings = ["synchronous_commit=off", "default_transaction_isolation=serializable"];
    let Some(database) = Database::start_with(&settings) else { return };
    let (mut store, _) = loaded(&database);
    for (name, expected) in
        [("synchronous_commit", "on"), ("default_transaction_isolation", "read committed")]
    {
        let found = store.link.setting(name, Instant::now() + LOAD_TIMEOUT);
        assert_eq!(found.unwrap(), expected, "{name}");
    }
}

#[test]
fn a_database_that_is_not_there_is_reported() {
    let Some(database) = Database::start() else { return };
    let address = database.address::<String>().replace("/postgres", "/other").parse().unwrap();
    let error = PostgresStore::open(&address, None).unwrap().load().unwrap_err().to_string();
    assert!(error.contains("\"other\" does not exist"), "{error}");
}

#[test]
fn a_store_becomes_only_a_later_shard() {
    let Some(database) = Database::start() else { return };
    store_tests::becomes_only_a_later_shard(|| open(&database));
}

#[test]
fn a_copy_becomes_a_store_of_its_own() {
    let Some(database) = Database::start() else { return };
    let create = |snapshot: &Snapshot| PostgresStore::create(&database.address(), None, snapshot);
    store_tests::goes_on_from_a_copy(create, || open(&database));
}

#[test]
fn only_a_sealed_store_is_removed() {
    let Some(database) = Database::start() else { return };
    let address = database.address();
    let create = |snapshot: &Snapshot| PostgresStore::create(&address, None, snapshot);
    let remove = |keys: &Range<u64>| PostgresStore::remove_sealed(&address, None, keys);
    store_tests::removes_only_what_is_sealed(create, remove, || open(&database));
}

#[test]
fn a_store_of_before_room_and_shard_were_kept_is_brought_forward() {
    let Some(database) = Database::start() else { return };
    loaded(&database).0.commit(&[Change::Started { epoch: 1 }, REGISTER]).unwrap();
    let sql = database.connect();
    sql.run("DROP TABLE krl.room, krl.shard");
    sql.run("UPDATE krl.head SET format = 1");
    let (mut store, found) = loaded(&database);
    assert_eq!((found.room, found.kept_room()), (None, Some(Room::default())));
    sql.run("DO 'BEGIN ASSERT (SELECT format FROM krl.head) = 1; END'");
    store.commit(&[Change::Started { epoch: 2 }, Change::Room(Room::MAX)]).unwrap();
    sql.run("DO 'BEGIN ASSERT (SELECT format FROM krl.head) = 3; END'");
    assert_eq!(loaded(&database).1.room, Some(Room::MAX));
}

#[test]
fn what_no_server_commits_is_not_loaded() {
    let Some(database) = Database::start() else { return };
    loaded(&database).0.commit(&[Change::Started { epoch: 1 }]).unwrap();
    let sql = database.connect();
    for (wrong, right) in [
        ("UPDATE krl.head SET owner = 'nobody'", "UPDATE krl.head SET owner = repeat('1', 32)"),
        ("UPDATE krl.head SET format = 4", "UPDATE krl.head SET format = 3"),
        ("INSERT INTO krl.room VALUES (0, 0)", "DELETE FROM krl.room"),
        ("INSERT INTO krl.shard VALUES (0, 5, 4, 1, false)", "DELETE FROM krl.shard"),
        ("INSERT INTO krl.entry VALUES (-1, '')", "DELETE FROM krl.entry"),
        ("INSERT INTO krl.entry VALUES (1, repeat('x', 33)::bytea)", "DELETE FROM krl.entry"),
        ("INSERT INTO krl.client VALUES (64, 0, 1, 0, 0, 0)", "DELETE FROM krl.client"),
        ("INSERT INTO krl.client VALUES (3, 0, 1, 0, 6, 0)", "DELETE FROM krl.client"),
    ] {
        sql.run(wrong);
        let mut store = open(&database);
        let error = store.load().unwrap_err();
        assert!(matches!(error, StoreError::Failed(_)), "{wrong}: {error}");
        sql.run(right);
        loaded(&database);
    }
}

#[test]
fn a_store_of_a_later_version_is_refused_by_its_number() {
    let Some(database) = Database::start() else { return };
    loaded(&database).0.commit(&[Change::Started { epoch: 1 }]).unwrap();
    database.connect().run("UPDATE krl.head SET format = 4");
    let error = open(&database).load().unwrap_err().to_string();
    assert!(
        error.contains("the store has version 4, and this program reads versions up to 3"),
        "{error}"
    );
}

#[test]
fn a_load_makes_nothing_where_there_is_no_store() {
    let Some(database) = Database::start() else { return };
    let sql = database.connect();
    let schemas = || sql.query("SELECT FROM pg_namespace WHERE nspname = 'krl'").len();
    let (mut store, found) = loaded(&database);
    assert_eq!((found, schemas()), (Snapshot::default(), 0));
    store.commit(&[Change::Started { epoch: 1 }]).unwrap();
    assert_eq!(schemas(), 1);
    assert_eq!(loaded(&database).1.epoch, 1);
}

#[test]
fn a_user_who_may_make_no_tables_serves_from_those_that_are_there() {
    let Some(database) = Database::start() else { return };
    let sql = database.connect();
    sql.run("CREATE ROLE worker LOGIN");
    let worker = ("worker".to_string(), String::new());
    let open = || PostgresStore::open(&database.address(), Some(&worker)).unwrap();
    let mut store = open();
    store.load().unwrap();
    let error = store.commit(&[Change::Started { epoch: 1 }]).unwrap_err().to_string();
    assert!(error.contains("permission denied"), "{error}");
    loaded(&database).0.commit(&[Change::Started { epoch: 1 }, REGISTER]).unwrap();
    sql.run("GRANT USAGE ON SCHEMA krl TO worker");
    sql.run("GRANT SELECT, INSERT, UPDATE, DELETE ON ALL TABLES IN SCHEMA krl TO worker");
    let mut store = open();
    store.load().unwrap();
    store.commit(&[Change::Started { epoch: 2 }, put(1, 1), Change::Room(Room::MAX)]).unwrap();
    assert_eq!(value(&database), Some(1.into()));
}

#[test]
fn a_database_that_is_away_is_waited_for_until_it_is_not_to_be() {
    let Some(mut database) = Database::start() else { return };
    let mut store = open(&database);
    // On a busy machine it may answer late.
    let end = Instant::now() + Duration::from_secs(60);
    assert!(store.reach(|_| Instant::now() < end).unwrap(), "it answers");
    database.stop();
    let mut store = open(&database);
    let mut message = 0;
    let goes_on = |why: &str| {
        assert!(why.contains("connect"), "{why}");
        message += 1;
        message < 3
    };
    assert!(!store.reach(goes_on).unwrap());
    assert_eq!(message, 3);
}
