use super::copy::tests::COUNTS;
use super::*;
use crate::model::change::Write;
use crate::store::replaced_file::beside;
use crate::store::store_tests::{self, changes, row};

/// What the store has, but for its first start, which it draws.
fn table(store: &mut SqliteStore) -> Snapshot {
    Snapshot { first_start: None, ..store.load().unwrap() }
}

#[test]
fn what_is_loaded_is_what_was_kept() {
    let folder = std::env::temp_dir().join(format!("krl-sqlite-{}", std::process::id()));
    std::fs::create_dir_all(&folder).unwrap();
    let file = folder.join("table.db");
    store_tests::keeps_what_is_committed(|| SqliteStore::open(&file).unwrap());
    let mut at_once = SqliteStore::open(folder.join("other.db")).unwrap();
    at_once.commit(&changes()).unwrap();
    let mut expected = Snapshot::default();
    store_tests::apply(&mut expected, &changes());
    assert_eq!(table(&mut at_once), expected);
    assert!(SqliteStore::open(folder.join("other.db")).is_err(), "one process at a time");
    std::fs::remove_dir_all(&folder).unwrap();
}

#[test]
fn a_store_becomes_only_a_later_shard() {
    let folder = super::copy::tests::Folder::new("shard");
    let file = folder.0.join("table.db");
    store_tests::becomes_only_a_later_shard(|| SqliteStore::open(&file).unwrap());
}

#[test]
fn a_sealed_copy_is_opened_and_keeps_its_checksum() {
    let folder = super::copy::tests::Folder::new("sealed");
    let file = folder.0.join("table.db");
    let sealed: KeptShard = "10..20@3 sealed".parse().unwrap();
    let rows = [(10, Value::from(1)), (19, Value::from(2))].into();
    let snapshot = Snapshot { epoch: 7, rows, shard: Some(sealed), ..Snapshot::default() };
    SqliteStore::create(&file, &snapshot).unwrap();
    let opened = Snapshot { shard: Some(KeptShard::open(sealed.bounds)), ..snapshot.clone() };
    for _ in 0..2 {
        SqliteStore::unseal(&file).unwrap();
        let found = SqliteStore::read(&file).unwrap();
        assert_eq!((found.snapshot, found.checksum), (opened.clone(), Checksum::Matches));
    }
    SqliteStore::create(&file, &snapshot).unwrap();
    assert_eq!(SqliteStore::read(&file).unwrap().snapshot, opened, "it is made already");
    let mut store = SqliteStore::open(&file).unwrap();
    store.load().unwrap();
    assert!(
        store.seal(sealed.bounds, &Snapshot::default()).is_err(),
        "no server of this version may be kept off any more"
    );
    store.seal("10..20@4".parse().unwrap(), &Snapshot::default()).unwrap();
    drop(store);
    let found = SqliteStore::read(&file).unwrap().snapshot;
    assert_eq!(found.shard, "10..20@4 sealed".parse().ok());
    assert_eq!(found.rows, opened.rows);
}

#[test]
fn each_start_and_each_batch_is_counted() {
    let folder = std::env::temp_dir().join(format!("krl-starts-{}", std::process::id()));
    std::fs::create_dir_all(&folder).unwrap();
    let file = folder.join("table.db");
    let mut store = SqliteStore::open(&file).unwrap();
    assert_eq!(store.history().unwrap(), None);
    store.commit(&[Change::Started { epoch: 1 }]).unwrap();
    store.commit(&changes()[1..3]).unwrap();
    let first = store.history().unwrap().and_then(|it| it.mark()).unwrap();
    assert_eq!(first.commits, 2);
    drop(store);
    let mut store = SqliteStore::open(&file).unwrap();
    store.commit(&[Change::Started { epoch: 2 }]).unwrap();
    let history = store.history().unwrap().unwrap();
    let second = history.mark().unwrap();
    assert_eq!(second.commits, 1);
    assert_ne!(second.start, first.start);
    assert_eq!(store.load().unwrap().first_start, Some(first.start));
    assert!(history.has(first) && !history.has(Mark { commits: 3, ..first }));
    let bad = Change::Registered { client: 1, incarnation: u64::MAX };
    assert!(store.commit(&[bad]).is_err());
    assert_eq!(store.history().unwrap().unwrap(), history, "it was not committed");
    std::fs::remove_dir_all(&folder).unwrap();
}

#[test]
fn a_history_has_each_start() {
    let folder = std::env::temp_dir().join(format!("krl-history-{}", std::process::id()));
    std::fs::create_dir_all(&folder).unwrap();
    let file = folder.join("table.db");
    store_tests::counts_each_start_and_each_batch(|| SqliteStore::open(&file).unwrap());
    std::fs::remove_dir_all(&folder).unwrap();
}

#[test]
fn a_copy_becomes_a_store_of_its_own() {
    let folder = std::env::temp_dir().join(format!("krl-copied-{}", std::process::id()));
    std::fs::create_dir_all(&folder).unwrap();
    let file = folder.join("table.db");
    let create = |snapshot: &Snapshot| SqliteStore::create(&file, snapshot);
    store_tests::goes_on_from_a_copy(create, || SqliteStore::open(&file).unwrap());
    std::fs::remove_dir_all(&folder).unwrap();
}

#[test]
fn a_batch_of_any_kind_is_counted_once_and_an_earlier_start_keeps_its_count() {
    let folder = std::env::temp_dir().join(format!("krl-counts-{}", std::process::id()));
    std::fs::create_dir_all(&folder).unwrap();
    let file = folder.join("table.db");
    let mut store = SqliteStore::open(&file).unwrap();
    let mut marks = Vec::new();
    for batch in [&changes()[..1], &changes()[1..4], &changes()[15..16], &changes()[4..6]] {
        store.commit(batch).unwrap();
        let mark = store.history().unwrap().unwrap().mark().unwrap();
        assert_eq!(progress::last_mark(&store.connection).unwrap(), Some(mark));
        assert_eq!(store.known.last, Some(mark), "what it knows is what the file has");
        marks.push(mark);
    }
    assert_eq!(marks.iter().map(|mark| mark.commits).collect::<Vec<_>>(), [1, 2, 3, 4]);
    // The count begins again, and nothing of the first start is forgotten.
    store.commit(&[Change::Started { epoch: 2 }]).unwrap();
    let history = store.history().unwrap().unwrap();
    assert!(marks.iter().all(|mark| history.has(*mark)));
    assert!(!history.has(Mark { commits: 5, ..marks[0] }));
    assert_eq!(history.mark().unwrap().commits, 1);
    std::fs::remove_dir_all(&folder).unwrap();
}

#[test]
fn an_older_store_continues_to_count_where_it_was() {
    let folder = std::env::temp_dir().join(format!("krl-older-counts-{}", std::process::id()));
    std::fs::create_dir_all(&folder).unwrap();
    let of_records = format!("{COUNTS} UPDATE record SET commits = 3 + 4 * (client = 2);");
    for (version, older) in [(4, "UPDATE start SET commits = 7;"), (5, &of_records)] {
        let file = folder.join(format!("{version}.db"));
        let mut store = SqliteStore::open(&file).unwrap();
        store.commit(&changes()[..3]).unwrap();
        let started = store.history().unwrap().unwrap().mark().unwrap();
        let older = format!("DROP TABLE journal; {older} PRAGMA user_version = {version};");
        store.connection.execute_batch(&older).unwrap();
        drop(store);
        let mut store = SqliteStore::open(&file).unwrap();
        let mark = |store: &mut SqliteStore| store.history().unwrap().unwrap().mark().unwrap();
        assert_eq!(mark(&mut store), Mark { commits: 7, ..started }, "version {version}");
        store.commit(&changes()[1..2]).unwrap();
        assert_eq!(mark(&mut store), Mark { commits: 8, ..started }, "version {version}");
    }
    std::fs::remove_dir_all(&folder).unwrap();
}

#[test]
fn a_batch_changes_one_page_of_a_new_store_while_that_has_room() {
    let folder = std::env::temp_dir().join(format!("krl-pages-{}", std::process::id()));
    std::fs::create_dir_all(&folder).unwrap();
    let file = folder.join("table.db");
    let mut store = SqliteStore::open(&file).unwrap();
    assert_eq!(page_size(&store.connection).unwrap(), PAGE_SIZE);
    store.commit(&changes()[..4]).unwrap();
    let log = beside(&file, "-wal");
    let length = || log.metadata().unwrap().len();
    for number in 2..6 {
        let before = length();
        let write = Write::Put(row(10 + number, b"more"));
        let judged = Change::Judged { client: 9, number, write, outcome: Outcome::Applied };
        store.commit(&[judged; 3]).unwrap();
        // In front of each page the log has a header of 24 bytes.
        assert_eq!(length() - before, 24 + PAGE_SIZE.cast_unsigned());
    }
    std::fs::remove_dir_all(&folder).unwrap();
}

#[test]
fn an_older_store_keeps_its_page_size() {
    let folder = std::env::temp_dir().join(format!("krl-page-size-{}", std::process::id()));
    std::fs::create_dir_all(&folder).unwrap();
    let file = folder.join("table.db");
    let connection = Connection::open(&file).unwrap();
    connection.pragma_update(None, "page_size", 4096).unwrap();
    prepare(&connection).unwrap();
    drop(connection);
    let mut store = SqliteStore::open(&file).unwrap();
    store.commit(&changes()).unwrap();
    assert_eq!(page_size(&store.connection).unwrap(), 4096);
    drop(store);
    assert_eq!(SqliteStore::read(&file).unwrap().page_size, 4096);
    std::fs::remove_dir_all(&folder).unwrap();
}

#[test]
fn a_store_value_commits_nothing_after_a_later_one() {
    let folder = std::env::temp_dir().join(format!("krl-behind-{}", std::process::id()));
    std::fs::create_dir_all(&folder).unwrap();
    // Without the file's lock two values may have it open.
    let open =
        |name: &str| SqliteStore::open_by(&folder.join(name), "NORMAL", LogWrites::Single).unwrap();
    store_tests::deposes_an_older_value(|| open("deposed.db"));
    store_tests::distinguishes_two_starts(|| open("starts.db"));
    std::fs::remove_dir_all(&folder).unwrap();
}

#[test]
fn a_batch_is_kept_whole_or_not_at_all() {
    let folder = std::env::temp_dir().join(format!("krl-batch-{}", std::process::id()));
    std::fs::create_dir_all(&folder).unwrap();
    let mut store = SqliteStore::open(folder.join("table.db")).unwrap();
    let bad = Change::Registered { client: 1, incarnation: u64::MAX };
    assert!(store.commit(&[Change::Started { epoch: 4 }, bad]).is_err());
    assert_eq!(store.load().unwrap(), Snapshot::default());
    std::fs::remove_dir_all(&folder).unwrap();
}
