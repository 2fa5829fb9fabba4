use super::*;
use crate::model::change::{Change, Outcome, Write};
use crate::model::snapshot::Snapshot;
use crate::store::replaced_file::beside;
use crate::store::sqlite::copy::tests::Folder;
use crate::store::sqlite::{LogWrites, SqliteStore};
use crate::store::store_tests::{self, REGISTER, judged, row, without_first_start};
use crate::store::{Store, StoreError};
use std::cell::Cell;
use std::fs;
use std::path::Path;

thread_local! {
    /// How many more calls of the layer below succeed on this thread, if one is to fail.
    static UNTIL_FAULT: Cell<Option<u32>> = const { Cell::new(None) };
}

pub(super) fn fault() -> c_int {
    let Some(left) = UNTIL_FAULT.get() else { return ffi::SQLITE_OK };
    UNTIL_FAULT.set(left.checked_sub(1));
    if left == 0 { ffi::SQLITE_IOERR } else { ffi::SQLITE_OK }
}

#[test]
fn writes_that_follow_one_another_are_handed_on_together() {
    let mut kept = Kept::default();
    assert!(kept.takes(3, 100));
    assert_eq!(kept.put(b"abc", 100), ffi::SQLITE_OK);
    assert!(kept.takes(2, 103) && !kept.takes(2, 102) && !kept.takes(2, 104));
    assert!(!kept.takes(MOST_BYTES, 103), "SQLite's layer would write nothing");
    assert_eq!(kept.put(b"de", 103), ffi::SQLITE_OK);
    let mut written = Vec::new();
    let code = kept.flush(|bytes, at| {
        written.push((bytes.to_vec(), at));
        ffi::SQLITE_OK
    });
    assert_eq!((code, written), (ffi::SQLITE_OK, vec![(b"abcde".to_vec(), 100)]));
    assert_eq!(kept.flush(|_, _| panic!("nothing is kept")), ffi::SQLITE_OK);
    assert!(kept.takes(1, 7), "the next write may begin anywhere");
}

#[test]
fn nothing_is_written_after_a_write_that_failed() {
    let mut kept = Kept::default();
    assert_eq!(kept.put(b"abc", 0), ffi::SQLITE_OK);
    assert_eq!(kept.flush(|_, _| ffi::SQLITE_FULL), ffi::SQLITE_FULL);
    assert_eq!(kept.put(b"abc", 0), ffi::SQLITE_FULL);
    assert_eq!(kept.flush(|_, _| panic!("it has failed")), ffi::SQLITE_FULL);
}

fn batch(number: u64) -> Vec<Change> {
    let put = |place| {
        let write = Write::Put(row(100 * number + place, &[7; 32]));
        judged(number * 100 + place, write, Outcome::Applied)
    };
    (0..2 * number).map(put).collect()
}

#[test]
fn a_log_that_is_cut_at_any_byte_of_a_commit_has_all_before_it() {
    let folder = Folder::new("cut-log");
    let [file, cut] = ["table.db", "cut.db"].map(|name| folder.0.join(name));
    assert!(name().is_some());
    let mut store = SqliteStore::open(&file).unwrap();
    store.commit(&[Change::Started { epoch: 1 }, REGISTER]).unwrap();
    (1..8).for_each(|number| store.commit(&batch(number)).unwrap());
    let log = || fs::read(beside(&file, "-wal")).unwrap();
    let (before, start) = (store.snapshot().unwrap(), log().len());
    store.commit(&batch(40)).unwrap();
    let (after, log) = (store.snapshot().unwrap(), log());
    assert!(log.len() > start + 4 * 1024, "the commit has several pages");
    fs::copy(&file, &cut).unwrap();
    for length in start..=log.len() {
        fs::write(beside(&cut, "-wal"), &log[..length]).unwrap();
        let found = SqliteStore::read(&cut).unwrap().snapshot;
        let expected = if length == log.len() { &after } else { &before };
        assert!(found == *expected, "cut at {length} of {}", log.len());
    }
}

/// Commits until SQLite has copied the log into the file, and begins it again. The writes of a
/// batch are more than are kept.
fn begin_the_log_again(store: &mut SqliteStore, file: &Path) {
    let salt = || fs::read(beside(file, "-wal")).unwrap()[16..24].to_vec();
    store.commit(&batch(700)).unwrap();
    let before = salt();
    let begun = (701..800).find(|number| {
        store.commit(&batch(*number)).unwrap();
        salt() != before
    });
    assert!(begun.is_some());
}

#[test]
fn a_commit_over_an_older_log_that_is_cut_anywhere_leaves_all_before_it() {
    let folder = Folder::new("begun-again-log");
    let [file, cut] = ["table.db", "cut.db"].map(|name| folder.0.join(name));
    let mut store = SqliteStore::open(&file).unwrap();
    store.commit(&[Change::Started { epoch: 1 }, REGISTER]).unwrap();
    begin_the_log_again(&mut store, &file);
    let log = || fs::read(beside(&file, "-wal")).unwrap();
    let (before, older) = (store.snapshot().unwrap(), log());
    fs::copy(&file, &cut).unwrap();
    store.commit(&batch(40)).unwrap();
    let (after, newer) = (store.snapshot().unwrap(), log());
    assert_eq!(older.len(), newer.len(), "it is written over what was there");
    let differs = |at: &usize| older[*at] != newer[*at];
    let first = (0..newer.len()).find(differs).unwrap();
    let end = 1 + (0..newer.len()).rev().find(differs).unwrap();
    assert!(end - first > 4 * 1024, "the commit has several pages");
    for length in (first..end).step_by(61).chain([end - 1, end]) {
        let partly = [&newer[..length], &older[length..]].concat();
        fs::write(beside(&cut, "-wal"), partly).unwrap();
        let found = SqliteStore::read(&cut).unwrap().snapshot;
        let expected = if length == end { &after } else { &before };
        assert!(found == *expected, "cut at {length} of {first}..{end}");
    }
}

/// Commits the batches until one fails. Returns how many were committed.
fn commits_until_a_fault(store: &mut SqliteStore) -> Result<u64, (u64, StoreError)> {
    for number in 1..6 {
        store.commit(&batch(number)).map_err(|error| (number - 1, error))?;
    }
    Ok(5)
}

fn after_batches(count: u64) -> Snapshot {
    let mut snapshot = Snapshot::default();
    store_tests::apply(&mut snapshot, &[Change::Started { epoch: 1 }, REGISTER]);
    (1..=count).for_each(|number| store_tests::apply(&mut snapshot, &batch(number)));
    snapshot
}

#[test]
fn a_write_or_a_sync_that_fails_loses_nothing_that_was_committed() {
    let folder = Folder::new("faults");
    for calls in 0.. {
        let file = folder.0.join(format!("{calls}.db"));
        let mut store = SqliteStore::open(&file).unwrap();
        store.commit(&[Change::Started { epoch: 1 }, REGISTER]).unwrap();
        UNTIL_FAULT.set(Some(calls));
        let ended = commits_until_a_fault(&mut store);
        UNTIL_FAULT.set(None);
        let Err((committed, _)) = ended else {
            assert!(calls >= 10, "each of five commits writes and syncs: {calls} calls");
            return;
        };
        assert!(store.commit(&batch(9)).is_err(), "nothing is written after call {calls}");
        drop(store);
        let mut store = SqliteStore::open(&file).unwrap();
        let found = without_first_start(store.load().unwrap());
        let whole = [committed, committed + 1].map(after_batches);
        assert!(whole.contains(&found), "{committed} batches, and a fault after {calls} calls");
        store.commit(&batch(9)).unwrap();
    }
}

#[test]
fn a_store_whose_writes_are_not_joined_keeps_the_same() {
    let folder = Folder::new("single-writes");
    let file = folder.0.join("table.db");
    let open = || SqliteStore::open_with(&file, LogWrites::Single).unwrap();
    store_tests::keeps_what_is_committed(open);
    UNTIL_FAULT.set(Some(0));
    open().commit(&batch(1)).unwrap();
    assert_eq!(UNTIL_FAULT.replace(None), Some(0), "no call has come by the layer");
    let joined = SqliteStore::open(&file).unwrap().load().unwrap();
    assert_eq!(open().load().unwrap(), joined);
}
