use super::*;
use crate::model::change::{Outcome, Write};
use crate::store::Store;
use crate::store::sqlite::copy::tests::Folder;
use crate::store::sqlite::{LogWrites, SqliteStore};
use crate::store::store_tests::{self, REGISTER, changes, judged, put, row, without_first_start};

fn count(store: &SqliteStore, table: &str) -> u64 {
    let count = format!("SELECT count(*) FROM {table}");
    store.connection.query_row(&count, [], |row| row.get(0)).unwrap()
}

/// A store and what it has to have.
struct Checked {
    store: SqliteStore,
    expected: Snapshot,
    commits: u64,
}

impl Checked {
    /// A store on which a server has just started.
    fn started(folder: &Folder) -> Checked {
        // These tests commit often, and end no machine. Without syncs, joined writes would stay in
        // memory.
        let file = folder.0.join("table.db");
        let mut store = SqliteStore::open_with(file, LogWrites::Single).unwrap();
        store.connection.pragma_update(None, "synchronous", "OFF").unwrap();
        store.commit(&[Change::Started { epoch: 1 }, REGISTER]).unwrap();
        let expected = store.snapshot().unwrap();
        Checked { store, expected, commits: 1 }
    }

    fn commit(&mut self, batch: &[Change]) {
        self.store.commit(batch).unwrap();
        store_tests::apply(&mut self.expected, batch);
        self.commits += 1;
    }

    fn check(&mut self) {
        assert_eq!(self.store.snapshot().unwrap(), self.expected);
        let mark = self.store.history().unwrap().unwrap().mark().unwrap();
        assert_eq!(mark.commits, self.commits);
    }

    /// Puts this many rows with these keys, in one batch.
    fn put(&mut self, keys: impl Iterator<Item = u64>) {
        let number = self.commits;
        let put =
            |key| judged(number, Write::Put(row(key, &number.to_le_bytes())), Outcome::Applied);
        let batch: Vec<Change> = keys.map(put).collect();
        self.commit(&batch);
    }
}

#[test]
fn the_journal_is_read_over_the_tables_and_folded_by_the_next_start() {
    let folder = Folder::new("journal");
    let mut checked = Checked::started(&folder);
    for batch in [
        &[judged(1, Write::Insert(row(10, b"x")), Outcome::Applied)][..],
        &[put(2, 7), Change::Registered { client: 3, incarnation: 4 }],
        &[judged(3, Write::Insert(row(11, b"y")), Outcome::Applied)],
        &[judged(4, Write::Delete(11), Outcome::Applied), put(5, 8)],
        &[judged(6, Write::Insert(row(10, b"z")), Outcome::Exists)],
        &[Change::Left { client: 3 }],
        &changes()[15..16],
        &changes()[18..19],
    ] {
        checked.commit(batch);
        checked.check();
    }
    assert_eq!((count(&checked.store, "journal"), count(&checked.store, "entry")), (8, 0));
    let mark = checked.store.history().unwrap().unwrap().mark().unwrap();
    drop(checked.store);
    let file = folder.0.join("table.db");
    assert_eq!(SqliteStore::read(&file).unwrap().snapshot, checked.expected);
    checked.store = SqliteStore::open(&file).unwrap();
    checked.check();
    checked.commits = 0;
    checked.commit(&[Change::Started { epoch: 2 }]);
    checked.check();
    assert_eq!((count(&checked.store, "journal"), count(&checked.store, "entry")), (0, 1));
    assert!(checked.store.history().unwrap().unwrap().has(mark), "the first start keeps its count");
}

/// What a server finds that starts when another one was killed.
fn what_a_kill_leaves(folder: &Folder) -> Snapshot {
    let killed = folder.0.join("killed.db");
    for end in ["", "-wal"] {
        let name = format!("table.db{end}");
        std::fs::copy(folder.0.join(name), folder.0.join(format!("killed.db{end}"))).unwrap();
    }
    let mut store = SqliteStore::open(&killed).unwrap();
    store.commit(&[Change::Started { epoch: 1 }]).unwrap();
    assert_eq!(count(&store, "journal"), 0);
    let found = without_first_start(store.load().unwrap());
    drop(store);
    std::fs::remove_file(&killed).unwrap();
    found
}

#[test]
fn what_a_kill_leaves_at_each_point_of_a_fold_is_all_that_was_committed() {
    let folder = Folder::new("journal-killed");
    let mut checked = Checked::started(&folder);
    let batches = GATHERED_CHANGES as u64 / 32;
    let mut least = u64::MAX;
    // A second fold begins over rows that the first one has brought into the table.
    for number in 0..3 * batches {
        let first = number * 37 % 700;
        checked.put((0..32).map(|place| first + 3 * place));
        if number % 3 == 0 {
            let key = (number * 11) % 700;
            checked.commit(&[judged(number + 1, Write::Delete(key), Outcome::Applied)]);
        }
        // A fold takes some 14 commits.
        if number % 40 == 0 || number > batches && number % batches < 16 {
            let expected = without_first_start(checked.expected.clone());
            assert_eq!(what_a_kill_leaves(&folder), expected, "batch {number}");
            checked.check();
        }
        if number > batches + 40 {
            least = least.min(count(&checked.store, "journal"));
        }
    }
    assert!(least < batches, "batches that are folded are removed: {least}");
}

#[test]
fn a_fold_writes_some_rows_with_each_commit_and_then_removes_its_batches() {
    let folder = Folder::new("journal-parts");
    let mut checked = Checked::started(&folder);
    let gathered = GATHERED_CHANGES as u64;
    (0..gathered / 128).for_each(|batch| checked.put((0..128).map(|place| 128 * batch + place)));
    let batches = gathered / 128;
    let counts = |it: &Checked| (count(&it.store, "journal"), count(&it.store, "entry"));
    assert_eq!(counts(&checked), (batches, 0));
    let rows = FOLDED_ROWS as u64 + 1;
    let parts = gathered.div_ceil(rows);
    for part in 1..=parts {
        checked.put([gathered].into_iter());
        assert_eq!(counts(&checked), (batches + part, gathered.min(part * rows)));
        if part % 16 == 1 {
            checked.check();
        }
    }
    checked.put([gathered].into_iter());
    assert_eq!(counts(&checked), (parts + 1, gathered));
    checked.check();
}

#[test]
fn batches_that_are_folded_are_removed_some_at_a_time() {
    let folder = Folder::new("journal-removed");
    let mut checked = Checked::started(&folder);
    (0..GATHERED_CHANGES).for_each(|_| checked.put([5].into_iter()));
    let mut before = count(&checked.store, "journal");
    assert_eq!(before, GATHERED_CHANGES as u64);
    // The one row comes with the first of these commits.
    for _ in 0..=GATHERED_CHANGES as u64 / REMOVED_BATCHES {
        checked.put([6].into_iter());
        let now = count(&checked.store, "journal");
        assert!(now == before + 1 || now == before + 1 - REMOVED_BATCHES, "{before}, then {now}");
        before = now;
        checked.check();
    }
    assert_eq!(before, 1 + GATHERED_CHANGES as u64 / REMOVED_BATCHES);
}

#[test]
fn the_journal_is_read_again_after_a_batch_that_is_refused() {
    let folder = Folder::new("journal-refused");
    let mut checked = Checked::started(&folder);
    checked.put([3, 4].into_iter());
    let bad = Change::Registered { client: 1, incarnation: u64::MAX };
    assert!(checked.store.commit(&[put(9, 9), bad]).is_err());
    checked.check();
    checked.put([4, 5].into_iter());
    checked.check();
}

#[test]
fn what_no_server_writes_comes_after_the_journal() {
    let folder = Folder::new("journal-rows");
    let mut checked = Checked::started(&folder);
    checked.put([10, 11].into_iter());
    checked.store.write_rows([row(10, b"later")]).unwrap();
    checked.expected.rows.insert(10, row(10, b"later").value);
    checked.commits += 1;
    checked.check();
    checked.put([12].into_iter());
    checked.store.cut_off(11, &Snapshot::default(), None).unwrap();
    checked.expected.rows.split_off(&11);
    checked.commits += 1;
    checked.check();
}

#[test]
fn a_damaged_journal_is_reported() {
    let folder = Folder::new("journal-damaged");
    let Checked { mut store, .. } = Checked::started(&folder);
    store.connection.execute_batch("INSERT INTO journal VALUES (2, x'0909')").unwrap();
    for refused in [store.snapshot().map(drop), store.load().map(drop), store.write_rows([])] {
        assert!(refused.unwrap_err().to_string().contains("damaged"));
    }
}
