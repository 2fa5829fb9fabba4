//! Commands that are killed before each of their changes of a file, and repeated with the same
//! arguments: nothing is lost, doubled or left unfinished.
mod common;

use common::{Serving, errors, killer, program, run, text};
use krl::store::{KeptShard, Record, Snapshot};
use krl::{Outcome, SqliteStore, Value};
use std::fs;
use std::ops::Range;
use std::os::unix::process::ExitStatusExt;
use std::path::Path;

const SIGKILL: i32 = 9;

const MAP: &str = "version = 3\n\n[[shard]]\nfirst = 0\nservers = \"127.0.0.1:1\"\n";
const MAP_OF_TWO: &str = "\
    version = 4\n\n[[shard]]\nfirst = 0\nservers = \"127.0.0.1:1\"\n\n\
    [[shard]]\nfirst = 20\nservers = \"127.0.0.1:2\"\n";

/// A store that a server has served, and of which each client has left.
fn store(keys: Range<u64>) -> Snapshot {
    let record =
        Record { client: 3, incarnation: 5, last: Some((4, Outcome::Applied)), left: true };
    let rows = keys.map(|key| (key, Value::from(key))).collect();
    Snapshot { epoch: 7, rows, records: vec![record], ..Snapshot::default() }
}

fn rows(file: &Path) -> Vec<u64> {
    SqliteStore::read(file).unwrap().snapshot.rows.into_keys().collect()
}

fn keys(keys: Range<u64>) -> Vec<u64> {
    keys.collect()
}

/// Kills the command before its first change of a file, repeats it and judges what there is then;
/// and so on with each later change, until the command ends before it. Each time it begins with
/// what `prepare` makes in an empty folder, where it runs.
fn killed_at_each_change(words: &[&str], prepare: impl Fn(&Path), judge: impl Fn(&Path)) {
    let library = tempfile::tempdir().unwrap();
    let killer = killer(library.path());
    for change in 1.. {
        let folder = tempfile::tempdir().unwrap();
        prepare(folder.path());
        let command = || {
            let mut command = program();
            command.args(words).current_dir(folder.path());
            command
        };
        let mut interrupted = command();
        interrupted.env("LD_PRELOAD", &killer).env("KILL_BEFORE_CHANGE", change.to_string());
        let interrupted = interrupted.output().unwrap();
        refuse_two_owners(folder.path());
        let again = command().output().unwrap();
        assert_eq!(again.status.code(), Some(0), "before change {change}: {}", errors(&again));
        refuse_two_owners(folder.path());
        judge(folder.path());
        if interrupted.status.code() == Some(0) {
            assert!(change > 1, "no change was counted");
            return;
        }
        assert_eq!(interrupted.status.signal(), Some(SIGKILL), "{}", errors(&interrupted));
    }
}

/// The shards of the stores in the folder on which a server may start. No two of them have a key in
/// common, whatever a service manager starts.
fn refuse_two_owners(folder: &Path) {
    let files = fs::read_dir(folder).unwrap().map(|file| file.unwrap().path());
    let stores = files.filter(|file| file.extension().is_some_and(|end| end == "db"));
    let shards = stores.filter_map(|store| SqliteStore::read(store).ok()?.snapshot.shard);
    let mut open: Vec<KeptShard> = shards.filter(|shard| !shard.is_sealed).collect();
    open.sort_by_key(|shard| shard.bounds.keys().start);
    for pair in open.windows(2) {
        let [lower, upper] = [pair[0], pair[1]].map(|shard| shard.bounds.keys());
        assert!(lower.end <= upper.start, "{open:?}");
    }
}

/// Which shard the store is of.
fn kept(store: &Path) -> String {
    let shard = SqliteStore::read(store).unwrap().snapshot.shard;
    shard.map(|shard| shard.to_string()).unwrap_or_default()
}

/// The same store, which is of this shard.
fn of_shard(shard: &str, store: Snapshot) -> Snapshot {
    Snapshot { shard: Some(shard.parse().unwrap()), ..store }
}

#[test]
fn a_split_loses_no_row() {
    let words = "split krl.db 20 upper.db --map 3.toml --servers 127.0.0.1:2 --new-map 4.toml";
    let words: Vec<&str> = words.split(' ').collect();
    let prepare = |folder: &Path| {
        let whole = of_shard("0..@3", store(0..40));
        SqliteStore::create(folder.join("krl.db"), &whole).unwrap();
        fs::write(folder.join("3.toml"), MAP).unwrap();
    };
    killed_at_each_change(&words, prepare, |folder| {
        assert_eq!(rows(&folder.join("krl.db")), keys(0..20));
        assert_eq!(rows(&folder.join("upper.db")), keys(20..40));
        assert_eq!(fs::read_to_string(folder.join("4.toml")).unwrap(), MAP_OF_TWO);
        assert_eq!(
            ["krl.db", "upper.db"].map(|name| kept(&folder.join(name))),
            ["0..20@4", "20..@4"]
        );
    });
}

#[test]
fn a_merge_makes_the_whole_store() {
    let words = "merge krl.db upper.db whole.db --map 4.toml --at 20 --new-map 5.toml";
    let words: Vec<&str> = words.split(' ').collect();
    let prepare = |folder: &Path| {
        for (name, shard, keys) in [("krl.db", "0..20@4", 0..20), ("upper.db", "20..@4", 20..40)] {
            SqliteStore::create(folder.join(name), &of_shard(shard, store(keys))).unwrap();
        }
        fs::write(folder.join("4.toml"), MAP_OF_TWO).unwrap();
    };
    killed_at_each_change(&words, prepare, |folder| {
        assert_eq!(rows(&folder.join("whole.db")), keys(0..40));
        let map = fs::read_to_string(folder.join("5.toml")).unwrap();
        assert_eq!(map, MAP.replace("version = 3", "version = 5"));
        let shards = ["krl.db", "upper.db", "whole.db"].map(|name| kept(&folder.join(name)));
        assert_eq!(shards, ["0..20@5 sealed", "20..@5 sealed", "0..@5"]);
    });
}

#[test]
fn an_import_writes_all_rows_once() {
    let lines = (20..40).map(|key| format!("{key},v{key}\n")).collect::<Vec<_>>().concat();
    let words = ["import", "rows.csv", "--store", "krl.db"];
    for (there, is_made) in [(0..0, false), (0..20, true)] {
        let prepare = |folder: &Path| {
            fs::write(folder.join("rows.csv"), &lines).unwrap();
            if is_made {
                SqliteStore::create(folder.join("krl.db"), &store(there.clone())).unwrap();
            }
        };
        killed_at_each_change(&words, prepare, |folder| {
            let expected = keys(there.clone()).into_iter().chain(20..40);
            assert!(rows(&folder.join("krl.db")).into_iter().eq(expected));
        });
    }
}

#[test]
fn a_restore_makes_the_whole_store() {
    let words = ["restore", "monday.db", "--store", "krl.db", "--clients-are-stopped"];
    let prepare = |folder: &Path| {
        SqliteStore::create(folder.join("monday.db"), &store(0..40)).unwrap();
    };
    killed_at_each_change(&words, prepare, |folder| {
        let restored = SqliteStore::read(folder.join("krl.db")).unwrap().snapshot;
        assert_eq!(restored.epoch, (1 << 32) + 7);
        assert_eq!(rows(&folder.join("krl.db")), keys(0..40));
    });
}

#[test]
fn a_backup_is_whole_until_the_table_changes() {
    let folder = tempfile::tempdir().unwrap();
    let served = folder.path().join("krl.db");
    SqliteStore::create(&served, &store(0..40)).unwrap();
    let serving = Serving::start(&served);
    let words = ["backup", &serving.status, "monday.db"];
    killed_at_each_change(
        &words,
        |_| {},
        |folder| {
            assert_eq!(rows(&folder.join("monday.db")), keys(0..40));
        },
    );
    let backup = folder.path().join("monday.db");
    let words = ["backup", &serving.status, backup.to_str().unwrap()];
    assert_eq!(run(&words).status.code(), Some(0));
    let client = serving.join(folder.path(), 4);
    assert_eq!(client.insert(50, Value::from(50)), Ok(Outcome::Applied));
    let refused = run(&words);
    assert_eq!(refused.status.code(), Some(1));
    assert!(errors(&refused).contains("there is a file"), "{}", errors(&refused));
    assert_eq!(rows(&backup), keys(0..40), "the backup is as it was");
}

#[test]
fn a_split_that_moves_no_row_has_to_be_asked_for() {
    let folder = tempfile::tempdir().unwrap();
    let path = |name: &str| folder.path().join(name).to_str().unwrap().to_string();
    let [krl, upper] = ["krl.db", "upper.db"].map(path);
    SqliteStore::create(&krl, &store(0..20)).unwrap();
    let refused = run(&["split", &krl, "20", &upper]);
    assert_eq!(refused.status.code(), Some(1));
    assert!(errors(&refused).contains("--allow-empty"), "{}", errors(&refused));
    assert!(!Path::new(&upper).exists());
    let words = ["split", &krl, "20", &upper, "--allow-empty"];
    for _ in 0..2 {
        let done = run(&words);
        assert_eq!(done.status.code(), Some(0), "{}", errors(&done));
        assert!(text(&done).contains("0 rows from 20 on"), "{}", text(&done));
    }
}

#[test]
fn a_split_takes_no_other_store_for_its_own() {
    let folder = tempfile::tempdir().unwrap();
    let path = |name: &str| folder.path().join(name).to_str().unwrap().to_string();
    let [krl, other] = ["krl.db", "other.db"].map(path);
    // Of the same epoch and with the same records.
    SqliteStore::create(&krl, &store(0..20)).unwrap();
    SqliteStore::create(&other, &store(20..40)).unwrap();
    let refused = run(&["split", &krl, "20", &other]);
    assert_eq!(refused.status.code(), Some(1), "{}", text(&refused));
    let why = format!("{other} is not the new store of a split at this key");
    assert!(errors(&refused).contains(&why), "{}", errors(&refused));
    assert_eq!([rows(Path::new(&krl)), rows(Path::new(&other))], [keys(0..20), keys(20..40)]);
}

#[test]
fn a_split_does_not_continue_over_a_store_that_was_served_since() {
    let folder = tempfile::tempdir().unwrap();
    let path = |name: &str| folder.path().join(name).to_str().unwrap().to_string();
    let [krl, upper] = ["krl.db", "upper.db"].map(path);
    SqliteStore::create(&krl, &store(0..40)).unwrap();
    let words = ["split", &krl, "20", &upper];
    assert_eq!(run(&words).status.code(), Some(0));
    let serving = Serving::start(Path::new(&krl));
    serving.signal(&["TERM"]);
    assert_eq!(serving.ended().status.code(), Some(0));
    let refused = run(&words);
    assert_eq!(refused.status.code(), Some(1));
    assert!(errors(&refused).contains("nothing would move"), "{}", errors(&refused));
    assert_eq!(rows(Path::new(&upper)), keys(20..40));
}
