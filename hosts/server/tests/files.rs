//! Rows of files into stores and out of them, checksums of backups, and dates of certificates.
mod common;

use common::{Serving, errors, run, text, until};
use krl::operate::Room;
use krl::store::{Record, Snapshot};
use krl::{Outcome, SqliteStore, Value};
use std::path::{Path, PathBuf};
use std::process::{Command, Output};
use tempfile::TempDir;

struct Folder(TempDir);

impl Folder {
    fn new() -> Folder {
        Folder(tempfile::tempdir().unwrap())
    }

    fn path(&self, name: &str) -> PathBuf {
        self.0.path().join(name)
    }

    fn name(&self, name: &str) -> String {
        self.path(name).to_str().unwrap().to_string()
    }

    /// The name of a file with this text.
    fn file(&self, name: &str, text: &str) -> String {
        std::fs::write(self.path(name), text).unwrap();
        self.name(name)
    }
}

fn import(file: &str, store: &str, words: &[&str]) -> Output {
    run(&[&["import", file, "--store", store], words].concat())
}

/// The status, and what was printed.
fn ended(output: &Output) -> (Option<i32>, String) {
    (output.status.code(), text(output) + &errors(output))
}

fn rows(store: &Path) -> Vec<(u64, Value)> {
    SqliteStore::read(store).unwrap().snapshot.rows.into_iter().collect()
}

#[test]
fn a_new_store_has_the_rows_of_a_file_and_a_server_serves_them() {
    let folder = Folder::new();
    let (store, file) = (folder.name("krl.db"), "key,value\n5,five\n3,\"a,b\"\n9,u64:9\n");
    let csv = folder.file("rows.csv", file);
    let printed = format!("{store}: imported 3 rows; it has 3\n");
    assert_eq!(ended(&import(&csv, &store, &[])), (Some(0), printed));
    let serving = Serving::start(Path::new(&store));
    let refused = run(&["export", &store]);
    assert!(errors(&refused).contains("`krl-client export` asks a server"), "{refused:?}");
    let refused = import(&csv, &store, &["--existing", "replace"]);
    assert!(errors(&refused).contains("is served already"), "{refused:?}");
    let client = serving.join(folder.0.path(), 1);
    assert_eq!(client.read(..).unwrap().len(), 3);
    assert_eq!(client.put(9, Value::from(10)), Ok(Outcome::Applied));
    client.leave().unwrap();
    serving.signal(&["TERM"]);
    serving.ended();
    let printed = text(&run(&["export", &store]));
    assert_eq!(printed, "key,value\n3,\"a,b\"\n5,five\n9,u64:10\n");
    let lines = folder.file("rows.jsonl", &text(&run(&["export", &store, "--json"])));
    let other = folder.name("other.db");
    assert_eq!(import(&lines, &other, &[]).status.code(), Some(0));
    assert_eq!(rows(Path::new(&other)), rows(Path::new(&store)));
}

#[test]
fn a_store_that_is_there_takes_all_rows_or_none() {
    let folder = Folder::new();
    let store = folder.name("krl.db");
    import(&folder.file("old.csv", "5,old\n7,old\n"), &store, &[]);
    // A server has served it.
    let serving = Serving::start(Path::new(&store));
    serving.signal(&["TERM"]);
    serving.ended();
    let before = SqliteStore::read(&store).unwrap();
    let new = folder.file("new.csv", "key,value\n6,new\n7,new\n");
    let (status, printed) = ended(&import(&new, &store, &[]));
    assert_eq!(status, Some(1));
    assert!(printed.contains("line 3: the store has a row of key 7: --existing keep"), "{printed}");
    assert_eq!(SqliteStore::read(&store).unwrap(), before);
    let printed = format!("{store}: imported 1 rows, 1 were there and stay; it has 3\n");
    assert_eq!(ended(&import(&new, &store, &["--existing", "keep"])), (Some(0), printed));
    assert_eq!(text(&run(&["export", &store])), "key,value\n5,old\n6,new\n7,old\n");
    assert_eq!(import(&new, &store, &["--existing", "replace"]).status.code(), Some(0));
    assert_eq!(text(&run(&["export", &store])), "key,value\n5,old\n6,new\n7,new\n");
    let after = SqliteStore::read(&store).unwrap().snapshot;
    assert_eq!((after.epoch, after.first_start), (1, before.snapshot.first_start));
    for (text, message) in
        [("1,a\nx,b\n", "line 2: 'x' is not a key"), ("1,a\n1,b\n", "line 2: the key 1")]
    {
        let (status, printed) = ended(&import(&folder.file("bad.csv", text), &store, &[]));
        assert_eq!(status, Some(2));
        assert!(printed.contains(message), "{printed}");
    }
    assert_eq!(rows(Path::new(&store)).len(), 3);
}

#[test]
fn a_store_whose_clients_may_still_answer_is_not_changed() {
    let folder = Folder::new();
    let store = folder.path("krl.db");
    let record = Record { client: 3, incarnation: 5, last: None, left: false };
    let snapshot = Snapshot { epoch: 1, records: vec![record], ..Snapshot::default() };
    SqliteStore::create(&store, &snapshot).unwrap();
    let (status, printed) =
        ended(&import(&folder.file("a.csv", "1,a\n"), &folder.name("krl.db"), &[]));
    assert_eq!(status, Some(1));
    assert!(printed.contains("has clients that have not left: 3"), "{printed}");
    assert_eq!(rows(&store), []);
}

#[test]
fn a_store_may_have_more_rows_than_a_server_by_default() {
    let folder = Folder::new();
    let rows = Room::default().rows() as u64 + 1;
    let text =
        (0..rows).map(|key| format!("{},value {key}\n", 8 * key)).collect::<Vec<_>>().concat();
    let (csv, store) = (folder.file("rows.csv", &text), folder.name("krl.db"));
    let printed = format!("{store}: imported {rows} rows; it has {rows}\n");
    assert_eq!(ended(&import(&csv, &store, &[])), (Some(0), printed));
    let serving = Serving::start(Path::new(&store));
    until("its rows are shown", || {
        serving.get("/metrics").1.contains(&format!("\nkrl_rows {rows}\n"))
    });
}

#[test]
fn a_damaged_backup_is_reported_by_all_that_reads_it() {
    let folder = Folder::new();
    let [store, backup, new] = ["krl.db", "backup.db", "new.db"].map(|name| folder.name(name));
    import(&folder.file("rows.csv", "5,a value that is easy to find\n"), &store, &[]);
    assert!(text(&run(&["check", &store])).contains("checksum: it matches\n"));
    let serving = Serving::start(Path::new(&store));
    assert_eq!(run(&["backup", &serving.status, &backup]).status.code(), Some(0));
    assert!(serving.sample("krl_last_backup_timestamp_seconds") > 1e9);
    serving.signal(&["TERM"]);
    serving.ended();
    assert!(text(&run(&["check", &store])).contains("checksum: none, as of a store"));
    assert!(text(&run(&["check", &backup])).contains("checksum: it matches\n"));
    let mut bytes = std::fs::read(&backup).unwrap();
    let at = bytes.windows(7).position(|part| part == b"a value").unwrap();
    bytes[at] ^= 1;
    std::fs::write(&backup, bytes).unwrap();
    let checked = run(&["check", &backup]);
    assert_eq!(checked.status.code(), Some(1));
    for line in ["checksum: it does not match\n", "it is damaged: take another backup\n"] {
        assert!(text(&checked).contains(line), "{checked:?}");
    }
    for words in [
        &["restore", &backup, "--store", &new, "--clients-are-stopped"][..],
        &["export", &backup],
        &["split", &backup, "7", &new],
        &["serve", "--store", &backup, "--listen", "127.0.0.1:0", "--status", "off"],
    ] {
        let refused = run(words);
        assert_eq!(refused.status.code(), Some(1), "{words:?}");
        assert!(errors(&refused).contains("the file is damaged"), "{}", errors(&refused));
    }
    assert!(!Path::new(&new).exists());
}

#[test]
fn certificates_are_checked_with_their_dates() {
    let folder = Folder::new();
    let script = concat!(env!("CARGO_MANIFEST_DIR"), "/../packaging/certificates");
    let mut make = Command::new(script);
    make.env("KRL_DAYS", "30").arg(folder.0.path()).args(["server", "client-3"]);
    assert!(make.output().unwrap().status.success());
    let server = folder.name("server.crt");
    let (status, printed) = ended(&run(&["check", &server]));
    assert_eq!(status, Some(0), "{printed}");
    for line in ["names: krl:server\n", "valid from: ", "valid until: ", "it is valid for "] {
        assert!(printed.contains(line), "{printed}");
    }
    assert_eq!(run(&["check", &server, "--days", "29"]).status.code(), Some(0));
    let (status, printed) = ended(&run(&["check", &server, "--days", "31"]));
    assert_eq!(status, Some(1), "{printed}");
    assert!(printed.ends_with("days more, and not for 31 days\n"), "{printed}");
    let [chain, broken] = ["chain.crt", "broken.crt"].map(|name| folder.name(name));
    let both = ["server.crt", "client-3.crt"].map(|it| std::fs::read(folder.path(it)).unwrap());
    std::fs::write(&chain, both.concat()).unwrap();
    let (_, printed) = ended(&run(&["check", &chain]));
    assert!(printed.contains("krl:server") && printed.contains("krl:client:3"), "{printed}");
    std::fs::write(&broken, "-----BEGIN CERTIFICATE-----\nAAAA\n-----END CERTIFICATE-----\n")
        .unwrap();
    let (status, printed) = ended(&run(&["check", &broken]));
    assert_eq!(status, Some(1));
    assert!(printed.contains("has no certificate that can be read"), "{printed}");
}

/// A store whose server was killed is read where nothing can be written.
#[test]
fn a_store_with_a_log_is_read_on_a_full_disk() {
    let folder = Folder::new();
    let store = folder.path("krl.db");
    let serving = Serving::start(&store);
    let client = serving.join(folder.0.path(), 1);
    assert_eq!(client.insert(7, Value::from(7)), Ok(Outcome::Applied));
    serving.signal(&["KILL"]);
    serving.ended();
    assert!(std::fs::metadata(folder.path("krl.db-wal")).unwrap().len() > 0);
    // A file that grows beyond its limit fails as one on a full disk does.
    let full = "trap '' XFSZ; ulimit -f 0; exec \"$0\" \"$@\"";
    for (command, message) in [("check", "rows: 1\n"), ("export", "7,u64:7\n")] {
        let mut shell = Command::new("sh");
        shell.args(["-c", full, env!("CARGO_BIN_EXE_krl-server"), command]);
        let read = shell.arg(&store).output().unwrap();
        assert!(text(&read).contains(message), "{read:?}");
    }
}

#[test]
fn shells_complete_its_words() {
    for shell in ["bash", "zsh", "fish"] {
        let script = text(&run(&["completion", shell]));
        assert!(script.contains("krl-server") && script.contains("restore"), "{shell}");
    }
    let refused = run(&["imprt", "a.csv"]);
    assert_eq!(refused.status.code(), Some(2));
    assert!(errors(&refused).contains("'import'"), "{}", errors(&refused));
}
