//! Stores as files: one that is read, and a new one that is written.
use crate::model::kept_shard::KeptShard;
use crate::model::snapshot::Snapshot;
use crate::store::StoreError;
use crate::store::replaced_file::beside;
use crate::store::sqlite::checksum::{self, Checksum, CutOff};
use crate::store::sqlite::copy::part::Part;
use crate::store::sqlite::name::store_file;
use crate::store::sqlite::version::{self, Found, VERSION, look};
use crate::store::sqlite::{self, SqliteStore};
use rusqlite::config::DbConfig;
use rusqlite::{Connection, ErrorCode, OpenFlags};
use std::fs::File;
use std::io::{self, ErrorKind, Read};
use std::os::unix::ffi::OsStrExt;
use std::path::Path;

pub(super) mod part;

/// What a file has that is only read.
#[derive(Clone, Debug, PartialEq, Eq)]
#[non_exhaustive]
pub struct StoreFile {
    /// The version of its tables: 0 in a file of before there were versions.
    pub version: i64,
    /// The size of its pages, in bytes.
    pub page_size: i64,
    /// All that was kept.
    pub snapshot: Snapshot,
    /// Whether that is what was written when the file was made, if no server has opened it since.
    pub checksum: Checksum,
    /// What was last cut off from the store, if something was.
    pub cut_off: Option<CutOff>,
}

impl StoreFile {
    /// The same, unless it differs from its checksum.
    ///
    /// # Errors
    ///
    /// If the file is damaged.
    pub fn undamaged(self) -> Result<StoreFile, StoreError> {
        match self.checksum {
            Checksum::Differs => Err(StoreError::failed(checksum::DIFFERS)),
            Checksum::Matches | Checksum::Absent => Ok(self),
        }
    }
}

impl SqliteStore {
    /// Reads the file, and changes nothing in it. Nobody may write to it meanwhile. One that
    /// differs from its checksum is read too: [`StoreFile::undamaged`] refuses it.
    ///
    /// # Errors
    ///
    /// If there is no such file, it is no store, or its version is unknown; if a server runs on it.
    pub fn read(path: impl AsRef<Path>) -> Result<StoreFile, StoreError> {
        let connection = open_to_read(&store_file(path)?)?;
        let version = match look(&connection)? {
            Found::New => return Err(StoreError::failed("the file is empty: it is not a store")),
            Found::Bare => return Err(StoreError::failed(version::BARE)),
            Found::Older(version) => version,
            Found::Current => VERSION,
        };
        let page_size = sqlite::page_size(&connection)?;
        let snapshot = sqlite::load(&connection)?;
        let checksum = checksum::compare(&connection, &snapshot)?;
        let cut_off = CutOff::read(&connection)?;
        Ok(StoreFile { version, page_size, snapshot, checksum, cut_off })
    }

    /// Looks at the first bytes of the file, and opens nothing by SQLite: so it does not matter
    /// whether a server runs on it.
    ///
    /// # Errors
    ///
    /// If the file is plainly no store, or can't be read. One that is not there is no error.
    pub fn judge_first_bytes(path: impl AsRef<Path>) -> Result<(), StoreError> {
        let mut bytes = Vec::new();
        match File::open(path.as_ref()) {
            Ok(file) => file.take(FIRST_BYTES).read_to_end(&mut bytes)?,
            Err(error) if error.kind() == ErrorKind::NotFound => return Ok(()),
            Err(error) => return Err(error.into()),
        };
        version::judge_first_bytes(&bytes).map_err(StoreError::failed)
    }

    /// Writes the snapshot as a new store, which only its owner may read and write. When this
    /// returns, the file is on the disk under its name. If it fails there is no file of that name.
    /// It is written under a name of its own first, next to it; what calls that were cut off have
    /// left under such a name is removed.
    ///
    /// Of a history the new store has only the snapshot's first start: to a client that has seen
    /// the store of the snapshot, it is one that went back. Without a first start it is another
    /// store to each client that has seen one.
    ///
    /// A file that an earlier call has made of the same snapshot, and that no server has opened
    /// since, stays as it is: so a command that was killed may be repeated.
    ///
    /// # Errors
    ///
    /// If there is another file of that name already, or one that SQLite would take for a log of
    /// the new store; or if it can't be written.
    pub fn create(path: impl AsRef<Path>, snapshot: &Snapshot) -> Result<(), StoreError> {
        let path = &store_file(path)?;
        if is_made_of(path, snapshot) {
            // The call that made it may have been killed before this, and one that unsealed it may
            // have left a log.
            return sync_folder_of(path).map_err(Into::into);
        }
        for end in ["-wal", "-shm", "-journal"] {
            refuse_taken(&beside(path, end))?;
        }
        refuse_taken(path)?;
        part::remove_leftovers(path);
        let part = Part::new(path)?;
        write(part.path(), snapshot)?;
        part.take_name(path)?;
        sync_folder_of(path).map_err(Into::into)
    }
}

/// This many bytes of a file of SQLite have its application id.
const FIRST_BYTES: u64 = 100;

/// A store whose server has shut down cleanly has no log, or an empty one. Then the file is opened
/// as one to which nobody writes. A log that has something in it is read too. A server that runs
/// has one, and keeps others off. SQLite leaves no files next to it in either case.
fn open_to_read(path: &Path) -> Result<Connection, StoreError> {
    if let Err(error) = path.metadata() {
        return Err(StoreError::failed(match error.kind() {
            ErrorKind::NotFound => "there is no such file".to_string(),
            _ => error.to_string(),
        }));
    }
    let flags = OpenFlags::SQLITE_OPEN_READ_ONLY | OpenFlags::SQLITE_OPEN_NO_MUTEX;
    let log = beside(path, "-wal").metadata();
    if log.is_ok_and(|file| file.len() > 0) {
        return match open_with_log(path) {
            Err(error) if error.sqlite_error_code() != Some(ErrorCode::DatabaseBusy) => {
                // It may not be written.
                Ok(Connection::open_with_flags(path, flags)?)
            }
            opened => Ok(opened?),
        };
    }
    let uri = format!("file:{}?immutable=1", percent_encoded(path));
    Ok(Connection::open_with_flags(uri, flags | OpenFlags::SQLITE_OPEN_URI)?)
}

/// Opens a file with a log, and writes to neither of them. Nobody else may open it meanwhile, so that
/// SQLite keeps the index of the log in memory: on a full disk there is no room for a file of it.
fn open_with_log(path: &Path) -> rusqlite::Result<Connection> {
    let flags = OpenFlags::SQLITE_OPEN_READ_WRITE | OpenFlags::SQLITE_OPEN_NO_MUTEX;
    let connection = Connection::open_with_flags(path, flags)?;
    connection.set_db_config(DbConfig::SQLITE_DBCONFIG_NO_CKPT_ON_CLOSE, true)?;
    connection.pragma_update(None, "query_only", true)?;
    connection.pragma_update(None, "locking_mode", "EXCLUSIVE")?;
    connection.query_row("PRAGMA schema_version", [], |_| Ok(()))?;
    Ok(connection)
}

/// The path as a part of a URI.
fn percent_encoded(path: &Path) -> String {
    let encoded = |byte: &u8| match byte {
        b'/' | b'.' | b'-' | b'_' | b'0'..=b'9' | b'a'..=b'z' | b'A'..=b'Z' => {
            char::from(*byte).to_string()
        }
        _ => format!("%{byte:02X}"),
    };
    path.as_os_str().as_bytes().iter().map(encoded).collect()
}

/// Whether the file is a new store of the snapshot, which no server has opened. It may be unsealed
/// since.
fn is_made_of(path: &Path, snapshot: &Snapshot) -> bool {
    let found = SqliteStore::read(path);
    let opened = snapshot.shard.map(|shard| KeptShard::open(shard.bounds));
    found.is_ok_and(|StoreFile { checksum, snapshot: found, .. }| {
        let is_same = found == (Snapshot { shard: found.shard, ..snapshot.clone() });
        checksum == Checksum::Matches && is_same && [snapshot.shard, opened].contains(&found.shard)
    })
}

fn refuse_taken(path: &Path) -> Result<(), StoreError> {
    if path.symlink_metadata().is_ok() { Err(exists(path)) } else { Ok(()) }
}

fn exists(path: &Path) -> StoreError {
    StoreError::failed(format!("there is a file {} already", path.display()))
}

fn write(path: &Path, snapshot: &Snapshot) -> Result<(), StoreError> {
    let connection = Connection::open(path)?;
    sqlite::set_page_size(&connection)?;
    sqlite::prepare(&connection)?;
    sqlite::save(&connection, snapshot)?;
    connection.close().map_err(|(_, error)| error.into())
}

/// A new name is on the disk only when its folder is synced.
fn sync_folder_of(path: &Path) -> io::Result<()> {
    match path.parent() {
        Some(folder) if !folder.as_os_str().is_empty() => File::open(folder)?.sync_all(),
        _ => File::open(".")?.sync_all(),
    }
}

impl From<io::Error> for StoreError {
    fn from(error: io::Error) -> StoreError {
        StoreError::Failed(Box::new(error))
    }
}

#[cfg(test)]
pub(crate) mod tests {
    use super::*;
    use crate::model::change::{Change, Outcome, Record};
    use crate::model::history::Comparison;
    use crate::model::lease_record::LeaseRecord;
    use crate::model::room::Room;
    use crate::model::row::Value;
    use crate::store::Store;
    use std::os::unix::fs::PermissionsExt;
    use std::path::PathBuf;

    pub struct Folder(pub PathBuf);

    impl Folder {
        pub fn new(name: &str) -> Folder {
            let folder =
                std::env::temp_dir().join(format!("krl-copy-{}-{name}", std::process::id()));
            std::fs::create_dir_all(&folder).unwrap();
            Folder(folder)
        }

        pub fn names(&self) -> Vec<String> {
            let names = std::fs::read_dir(&self.0).unwrap();
            let names = names.map(|it| it.unwrap().file_name().into_string().unwrap());
            let mut names: Vec<_> = names.collect();
            names.sort();
            names
        }
    }

    impl Drop for Folder {
        fn drop(&mut self) {
            let _ = std::fs::remove_dir_all(&self.0);
        }
    }

    fn snapshot() -> Snapshot {
        let record =
            |client, last, left| Record { client, incarnation: 5 + u64::from(client), last, left };
        Snapshot {
            epoch: 7,
            rows: (0..1000).map(|key| (3 * key, Value::from(key))).collect(),
            records: vec![
                record(9, Some((4, Outcome::Exists)), false),
                record(2, None, true),
                record(63, Some((1, Outcome::Applied)), false),
            ],
            leases: LeaseRecord { longest: 12, unleased: [2, 9].into_iter().collect() },
            room: Room::of(1_000_000).ok(),
            shard: "0..@9".parse().ok(),
            first_start: Some(1 << 127 | 5),
        }
    }

    #[test]
    fn a_new_store_has_the_snapshot() {
        let folder = Folder::new("new");
        let file = folder.0.join("copy.db");
        SqliteStore::create(&file, &snapshot()).unwrap();
        assert_eq!(folder.names(), ["copy.db"]);
        assert_eq!(file.metadata().unwrap().permissions().mode() & 0o777, 0o600);
        let (checksum, cut_off) = (Checksum::Matches, None);
        let expected =
            StoreFile { version: 7, page_size: 1024, snapshot: snapshot(), checksum, cut_off };
        assert_eq!(SqliteStore::read(&file).unwrap(), expected);
        assert_eq!(folder.names(), ["copy.db"]);
        assert_eq!(SqliteStore::open(&file).unwrap().load().unwrap(), snapshot());
        assert_eq!(SqliteStore::read(&file).unwrap().checksum, Checksum::Absent, "it was opened");
    }

    #[test]
    fn a_damaged_copy_is_reported_and_not_opened() {
        let folder = Folder::new("damaged");
        let changes = [
            "UPDATE entry SET value = x'ff' WHERE key = 3",
            "DELETE FROM entry WHERE key = 3",
            "UPDATE epoch SET epoch = 8",
            "UPDATE record SET incarnation = 99 WHERE client = 9",
            "UPDATE checksum SET sha256 = x'00'",
            "DELETE FROM checksum",
        ];
        for (place, change) in changes.iter().enumerate() {
            let file = folder.0.join(format!("{place}.db"));
            SqliteStore::create(&file, &snapshot()).unwrap();
            Connection::open(&file).unwrap().execute_batch(change).unwrap();
            let read = SqliteStore::read(&file).unwrap();
            assert_eq!(read.checksum, Checksum::Differs, "{change}");
            let refused = [read.undamaged().map(drop), SqliteStore::open(&file).map(drop)];
            for refused in refused.map(|it| it.unwrap_err().to_string()) {
                assert!(refused.contains("the file is damaged"), "{refused}");
            }
        }
    }

    #[test]
    fn a_byte_of_a_value_that_changes_on_the_disk_is_noticed() {
        let folder = Folder::new("byte");
        let file = folder.0.join("copy.db");
        let value = Value::try_from("a value that is easy to find").unwrap();
        let rows = [(5, value)].into();
        SqliteStore::create(&file, &Snapshot { rows, ..snapshot() }).unwrap();
        let mut bytes = std::fs::read(&file).unwrap();
        let at = bytes.windows(7).position(|part| part == b"a value").unwrap();
        bytes[at] = b'b';
        std::fs::write(&file, bytes).unwrap();
        assert_eq!(SqliteStore::read(&file).unwrap().checksum, Checksum::Differs);
    }

    #[test]
    fn a_copy_has_the_first_start_and_lacks_what_came_after_it() {
        let folder = Folder::new("first-start");
        let [file, copy] = ["store.db", "copy.db"].map(|name| folder.0.join(name));
        let mut store = SqliteStore::open(&file).unwrap();
        for epoch in [1, 2] {
            store.commit(&[Change::Started { epoch }]).unwrap();
        }
        let history = store.history().unwrap().unwrap();
        let snapshot = store.snapshot().unwrap();
        assert_eq!(snapshot.first_start, history.first_start());
        SqliteStore::create(&copy, &snapshot).unwrap();
        let mut copied = SqliteStore::open(&copy).unwrap();
        copied.commit(&[Change::Started { epoch: 9 }]).unwrap();
        let of_copy = copied.history().unwrap().unwrap();
        assert_eq!(of_copy.compare(history.seen().unwrap()), Comparison::Lacks);
        assert_eq!(of_copy.first_start(), history.first_start());
        let mut other = SqliteStore::open(folder.0.join("other.db")).unwrap();
        other.commit(&[Change::Started { epoch: 1 }]).unwrap();
        let of_other = other.history().unwrap().unwrap();
        assert_eq!(of_other.compare(history.seen().unwrap()), Comparison::OtherStore);
    }

    #[test]
    fn a_store_is_read_and_nothing_is_left_next_to_it() {
        let folder = Folder::new("read");
        let file = folder.0.join("a b?#%41é.db");
        let mut store = SqliteStore::open(&file).unwrap();
        let change = Change::Started { epoch: 7 };
        store.commit(&[change]).unwrap();
        assert!(SqliteStore::read(&file).is_err(), "a server runs on it");
        // What a server leaves after that is killed: its log is not in the file yet.
        let killed = folder.0.join("killed.db");
        std::fs::copy(&file, &killed).unwrap();
        std::fs::copy(beside(&file, "-wal"), beside(&killed, "-wal")).unwrap();
        drop(store);
        let bytes = || [&killed, &beside(&killed, "-wal")].map(|it| std::fs::read(it).unwrap());
        let (before, names) = (bytes(), folder.names());
        assert_eq!(SqliteStore::read(&killed).unwrap().snapshot.epoch, 7);
        assert!(bytes() == before && folder.names() == names);
        std::fs::remove_file(&killed).unwrap();
        let names = folder.names();
        assert_eq!(SqliteStore::read(&file).unwrap().snapshot.epoch, 7);
        assert_eq!(folder.names(), names);
    }

    #[test]
    fn a_store_is_the_same_by_a_symbolic_link() {
        let folder = Folder::new("link");
        let [file, killed, link] =
            ["store.db", "killed.db", "link"].map(|name| folder.0.join(name));
        std::os::unix::fs::symlink("store.db", &link).unwrap();
        let mut store = SqliteStore::open(&link).unwrap();
        store.commit(&[Change::Started { epoch: 7 }]).unwrap();
        assert!(SqliteStore::read(&link).is_err(), "a server runs on it");
        // What a server leaves after that is killed: its log is not in the file yet.
        std::fs::copy(&file, &killed).unwrap();
        std::fs::copy(beside(&file, "-wal"), beside(&killed, "-wal")).unwrap();
        std::fs::remove_file(&link).unwrap();
        std::os::unix::fs::symlink(&killed, &link).unwrap();
        assert_eq!(SqliteStore::read(&link).unwrap().snapshot.epoch, 7);
        assert_eq!(SqliteStore::open(&link).unwrap().load().unwrap().epoch, 7);
        let refused = SqliteStore::create(&link, &snapshot()).unwrap_err().to_string();
        assert!(refused.contains("there is a file"), "{refused}");
    }

    #[test]
    fn a_store_with_two_names_is_refused_by_each() {
        let folder = Folder::new("two-names");
        let [file, other] = ["store.db", "other.db"].map(|name| folder.0.join(name));
        SqliteStore::create(&file, &snapshot()).unwrap();
        std::fs::hard_link(&file, &other).unwrap();
        for name in [&file, &other] {
            let refused = [SqliteStore::read(name).map(drop), SqliteStore::open(name).map(drop)];
            for refused in refused.map(|it| it.unwrap_err().to_string()) {
                assert!(refused.contains("by a hard link"), "{refused}");
            }
        }
        assert_eq!(folder.names(), ["other.db", "store.db"]);
        std::fs::remove_file(&other).unwrap();
        assert!(SqliteStore::read(&file).is_ok());
    }

    #[test]
    fn a_file_that_is_there_stays_as_it_is() {
        let folder = Folder::new("there");
        let file = folder.0.join("copy.db");
        std::fs::write(&file, "mine").unwrap();
        let refused = SqliteStore::create(&file, &snapshot()).unwrap_err().to_string();
        assert!(refused.contains("there is a file"), "{refused}");
        assert_eq!(std::fs::read(&file).unwrap(), b"mine");
        let nowhere = folder.0.join("none").join("copy.db");
        assert!(SqliteStore::create(nowhere, &snapshot()).is_err());
        assert_eq!(folder.names(), ["copy.db"]);
    }

    #[test]
    fn the_same_snapshot_makes_the_same_file_until_a_server_opens_it() {
        let folder = Folder::new("again");
        let file = folder.0.join("copy.db");
        SqliteStore::create(&file, &snapshot()).unwrap();
        let before = std::fs::read(&file).unwrap();
        SqliteStore::create(&file, &snapshot()).unwrap();
        assert_eq!(std::fs::read(&file).unwrap(), before);
        assert_eq!(folder.names(), ["copy.db"]);
        let other = Snapshot { epoch: 8, ..snapshot() };
        let refused = SqliteStore::create(&file, &other).unwrap_err().to_string();
        assert!(refused.contains("there is a file"), "{refused}");
        drop(SqliteStore::open(&file).unwrap());
        let refused = SqliteStore::create(&file, &snapshot()).unwrap_err().to_string();
        assert!(refused.contains("there is a file"), "a server may serve it: {refused}");
    }

    #[test]
    fn a_log_of_another_store_is_not_taken_for_that_of_a_new_one() {
        let folder = Folder::new("log");
        let file = folder.0.join("copy.db");
        for end in ["-wal", "-shm", "-journal"] {
            let log = beside(&file, end);
            std::fs::write(&log, "of another store").unwrap();
            let refused = SqliteStore::create(&file, &snapshot()).unwrap_err().to_string();
            assert!(refused.contains(log.to_str().unwrap()), "{refused}");
            assert!(!file.exists());
            std::fs::remove_file(&log).unwrap();
        }
        assert!(SqliteStore::create(&file, &snapshot()).is_ok());
    }

    #[test]
    fn what_is_no_store_is_not_read() {
        let folder = Folder::new("other");
        let file = folder.0.join("other.db");
        assert!(SqliteStore::read(&file).is_err(), "there is none");
        assert!(!file.exists());
        std::fs::write(&file, "this is a text, and not a database of SQLite").unwrap();
        assert!(SqliteStore::read(&file).is_err());
        std::fs::remove_file(&file).unwrap();
        Connection::open(&file).unwrap().execute_batch("CREATE TABLE t (a)").unwrap();
        for refused in [SqliteStore::read(&file).map(drop), SqliteStore::open(&file).map(drop)] {
            let refused = refused.unwrap_err().to_string();
            assert!(refused.contains("another program"), "{refused}");
        }
    }

    /// What the records of version 5 have and no others.
    pub const COUNTS: &str = "ALTER TABLE record ADD COLUMN commits INTEGER NOT NULL DEFAULT 0;";

    #[test]
    fn an_older_store_is_read_as_it_is_and_raised_when_it_is_opened() {
        let folder = Folder::new("older");
        for (version, marks, first_start) in [
            (0, "DROP TABLE lease; DROP TABLE start; PRAGMA application_id = 0;", None),
            (1, "DROP TABLE lease; DROP TABLE start;", None),
            (2, "DROP TABLE lease;", snapshot().first_start),
            (3, "UPDATE lease SET longest = 0, unleased = -1;", snapshot().first_start),
            (4, "UPDATE lease SET longest = 0, unleased = -1;", snapshot().first_start),
            (5, "UPDATE lease SET longest = 0, unleased = -1;", snapshot().first_start),
            (6, "UPDATE lease SET longest = 0, unleased = -1;", snapshot().first_start),
        ] {
            let file = folder.0.join(format!("{version}.db"));
            SqliteStore::create(&file, &snapshot()).unwrap();
            let room = if version < 4 { "DROP TABLE room;" } else { "DELETE FROM room;" };
            let counts = if version == 5 { COUNTS } else { "" };
            let journal = if version < 6 { "DROP TABLE journal;" } else { "" };
            let older = format!(
                "DROP TABLE checksum; DROP TABLE shard; {journal} {counts} {room} {marks}
                PRAGMA user_version = {version};"
            );
            let leases = LeaseRecord::UNKNOWN;
            let before = Snapshot { leases, room: None, shard: None, first_start, ..snapshot() };
            Connection::open(&file).unwrap().execute_batch(&older).unwrap();
            let version_of = |file| SqliteStore::read(file).map(|it| it.version).unwrap();
            assert_eq!([version_of(&file), version_of(&file)], [version, version]);
            assert_eq!(SqliteStore::read(&file).unwrap().snapshot, before);
            let mut store = SqliteStore::open(&file).unwrap();
            assert_eq!(store.load().unwrap(), before);
            let first_of = |store: &mut SqliteStore| {
                store.history().unwrap().and_then(|history| history.first_start())
            };
            assert_eq!(first_of(&mut store), first_start);
            store.commit(&[Change::Started { epoch: 8 }]).unwrap();
            let first = first_of(&mut store);
            assert!(first.is_some() && (first == first_start || first_start.is_none()));
            drop(store);
            let expected = Snapshot { epoch: 8, first_start: first, ..before };
            assert_eq!(SqliteStore::read(&file).unwrap().snapshot, expected);
            assert_eq!(version_of(&file), VERSION);
        }
    }

    #[test]
    fn a_store_of_an_unknown_version_is_refused_and_stays_as_it_is() {
        let folder = Folder::new("newer");
        let file = folder.0.join("new.db");
        SqliteStore::create(&file, &snapshot()).unwrap();
        Connection::open(&file).unwrap().execute_batch("PRAGMA user_version = 8").unwrap();
        let before = std::fs::read(&file).unwrap();
        for refused in [SqliteStore::read(&file).map(drop), SqliteStore::open(&file).map(drop)] {
            let refused = refused.unwrap_err().to_string();
            assert!(refused.contains("version 8, and"), "{refused}");
        }
        assert_eq!(std::fs::read(&file).unwrap(), before);
        assert_eq!(folder.names(), ["new.db"]);
    }

    #[test]
    fn a_file_without_tables_is_refused_unless_its_first_start_was_cut_off() {
        let folder = Folder::new("bare");
        let [file, copy, log] =
            ["store.db", "copy.db", "copy.db-wal"].map(|name| folder.0.join(name));
        let store = SqliteStore::open(&file).unwrap();
        std::fs::copy(&file, &copy).unwrap();
        drop(store);
        for _ in 0..2 {
            let opened = SqliteStore::open(&copy).map(|_| ()).unwrap_err();
            let read = SqliteStore::read(&copy).map(|_| ()).unwrap_err();
            for refused in [opened, read] {
                assert!(refused.to_string().contains("its log is missing"), "{refused}");
            }
        }
        std::fs::write(&log, b"").unwrap();
        let mut store = SqliteStore::open(&copy).unwrap();
        assert_eq!(store.load().unwrap(), Snapshot::default());
    }
}
