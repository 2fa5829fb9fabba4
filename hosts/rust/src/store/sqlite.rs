//! A store over SQLite.
pub(crate) mod checksum;
pub(crate) mod copy;
mod joined;
mod journal;
mod merged;
pub(crate) mod name;
mod progress;
mod shard;
mod transaction;
mod version;

use crate::model::change::{Change, Outcome, Record};
use crate::model::client_set::ClientSet;
use crate::model::history::{History, Mark};
use crate::model::kept_shard::KeptShard;
use crate::model::lease_record::LeaseRecord;
use crate::model::room::Room;
use crate::model::row::{Row, Value};
use crate::model::shard_bounds::ShardBounds;
use crate::model::snapshot::Snapshot;
use crate::store::replaced_file::beside;
use crate::store::sqlite::checksum::Checksum;
use crate::store::sqlite::journal::Journal;
use crate::store::sqlite::merged::Merged;
use crate::store::sqlite::name::store_file;
use crate::store::sqlite::progress::Known;
use crate::store::sqlite::transaction::WriteTransaction;
use crate::store::sqlite::version::Found;
use crate::store::{Store, StoreError};
use rusqlite::{Connection, OpenFlags, OptionalExtension, Row as SqlRow, params};
use std::path::Path;
use std::time::Duration;

/// A store in one file of SQLite, in WAL mode with synchronous=FULL: `commit` returns once the
/// changes are on the disk. Each batch of changes is one transaction: it is added to a journal, and
/// comes from there into the tables with later batches.
///
/// One process at a time has the file open, by a lock of the file. **The file has to be on a disk
/// that keeps locks**: a disk of this machine does, and some network file systems do not. There two
/// servers could open one file, and neither would notice: while it has the lock, SQLite does not
/// look for the changes of others.
///
/// Each path here may be a symbolic link to the store. A file with two hard links is refused: both
/// are what `operate::store_file` returns of a path.
#[derive(Debug)]
pub struct SqliteStore {
    connection: Connection,
    /// The state of the file after what this value has loaded and committed.
    known: Known,
    /// The journal, once this value has committed something after it was loaded.
    journal: Option<Journal>,
}

/// How a store writes what a commit adds to the log of SQLite.
#[derive(Clone, Copy, Debug, Default, PartialEq, Eq)]
pub enum LogWrites {
    /// By one call of the system for up to 64 KiB.
    #[default]
    Joined,
    /// By two calls for each page, as SQLite does by itself.
    Single,
}

/// How long it waits for another process that has the file open.
const TIMEOUT: Duration = Duration::from_millis(200);

/// How long a call may take: a sync of a busy disk, or the reading of the greatest table, takes
/// seconds.
const LONGEST_WAIT: Duration = Duration::from_secs(60);

/// The page size of new stores, in bytes. A commit writes each page that it changes whole. SQLite's
/// own 4,096 bytes take a commit a tenth longer, and 512 save next to nothing more.
const PAGE_SIZE: i64 = 1024;

/// How many pages the log may have before they are copied into the file. SQLite finds the pages of
/// the log by a hash table, and puts a page there after all its earlier copies: with 4,000 pages a
/// commit of one write spends half of its processor time on that. A copy takes three syncs.
const LOG_PAGES: i64 = 1000;

const TABLES: &str = "
    CREATE TABLE IF NOT EXISTS epoch (id INTEGER PRIMARY KEY CHECK (id = 0), epoch INTEGER NOT NULL);
    CREATE TABLE IF NOT EXISTS entry (key INTEGER PRIMARY KEY, value BLOB NOT NULL);
    CREATE TABLE IF NOT EXISTS record (
        place INTEGER PRIMARY KEY, client INTEGER NOT NULL UNIQUE, incarnation INTEGER NOT NULL,
        last INTEGER NOT NULL, outcome INTEGER NOT NULL, has_left INTEGER NOT NULL);
    CREATE TABLE IF NOT EXISTS start (
        place INTEGER PRIMARY KEY, bits BLOB NOT NULL UNIQUE, commits INTEGER NOT NULL);
    CREATE TABLE IF NOT EXISTS lease (
        id INTEGER PRIMARY KEY CHECK (id = 0), longest INTEGER NOT NULL, unleased INTEGER NOT NULL);
    CREATE TABLE IF NOT EXISTS room (
        id INTEGER PRIMARY KEY CHECK (id = 0), most_rows INTEGER NOT NULL);
    CREATE TABLE IF NOT EXISTS shard (
        id INTEGER PRIMARY KEY CHECK (id = 0), first INTEGER NOT NULL, last INTEGER NOT NULL,
        version INTEGER NOT NULL, sealed INTEGER NOT NULL);
    CREATE TABLE IF NOT EXISTS journal (batch INTEGER PRIMARY KEY, changes BLOB NOT NULL);
    INSERT OR IGNORE INTO epoch VALUES (0, 0);
    INSERT OR IGNORE INTO lease VALUES (0, 0, -1);";

const EPOCH: &str = "UPDATE epoch SET epoch = ?1 WHERE id = 0";

// A record that is there keeps its place: the records are in order of first registration.
const REGISTER: &str = "INSERT INTO record (client, incarnation, last, outcome, has_left)
    VALUES (?1, ?2, 0, 0, 0)
    ON CONFLICT (client) DO UPDATE SET incarnation = ?2, last = 0, outcome = 0, has_left = 0";
const LEAVE: &str = "UPDATE record SET has_left = 1 WHERE client = ?1";
const JUDGE: &str = "UPDATE record SET last = ?2, outcome = ?3 WHERE client = ?1";
// The first start of the store of which this one is a copy. It has no commits here: to a client
// that has seen some, the copy is an older store.
const FIRST_START: &str = "INSERT INTO start (bits, commits) VALUES (?1, 0)";
const FIRST: &str = "SELECT bits FROM start ORDER BY place LIMIT 1";

// `unleased` has the bit of value 2^n for client n, as a number with a sign.
const LEASE: &str = "UPDATE lease SET longest = ?1, unleased = ?2 WHERE id = 0";

const ROOM: &str = "INSERT OR REPLACE INTO room VALUES (0, ?1)";

const PUT: &str = "INSERT OR REPLACE INTO entry (key, value) VALUES (?1, ?2)";
const DELETE: &str = "DELETE FROM entry WHERE key = ?1";
const DELETE_FROM: &str = "DELETE FROM entry WHERE key >= ?1";

impl SqliteStore {
    /// Opens the file, and makes it if there is none. Another process that has it open makes
    /// this fail, and every later open of another process fails while this store lives.
    ///
    /// The file notes that it is a store, and of which version. One that an older krl made lacks
    /// this note, and has it from now on.
    ///
    /// # Errors
    ///
    /// If another process has the file open; if it is a database of another program, a file without
    /// tables, such as a copy that lacks its log, or a store of a version that this program does
    /// not know; if it was not opened since it was made, and differs from what was written then; if
    /// SQLite can't read, make or write it.
    pub fn open(path: impl AsRef<Path>) -> Result<SqliteStore, StoreError> {
        SqliteStore::open_with(path, LogWrites::default())
    }

    /// Opens the file as [`SqliteStore::open`] does, and writes the log of SQLite in this way. The
    /// file is the same in each.
    ///
    /// # Errors
    ///
    /// Those of [`SqliteStore::open`].
    pub fn open_with(path: impl AsRef<Path>, writes: LogWrites) -> Result<SqliteStore, StoreError> {
        SqliteStore::open_by(path.as_ref(), "EXCLUSIVE", writes)
    }

    /// Takes the rows of this key and of all greater ones away, all or none: they are in another
    /// store by now, which has this snapshot. [`SqliteStore::read`] shows that store's checksum as
    /// what was cut off. If the other store is of a shard, this one is of `lower` in the same
    /// transaction. No server may run on it, and each client has left.
    ///
    /// # Errors
    ///
    /// `Deposed` if somebody else has changed the store since it was loaded; `Failed` if SQLite
    /// can't write it.
    pub fn cut_off(
        &mut self,
        key: u64,
        upper: &Snapshot,
        lower: Option<KeptShard>,
    ) -> Result<(), StoreError> {
        self.change_tables(|transaction| {
            run(transaction, DELETE_FROM, params![signed(key)?])?;
            lower.map_or(Ok(()), |lower| shard::write(transaction, lower))?;
            checksum::write_cut(transaction, upper)
        })
    }

    /// From now on no server may start on the store, which is of this shard: another store has its
    /// rows by now, and this snapshot. [`SqliteStore::read`] shows that store's checksum as what was
    /// cut off. No server may run on it, and each client has left.
    ///
    /// # Errors
    ///
    /// `Deposed` if somebody else has changed the store since it was loaded; `Failed` if SQLite
    /// can't write it.
    pub fn seal(&mut self, bounds: ShardBounds, new: &Snapshot) -> Result<(), StoreError> {
        self.change_tables(|transaction| {
            shard::write(transaction, KeptShard::sealed(bounds))?;
            checksum::write_cut(transaction, new)
        })
    }

    /// From now on a server may start on the file, if it was sealed. A checksum that it has is that
    /// of what it is then. A file that is not sealed stays as it is.
    ///
    /// # Errors
    ///
    /// If the file can't be read or written, or is damaged; if a server runs on it.
    pub fn unseal(path: impl AsRef<Path>) -> Result<(), StoreError> {
        let flags = OpenFlags::SQLITE_OPEN_READ_WRITE | OpenFlags::SQLITE_OPEN_NO_MUTEX;
        let connection = Connection::open_with_flags(store_file(path)?, flags)?;
        connection.pragma_update(None, "locking_mode", "EXCLUSIVE")?;
        // If this is killed, a reader finds the file as it was, or as it is to be.
        use_log(&connection)?;
        let mut snapshot = load(&connection)?;
        let Some(kept) = snapshot.shard.filter(|shard| shard.is_sealed) else { return Ok(()) };
        let checksum = checksum::compare(&connection, &snapshot)?;
        if checksum == Checksum::Differs {
            return Err(StoreError::failed(checksum::DIFFERS));
        }
        let opened = KeptShard::open(kept.bounds);
        snapshot.shard = Some(opened);
        let transaction = WriteTransaction::begin(&connection)?;
        shard::write(&transaction, opened)?;
        if checksum == Checksum::Matches {
            checksum::remove(&transaction)?;
            checksum::write(&transaction, &snapshot)?;
        }
        transaction.commit()
    }

    /// Writes these rows, each in place of the one of its key if there is one, all or none. No
    /// server may run on it, and each client has left: one that has not would continue to answer
    /// with outdated rows from its cache.
    ///
    /// # Errors
    ///
    /// `Deposed` if somebody else has changed the store since it was loaded; `Failed` if SQLite
    /// can't write it.
    pub fn write_rows(&mut self, rows: impl IntoIterator<Item = Row>) -> Result<(), StoreError> {
        let rows: Merged = rows.into_iter().collect();
        self.change_tables(|transaction| rows.write(transaction))
    }

    /// Commits what no batch of a server does, after all that the journal has.
    fn change_tables(
        &mut self,
        change: impl FnOnce(&WriteTransaction<'_>) -> Result<(), StoreError>,
    ) -> Result<(), StoreError> {
        self.journal = None;
        let transaction = self.begin()?;
        journal::take_all(&transaction)?.write(&transaction)?;
        change(&transaction)?;
        let last = progress::count(&transaction, self.known.last, &[])?;
        transaction.commit()?;
        self.known.last = last;
        Ok(())
    }

    /// Begins a transaction, if the store is still this value's.
    fn begin(&self) -> Result<WriteTransaction<'_>, StoreError> {
        let transaction = WriteTransaction::begin(&self.connection)?;
        is_own(&transaction, self.known)?;
        Ok(transaction)
    }

    fn open_by(path: &Path, locking: &str, writes: LogWrites) -> Result<SqliteStore, StoreError> {
        let path = store_file(path)?;
        // SQLite makes one as it looks.
        let had_log = beside(&path, "-wal").exists();
        let connection = connect(&path, writes)?;
        connection.busy_timeout(TIMEOUT)?;
        connection.pragma_update(None, "locking_mode", locking)?;
        // A file that is not a store is left as it is.
        let found = version::look(&connection)?;
        if found == Found::Bare && !had_log {
            return Err(StoreError::failed(version::BARE));
        }
        if found == Found::New {
            set_page_size(&connection)?;
        }
        use_log(&connection)?;
        limit_log(&connection)?;
        if found != Found::Current {
            prepare(&connection)?;
        }
        take_checksum(&connection)?;
        let known = Known::read(&connection)?;
        Ok(SqliteStore { connection, known, journal: None })
    }
}

fn connect(path: &Path, writes: LogWrites) -> Result<Connection, StoreError> {
    match joined::name().filter(|_| writes == LogWrites::Joined) {
        Some(layer) => Ok(Connection::open_with_flags_and_vfs(path, OpenFlags::default(), layer)?),
        None => Ok(Connection::open(path)?),
    }
}

/// Removes the checksum of a store that was not opened since it was made, if it matches.
fn take_checksum(connection: &Connection) -> Result<(), StoreError> {
    if !checksum::is_there(connection)? {
        return Ok(());
    }
    match checksum::compare(connection, &load(connection)?)? {
        Checksum::Differs => Err(StoreError::failed(checksum::DIFFERS)),
        Checksum::Matches | Checksum::Absent => checksum::remove(connection),
    }
}

/// Gives a file that has nothing yet the page size of a new store.
pub(crate) fn set_page_size(connection: &Connection) -> Result<(), StoreError> {
    Ok(connection.pragma_update(None, "page_size", PAGE_SIZE)?)
}

/// The page size of the file, in bytes.
pub(crate) fn page_size(connection: &Connection) -> Result<i64, StoreError> {
    Ok(connection.query_row("PRAGMA page_size", [], |row| row.get(0))?)
}

/// What is committed from now on is in the log first, and on the disk.
fn use_log(connection: &Connection) -> Result<(), StoreError> {
    let mode: String = connection.query_row("PRAGMA journal_mode = WAL", [], |row| row.get(0))?;
    if mode != "wal" {
        return Err(StoreError::failed("SQLite gives no WAL mode for this file"));
    }
    Ok(connection.pragma_update(None, "synchronous", "FULL")?)
}

fn limit_log(connection: &Connection) -> Result<(), StoreError> {
    let limit = format!("PRAGMA wal_autocheckpoint = {LOG_PAGES}");
    Ok(connection.query_row(&limit, [], |_| Ok(()))?)
}

impl Store for SqliteStore {
    fn load(&mut self) -> Result<Snapshot, StoreError> {
        self.journal = None;
        let transaction = self.connection.transaction()?;
        self.known = Known::read(&transaction)?;
        load(&transaction)
    }

    fn commit(&mut self, changes: &[Change]) -> Result<(), StoreError> {
        if changes.is_empty() {
            return self.begin().map(drop);
        }
        // After a batch that is not committed, the next one reads what the file has.
        let journal = self.journal.take();
        let transaction = self.begin()?;
        let (last, journal) = match (self.known.last, journal) {
            (Some(mark), Some(journal)) if Journal::takes(changes) => {
                let mark = Mark { commits: mark.commits + 1, ..mark };
                (Some(mark), Some(journal.add(&transaction, changes, mark.commits)?))
            }
            (last, _) => write_through(&transaction, last, changes)?,
        };
        transaction.commit()?;
        (self.known.last, self.journal) = (last, journal);
        Ok(())
    }

    fn snapshot(&mut self) -> Result<Snapshot, StoreError> {
        load(&self.connection)
    }

    fn history(&mut self) -> Result<Option<History>, StoreError> {
        progress::history(&self.connection)
    }

    fn longest_wait(&self) -> Duration {
        LONGEST_WAIT
    }
}

/// Writes all that the journal has to the tables, and then the batch. Returns how far the store
/// has come with it, and the journal, which is empty.
fn write_through(
    transaction: &WriteTransaction<'_>,
    last: Option<Mark>,
    changes: &[Change],
) -> Result<(Option<Mark>, Option<Journal>), StoreError> {
    let mut merged = journal::take_all(transaction)?;
    for change in changes {
        merged.add(change);
    }
    merged.write(transaction)?;
    let last = progress::count(transaction, last, changes)?;
    Ok((last, last.map(|mark| Journal::empty(mark.commits + 1))))
}

/// Refuses what rests on another state of the store than this one. The marks are compared only if
/// SQLite reports that another connection has committed something since.
fn is_own(transaction: &WriteTransaction<'_>, known: Known) -> Result<(), StoreError> {
    let Known { last, .. } = known;
    if known.version == progress::data_version(transaction)? {
        return Ok(());
    }
    match progress::last_mark(transaction)? {
        found if found == last => Ok(()),
        found => Err(StoreError::Deposed(format!("{found:?}, and not {last:?}"))),
    }
}

/// Gives the file the tables of a store, and the marks of this version, all or none.
pub(crate) fn prepare(connection: &Connection) -> Result<(), StoreError> {
    let transaction = WriteTransaction::begin(connection)?;
    transaction.execute_batch(TABLES)?;
    progress::count_in_start(&transaction)?;
    version::mark(&transaction)?;
    transaction.commit()
}

/// All that the file has.
pub(crate) fn load(connection: &Connection) -> Result<Snapshot, StoreError> {
    let epoch = connection.query_row("SELECT epoch FROM epoch", [], |row| row.get(0))?;
    let mut snapshot = Snapshot { epoch: positive(epoch)?, ..Snapshot::default() };
    let mut entries = connection.prepare("SELECT key, value FROM entry")?;
    let mut rows = entries.query([])?;
    while let Some(row) = rows.next()? {
        let Row { key, value } = row_of(row)?;
        snapshot.rows.insert(key, value);
    }
    let mut records = connection.prepare(
        "SELECT client, incarnation, last, outcome, has_left FROM record ORDER BY place",
    )?;
    let mut rows = records.query([])?;
    while let Some(row) = rows.next()? {
        snapshot.records.push(record_of(row)?);
    }
    snapshot.leases = lease_record(connection)?;
    snapshot.room = kept_room(connection)?;
    snapshot.shard = shard::read(connection)?;
    snapshot.first_start = first_start(connection)?;
    journal::apply(connection, &mut snapshot)?;
    Ok(snapshot)
}

/// Whether the file has this table. One of an older version, which is only read, may have none.
pub(crate) fn has_table(connection: &Connection, name: &str) -> Result<bool, StoreError> {
    let named = "SELECT count(*) FROM sqlite_master WHERE type = 'table' AND name = ?1";
    let tables: i64 = connection.query_row(named, [name], |row| row.get(0))?;
    Ok(tables > 0)
}

/// The bits of the first start of a server, if the file keeps one.
fn first_start(connection: &Connection) -> Result<Option<u128>, StoreError> {
    if !has_table(connection, "start")? {
        return Ok(None);
    }
    let first = connection.query_row(FIRST, [], |row| row.get(0));
    Ok(first.optional()?.map(u128::from_le_bytes))
}

/// The greatest room that a server had, if the file keeps one.
fn kept_room(connection: &Connection) -> Result<Option<Room>, StoreError> {
    if !has_table(connection, "room")? {
        return Ok(None);
    }
    let kept = connection.query_row("SELECT most_rows FROM room", [], |row| row.get::<_, i64>(0));
    let Some(rows) = kept.optional()? else { return Ok(None) };
    let room = usize::try_from(rows).ok().and_then(|rows| Room::of(rows).ok());
    room.map(Some).ok_or_else(|| StoreError::failed("what the store has as its room is not a room"))
}

/// What the file has of leases.
fn lease_record(connection: &Connection) -> Result<LeaseRecord, StoreError> {
    if !has_table(connection, "lease")? {
        return Ok(LeaseRecord::UNKNOWN);
    }
    let kept = connection.query_row("SELECT longest, unleased FROM lease", [], |row| {
        Ok((row.get(0)?, row.get::<_, i64>(1)?))
    });
    let (longest, unleased) = kept?;
    let unleased = ClientSet::of_bits(unleased.cast_unsigned());
    Ok(LeaseRecord { longest: positive(longest)?, unleased })
}

/// Gives a file that has only the tables of a store all of the snapshot.
pub(crate) fn save(connection: &Connection, snapshot: &Snapshot) -> Result<(), StoreError> {
    let transaction = WriteTransaction::begin(connection)?;
    Merged::from(snapshot).write(&transaction)?;
    if let Some(first_start) = snapshot.first_start {
        run(&transaction, FIRST_START, params![first_start.to_le_bytes()])?;
    }
    checksum::write(&transaction, snapshot)?;
    transaction.commit()
}

fn run(
    connection: &Connection,
    statement: &str,
    values: &[&dyn rusqlite::ToSql],
) -> Result<(), StoreError> {
    connection.prepare_cached(statement)?.execute(values)?;
    Ok(())
}

fn row_of(row: &SqlRow<'_>) -> Result<Row, StoreError> {
    let bytes: Vec<u8> = row.get(1)?;
    let value = Value::try_from(&bytes[..])
        .map_err(|_| StoreError::failed("a value in the store has more than 32 bytes"))?;
    Ok(Row { key: positive(row.get(0)?)?, value })
}

fn record_of(row: &SqlRow<'_>) -> Result<Record, StoreError> {
    let last = positive(row.get(2)?)?;
    let outcome = Outcome::of_tag(positive(row.get(3)?)?);
    if (last == 0) != outcome.is_none() {
        return Err(StoreError::failed(
            "a record in the store has an outcome and no write, or no outcome of one",
        ));
    }
    Ok(Record {
        client: row.get(0)?,
        incarnation: positive(row.get(1)?)?,
        last: outcome.map(|outcome| (last, outcome)),
        left: row.get(4)?,
    })
}

/// SQLite's numbers are signed. Each number that is kept lies below 2^63.
fn signed(number: u64) -> Result<i64, StoreError> {
    i64::try_from(number).map_err(|_| StoreError::failed("a number of 2^63 or more can't be kept"))
}

fn positive(number: i64) -> Result<u64, StoreError> {
    u64::try_from(number).map_err(|_| StoreError::failed("a number in the store is negative"))
}

impl From<rusqlite::Error> for StoreError {
    fn from(error: rusqlite::Error) -> StoreError {
        StoreError::Failed(Box::new(error))
    }
}

#[cfg(test)]
mod tests;
