//! The checksum of a store that no server has changed since it was made, such as a backup; and the
//! one by which a store that was cut knows the other part.
use crate::model::change::Record;
use crate::model::kept_shard::KeptShard;
use crate::model::snapshot::Snapshot;
use crate::store::StoreError;
use crate::store::sqlite::has_table;
use rusqlite::{Connection, OptionalExtension, params};
use sha2::{Digest, Sha256};

/// Whether what a file has is what was written when it was made.
#[derive(Clone, Copy, Debug, PartialEq, Eq)]
pub enum Checksum {
    /// The file has none: a server has opened it since it was made, or an older krl made it.
    Absent,
    /// It is.
    Matches,
    /// It is not: the file is damaged, or somebody has changed it.
    Differs,
}

/// What is wrong with a file that differs.
pub(crate) const DIFFERS: &str = "the file is damaged: what it has does not match its checksum";

const MAKE: &str = "
    CREATE TABLE checksum (id INTEGER PRIMARY KEY CHECK (id = 0), sha256 BLOB NOT NULL)";
const INSERT: &str = "INSERT INTO checksum VALUES (0, ?1)";
const SELECT: &str = "SELECT sha256 FROM checksum";
const REMOVE: &str = "DROP TABLE IF EXISTS checksum";

/// Writes the checksum of what the file has, within the transaction that writes it.
pub(crate) fn write(connection: &Connection, snapshot: &Snapshot) -> Result<(), StoreError> {
    connection.execute_batch(MAKE)?;
    connection.execute(INSERT, params![digest(snapshot)])?;
    Ok(())
}

/// Compares what was read of the file with its checksum, if it has one.
pub(crate) fn compare(
    connection: &Connection,
    snapshot: &Snapshot,
) -> Result<Checksum, StoreError> {
    if !is_there(connection)? {
        return Ok(Checksum::Absent);
    }
    let kept: Option<Vec<u8>> = connection.query_row(SELECT, [], |row| row.get(0)).optional()?;
    let matches = kept.is_some_and(|kept| kept == digest(snapshot));
    Ok(if matches { Checksum::Matches } else { Checksum::Differs })
}

/// Whether the file has a checksum.
pub(crate) fn is_there(connection: &Connection) -> Result<bool, StoreError> {
    has_table(connection, "checksum")
}

/// Removes the checksum: what it is of changes from now on.
pub(crate) fn remove(connection: &Connection) -> Result<(), StoreError> {
    Ok(connection.execute_batch(REMOVE)?)
}

const MAKE_CUT: &str = "
    CREATE TABLE IF NOT EXISTS cut (id INTEGER PRIMARY KEY CHECK (id = 0), sha256 BLOB NOT NULL)";
const INSERT_CUT: &str = "INSERT OR REPLACE INTO cut VALUES (0, ?1)";
const SELECT_CUT: &str = "SELECT sha256 FROM cut";

/// The checksum of the store that was cut off from another one.
#[derive(Clone, Copy, Debug, PartialEq, Eq)]
pub struct CutOff([u8; 32]);

impl CutOff {
    /// Whether this is what was cut off, whether or not it is sealed still.
    #[must_use]
    pub fn is(&self, snapshot: &Snapshot) -> bool {
        self.0 == digest_of_opened(snapshot)
    }

    /// What was last cut off from the file.
    pub(crate) fn read(connection: &Connection) -> Result<Option<CutOff>, StoreError> {
        if !has_table(connection, "cut")? {
            return Ok(None);
        }
        Ok(connection.query_row(SELECT_CUT, [], |row| row.get(0).map(CutOff)).optional()?)
    }
}

/// Writes what is cut off, within the transaction that removes it.
pub(crate) fn write_cut(connection: &Connection, snapshot: &Snapshot) -> Result<(), StoreError> {
    connection.execute_batch(MAKE_CUT)?;
    connection.execute(INSERT_CUT, params![digest_of_opened(snapshot)])?;
    Ok(())
}

/// The digest that a sealed store has once it is opened.
fn digest_of_opened(snapshot: &Snapshot) -> [u8; 32] {
    digest_as(snapshot, snapshot.shard.map(|shard| KeptShard::open(shard.bounds)))
}

/// SHA-256 of all that is kept, whatever the pages of the file are.
fn digest(snapshot: &Snapshot) -> [u8; 32] {
    digest_as(snapshot, snapshot.shard)
}

/// The digest of what is kept, as of a store of this shard.
fn digest_as(snapshot: &Snapshot, shard: Option<KeptShard>) -> [u8; 32] {
    let Snapshot { epoch, rows, records, leases, room, shard: _, first_start } = snapshot;
    let mut sum = Sha256::new();
    let mut number = |number: u64| sum.update(number.to_le_bytes());
    number(*epoch);
    number(leases.longest);
    number(leases.unleased.bits());
    number(room.map_or(0, |room| room.rows() as u64));
    number(rows.len() as u64);
    number(records.len() as u64);
    // No store has the same without a first start: those bits are random.
    sum.update(first_start.unwrap_or_default().to_le_bytes());
    for (key, value) in rows {
        sum.update(key.to_le_bytes());
        sum.update((value.as_bytes().len() as u64).to_le_bytes());
        sum.update(value.as_bytes());
    }
    sum.update(records.iter().flat_map(bytes_of).collect::<Vec<_>>());
    // Without a shard the checksum is that of earlier versions.
    sum.update(shard.map(|shard| shard.to_string()).unwrap_or_default());
    sum.finalize().into()
}

/// A record, in the order of its fields.
fn bytes_of(record: &Record) -> Vec<u8> {
    let Record { client, incarnation, last, left } = *record;
    let (number, outcome) = last.map_or((0, 0), |(number, outcome)| (number, outcome.tag()));
    let numbers = [client.into(), incarnation, number, outcome.into(), left.into()];
    numbers.iter().flat_map(|number: &u64| number.to_le_bytes()).collect()
}

#[cfg(test)]
mod tests {
    use super::*;
    use crate::model::change::Outcome;
    use crate::model::room::Room;
    use crate::model::row::Value;

    fn snapshot() -> Snapshot {
        let record =
            Record { client: 3, incarnation: 5, last: Some((7, Outcome::Applied)), left: true };
        let rows = [(1, Value::from(1)), (2, Value::from(2))].into();
        Snapshot { epoch: 4, rows, records: vec![record], ..Snapshot::default() }
    }

    #[test]
    fn whatever_changes_has_another_digest() {
        let damages: [fn(&mut Snapshot); 13] = [
            |it| it.epoch = 5,
            |it| {
                it.rows.insert(2, Value::from(3));
            },
            |it| {
                it.rows.insert(3, Value::from(2));
            },
            |it| {
                it.rows.remove(&2);
            },
            |it| it.records[0].client = 4,
            |it| it.records[0].incarnation = 6,
            |it| it.records[0].last = None,
            |it| it.records[0].left = false,
            |it| it.leases.longest = 12,
            |it| it.room = Some(Room::MAX),
            |it| it.first_start = Some(9),
            |it| it.shard = "0..9@3".parse().ok(),
            |it| it.shard = "0..9@3 sealed".parse().ok(),
        ];
        let before = digest(&snapshot());
        assert_eq!(digest(&snapshot()), before);
        for (place, damage) in damages.iter().enumerate() {
            let mut other = snapshot();
            damage(&mut other);
            assert_ne!(digest(&other), before, "damage {place}");
        }
    }

    #[test]
    fn values_do_not_run_into_one_another() {
        let of = |first: &[u8], second: &[u8]| {
            let value = |bytes: &[u8]| Value::try_from(bytes).unwrap();
            let rows = [(1, value(first)), (2, value(second))].into();
            digest(&Snapshot { rows, ..Snapshot::default() })
        };
        assert_ne!(of(b"ab", b""), of(b"a", b"b"));
    }
}
