//! What one commit changes, as columns of the tables.
use krl::operate::Room;
use krl::store::{Change, KeptShard, LeaseRecord, Record, ShardBounds, Snapshot, Write};
use krl::{Outcome, Value};
use std::collections::{BTreeMap, BTreeSet};
use std::num::NonZeroU64;

/// The outcomes by the number that stands for them. 0 stands for none.
const OUTCOMES: [Outcome; 5] =
    [Outcome::Applied, Outcome::Exists, Outcome::Absent, Outcome::NotHeld, Outcome::Full];

/// Which rows and which clients changes concern, and what else they set.
#[derive(Debug, Default)]
struct Touched {
    rows: BTreeMap<u64, Option<Value>>,
    clients: BTreeSet<u8>,
    leases: Option<LeaseRecord>,
    room: Option<Room>,
    shard: Option<KeptShard>,
    starts: bool,
}

/// The columns that a commit sets.
#[derive(Debug, Default)]
pub(crate) struct Batch {
    pub put_keys: Vec<i64>,
    pub put_values: Vec<Vec<u8>>,
    pub deleted_keys: Vec<i64>,
    /// `client, place, incarnation, last, outcome, has_left`.
    pub clients: [Vec<i64>; 6],
    /// What is known of leases, if that changes.
    pub leases: Option<LeaseRecord>,
    /// The greatest room of a server, if that changes.
    pub room: Option<Room>,
    /// Which shard the store is of, if that changes. The rows of other keys go with it.
    pub shard: Option<KeptShard>,
    /// A server starts: the head of the one before is kept.
    pub starts: bool,
    /// The first start of the store that is copied.
    pub first_start: Option<u128>,
}

impl Batch {
    /// What the changes come to, that are in the snapshot already.
    pub fn new(changes: &[Change], snapshot: &Snapshot) -> Batch {
        let mut touched = Touched::default();
        for change in changes {
            touched.note(change);
        }
        let Touched { rows, clients, leases, room, shard, starts } = touched;
        let mut batch = Batch { leases, room, shard, starts, ..Batch::default() };
        let is_own = |key: u64| shard.is_none_or(|it| it.bounds.keys().contains(&key));
        for (key, value) in rows {
            match value.filter(|_| is_own(key)) {
                Some(value) => batch.put(key, value),
                None => batch.deleted_keys.push(key.cast_signed()),
            }
        }
        for (place, record) in (0..).zip(&snapshot.records) {
            if clients.contains(&record.client) {
                batch.set_record(place, record);
            }
        }
        batch
    }

    /// All that the snapshot has, for an empty database.
    pub fn of_all(snapshot: &Snapshot) -> Batch {
        let (leases, room) = (Some(snapshot.leases), snapshot.room);
        let first_start = snapshot.first_start;
        let shard = snapshot.shard;
        let mut batch = Batch { leases, room, shard, first_start, ..Batch::default() };
        snapshot.rows.iter().for_each(|(key, value)| batch.put(*key, *value));
        (0..).zip(&snapshot.records).for_each(|(place, record)| batch.set_record(place, record));
        batch
    }

    fn put(&mut self, key: u64, value: Value) {
        self.put_keys.push(key.cast_signed());
        self.put_values.push(value.as_bytes().to_vec());
    }

    fn set_record(&mut self, place: i64, record: &Record) {
        let columns = self.clients.iter_mut().zip(fields(place, record));
        columns.for_each(|(column, field)| column.push(field));
    }
}

impl Touched {
    fn note(&mut self, change: &Change) {
        match *change {
            Change::Started { .. } => self.starts = true,
            Change::Registered { client, .. } | Change::Left { client } => {
                self.clients.insert(client);
            }
            Change::Judged { client, write, outcome, .. } => {
                self.clients.insert(client);
                if outcome == Outcome::Applied {
                    self.note_write(write);
                }
            }
            Change::Leased(leases) => self.leases = Some(leases),
            Change::Room(room) => self.room = Some(room),
            Change::Shard(shard) => self.shard = Some(shard),
        }
    }

    fn note_write(&mut self, write: Write) {
        match write {
            Write::Insert(row) | Write::Put(row) => self.rows.insert(row.key, Some(row.value)),
            Write::Delete(key) => self.rows.insert(key, None),
        };
    }
}

fn fields(place: i64, record: &Record) -> [i64; 6] {
    let (last, outcome) = record.last.map_or((0, 0), |(last, outcome)| {
        let number = (1..).zip(OUTCOMES).find(|(_, of)| *of == outcome);
        (last.cast_signed(), number.map_or(0, |(number, _)| number))
    });
    let incarnation = record.incarnation.cast_signed();
    [record.client.into(), place, incarnation, last, outcome, record.left.into()]
}

/// `first, last, version` of a shard. All are below 2^63.
pub(crate) fn numbers_of_shard(shard: KeptShard) -> [i64; 3] {
    let (keys, version) = (shard.bounds.keys(), shard.bounds.map_version());
    [keys.start, keys.end - 1, version.get()].map(u64::cast_signed)
}

/// The shard of `first, last, version`, if it is one.
pub(crate) fn shard([first, last, version]: [i64; 3], is_sealed: bool) -> Option<KeptShard> {
    let [first, last, version] = [first, last, version].map(u64::try_from);
    let version = NonZeroU64::new(version.ok()?)?;
    let bounds = ShardBounds::new(first.ok()?..last.ok()? + 1, version).ok()?;
    Some(KeptShard { bounds, is_sealed })
}

/// The record of `client, incarnation, last, outcome, has_left`, if it is one.
pub(crate) fn record(fields: [i64; 5]) -> Option<Record> {
    let [client, incarnation, last, outcome, has_left] = fields;
    let outcome = match outcome {
        0 => None,
        number => Some(*OUTCOMES.get(usize::try_from(number).ok()? - 1)?),
    };
    Some(Record {
        client: u8::try_from(client).ok().filter(|client| *client < 64)?,
        incarnation: incarnation.cast_unsigned(),
        last: outcome.map(|outcome| (last.cast_unsigned(), outcome)),
        left: match has_left {
            0 => false,
            1 => true,
            _ => return None,
        },
    })
}

#[cfg(test)]
mod tests {
    use super::*;

    #[test]
    fn records_are_read_as_they_are_written() {
        for outcome in OUTCOMES.into_iter().map(Some).chain([None]) {
            let last = outcome.map(|outcome| (u64::MAX, outcome));
            let of = Record { client: 63, incarnation: u64::MAX, last, left: last.is_none() };
            let [client, _, incarnation, last, outcome, has_left] = fields(7, &of);
            assert_eq!(record([client, incarnation, last, outcome, has_left]), Some(of));
        }
        for fields in [[64, 1, 0, 0, 0], [1, 1, 0, 6, 0], [1, 1, 0, -1, 0], [1, 1, 0, 0, 2]] {
            assert_eq!(record(fields), None, "{fields:?}");
        }
    }

    #[test]
    fn shards_are_read_as_they_are_written() {
        for text in ["0..@1", "7..9@3", "9223372036854775807..@9223372036854775807 sealed"] {
            let of: KeptShard = text.parse().unwrap();
            assert_eq!(shard(numbers_of_shard(of), of.is_sealed), Some(of), "{text}");
        }
        for numbers in [[5, 4, 1], [0, 4, 0], [-1, 4, 1], [0, -1, 1], [0, 4, -1]] {
            assert_eq!(shard(numbers, false), None, "{numbers:?}");
        }
    }
}
