//! What changes do to the tables when they are made together: of several changes of one row or one
//! record, only what they come to is written.
use super::shard;
use super::transaction::WriteTransaction;
use super::{DELETE, EPOCH, JUDGE, LEASE, LEAVE, PUT, REGISTER, ROOM, run, signed};
use crate::model::change::{Change, Outcome, Record, Write};
use crate::model::kept_shard::KeptShard;
use crate::model::lease_record::LeaseRecord;
use crate::model::room::Room;
use crate::model::row::{Row, Value};
use crate::model::snapshot::Snapshot;
use crate::store::StoreError;
use rusqlite::params;
use std::collections::BTreeMap;
use std::mem;

/// What some changes come to.
#[derive(Debug, Default)]
pub(super) struct Merged {
    epoch: Option<u64>,
    leases: Option<LeaseRecord>,
    room: Option<Room>,
    /// What the store becomes. Rows of other keys go before `rows` are written.
    shard: Option<KeptShard>,
    /// By client, in the order of their first changes: records keep the order of registration.
    records: Vec<(u8, RecordChange)>,
    /// The value of each row that has changed, or none if it is deleted.
    rows: BTreeMap<u64, Option<Value>>,
}

/// What becomes of a record.
#[derive(Debug, Default)]
struct RecordChange {
    /// The incarnation that has registered, if one has. It has a new record.
    registered: Option<u64>,
    /// The last write and its outcome, if one was judged.
    judged: Option<(u64, Outcome)>,
    left: bool,
}

impl Merged {
    pub fn add(&mut self, change: &Change) {
        match *change {
            Change::Started { epoch } => self.epoch = Some(epoch),
            Change::Leased(leases) => self.leases = Some(leases),
            Change::Room(room) => self.room = Some(room),
            Change::Shard(shard) => self.become_shard(shard),
            Change::Registered { client, incarnation } => {
                *self.record(client) =
                    RecordChange { registered: Some(incarnation), ..RecordChange::default() };
            }
            Change::Left { client } => self.record(client).left = true,
            Change::Judged { client, number, write, outcome } => {
                self.record(client).judged = Some((number, outcome));
                if outcome == Outcome::Applied {
                    self.write_row(&write);
                }
            }
        }
    }

    fn become_shard(&mut self, shard: KeptShard) {
        self.shard = Some(shard);
        let keys = shard.bounds.keys();
        self.rows.retain(|key, _| keys.contains(key));
    }

    fn write_row(&mut self, write: &Write) {
        match *write {
            Write::Insert(Row { key, value }) | Write::Put(Row { key, value }) => {
                self.rows.insert(key, Some(value));
            }
            Write::Delete(key) => {
                self.rows.insert(key, None);
            }
        }
    }

    fn record(&mut self, client: u8) -> &mut RecordChange {
        let place = self.records.iter().position(|(other, _)| *other == client);
        let place = place.unwrap_or_else(|| {
            self.records.push((client, RecordChange::default()));
            self.records.len() - 1
        });
        &mut self.records[place].1
    }

    pub fn is_empty(&self) -> bool {
        let Merged { epoch, leases, room, shard, records, rows } = self;
        epoch.is_none()
            && leases.is_none()
            && room.is_none()
            && shard.is_none()
            && records.is_empty()
            && rows.is_empty()
    }

    /// Takes a part out: this many rows, which are neighbors, and all that is not of rows.
    pub fn take_part(&mut self, rows: usize) -> Merged {
        let rest = match self.rows.keys().nth(rows).copied() {
            Some(next) => self.rows.split_off(&next),
            None => BTreeMap::new(),
        };
        mem::replace(self, Merged { rows: rest, ..Merged::default() })
    }

    /// Writes all of it to the tables.
    pub fn write(&self, transaction: &WriteTransaction<'_>) -> Result<(), StoreError> {
        if let Some(epoch) = self.epoch {
            run(transaction, EPOCH, params![signed(epoch)?])?;
        }
        if let Some(LeaseRecord { longest, unleased }) = self.leases {
            run(transaction, LEASE, params![signed(longest)?, unleased.bits().cast_signed()])?;
        }
        if let Some(room) = self.room {
            run(transaction, ROOM, params![signed(room.rows() as u64)?])?;
        }
        if let Some(shard) = self.shard {
            shard::write(transaction, shard)?;
        }
        for (client, record) in &self.records {
            record.write(transaction, *client)?;
        }
        for (key, value) in &self.rows {
            match value {
                Some(value) => run(transaction, PUT, params![signed(*key)?, value.as_bytes()])?,
                None => run(transaction, DELETE, params![signed(*key)?])?,
            }
        }
        Ok(())
    }
}

impl RecordChange {
    fn write(&self, transaction: &WriteTransaction<'_>, client: u8) -> Result<(), StoreError> {
        if let Some(incarnation) = self.registered {
            run(transaction, REGISTER, params![client, signed(incarnation)?])?;
        }
        if let Some((number, outcome)) = self.judged {
            run(transaction, JUDGE, params![client, signed(number)?, outcome.tag()])?;
        }
        if self.left { run(transaction, LEAVE, params![client]) } else { Ok(()) }
    }
}

/// The rows, each in place of the one of its key.
impl FromIterator<Row> for Merged {
    fn from_iter<Rows: IntoIterator<Item = Row>>(rows: Rows) -> Merged {
        let rows = rows.into_iter().map(|row| (row.key, Some(row.value))).collect();
        Merged { rows, ..Merged::default() }
    }
}

/// All that makes the tables of a new store have the snapshot, but for its first start.
impl From<&Snapshot> for Merged {
    fn from(snapshot: &Snapshot) -> Merged {
        let record = |&Record { client, incarnation, last, left }: &Record| {
            (client, RecordChange { registered: Some(incarnation), judged: last, left })
        };
        Merged {
            epoch: Some(snapshot.epoch),
            leases: Some(snapshot.leases),
            room: snapshot.room,
            shard: snapshot.shard,
            records: snapshot.records.iter().map(record).collect(),
            rows: snapshot.rows.iter().map(|(key, value)| (*key, Some(*value))).collect(),
        }
    }
}
