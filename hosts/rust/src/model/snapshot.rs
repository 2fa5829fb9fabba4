//! All that survives a restart of a server: how it changes, and how it is cut in two or merged.
use crate::model::change::{Change, Outcome, Record, Write};
use crate::model::kept_shard::KeptShard;
use crate::model::lease_record::LeaseRecord;
use crate::model::room::Room;
use crate::model::row::Value;
use std::collections::BTreeMap;
use std::fmt;

/// All that survives.
#[derive(Clone, Debug, Default, PartialEq, Eq)]
pub struct Snapshot {
    /// How many times a server has started.
    pub epoch: u64,
    /// The rows.
    pub rows: BTreeMap<u64, Value>,
    /// The records, in order of first registration.
    pub records: Vec<Record>,
    /// What is known of leases.
    pub leases: LeaseRecord,
    /// The greatest room that a server had over it. A store that no server has served keeps none,
    /// nor does one of a version that did not keep it.
    pub room: Option<Room>,
    /// The shard that the store belongs to, if it ever belonged to one.
    pub shard: Option<KeptShard>,
    /// The bits of the first start of a server over the store, if there was one and the store keeps
    /// its history. A copy has the same: they distinguish an older copy from another store.
    pub first_start: Option<u128>,
}

/// Why two stores make no shard.
#[derive(Clone, Copy, Debug, PartialEq, Eq)]
#[non_exhaustive]
pub enum NotNeighbors {
    /// A key of the lower one is not below all keys of the upper one.
    Overlap {
        /// The lower one's last key.
        lower: u64,
        /// The upper one's first key.
        upper: u64,
    },
}

impl Snapshot {
    /// Makes one change.
    pub fn apply(&mut self, change: &Change) {
        match *change {
            Change::Started { epoch } => self.epoch = epoch,
            Change::Registered { client, incarnation } => self.register(client, incarnation),
            Change::Left { client } => self.revise(client, |record| record.left = true),
            Change::Leased(leases) => self.leases = leases,
            Change::Room(room) => self.room = Some(room),
            Change::Shard(shard) => self.become_shard(shard),
            Change::Judged { client, number, write, outcome } => {
                self.revise(client, |record| record.last = Some((number, outcome)));
                if outcome == Outcome::Applied {
                    self.write(write);
                }
            }
        }
    }

    fn become_shard(&mut self, shard: KeptShard) {
        self.shard = Some(shard);
        let keys = shard.bounds.keys();
        self.rows.retain(|key, _| keys.contains(key));
    }

    fn register(&mut self, client: u8, incarnation: u64) {
        let new = Record { client, incarnation, last: None, left: false };
        match self.records.iter_mut().find(|record| record.client == client) {
            Some(record) => *record = new,
            None => self.records.push(new),
        }
    }

    fn revise(&mut self, client: u8, how: impl FnOnce(&mut Record)) {
        if let Some(record) = self.records.iter_mut().find(|record| record.client == client) {
            how(record);
        }
    }

    fn write(&mut self, write: Write) {
        match write {
            Write::Insert(row) | Write::Put(row) => self.rows.insert(row.key, row.value),
            Write::Delete(key) => self.rows.remove(&key),
        };
    }

    /// The room of a server that starts on it and is given none: the greatest that one had before.
    /// For a store of a version that did not keep it, it is 65,536, and it is never less than the
    /// rows need. A store that no server has served and that has no rows has none.
    #[must_use]
    pub fn kept_room(&self) -> Option<Room> {
        let is_new = self.epoch == 0 && self.rows.is_empty();
        let kept = self.room.or((!is_new).then(Room::default));
        kept.map(|room| room.max(Room::for_rows(self.rows.len())))
    }

    /// The clients that are registered and have not left, in ascending order.
    #[must_use]
    pub fn present(&self) -> Vec<u8> {
        let present = self.records.iter().filter(|record| !record.left);
        let mut clients: Vec<u8> = present.map(|record| record.client).collect();
        clients.sort_unstable();
        clients
    }

    /// Cuts it in two: the rows below the key, and those from it on. Both keep the epoch, the
    /// records, what is known of leases and the room. The lower one keeps the first start; the
    /// upper one is a new store, on which no server has started. A server can start on either only
    /// if it can start on this, and a client may learn of the cut only if all have left before:
    /// otherwise one would continue to answer for both halves. Of which shards they are is left to the
    /// caller: neither is of one.
    #[must_use]
    pub fn split(mut self, at: u64) -> (Snapshot, Snapshot) {
        self.shard = None;
        let upper = Snapshot { rows: self.rows.split_off(&at), ..self.without_rows() };
        (self, upper)
    }

    /// Makes one of this, whose keys are all lower, and of another one. Its epoch is the greater
    /// one, so that no client has joined a later one, and so are each client's incarnation, the
    /// longest lease and the room. It is a new store, on which no server has started. The clients
    /// are in the order of this one's records, and after them those that only the other one has. It is
    /// of no shard yet.
    ///
    /// # Errors
    ///
    /// If a key of this is not below all keys of the other one.
    pub fn merge(mut self, upper: Snapshot) -> Result<Snapshot, NotNeighbors> {
        if let (Some((&last, _)), Some((&first, _))) =
            (self.rows.last_key_value(), upper.rows.first_key_value())
            && last >= first
        {
            return Err(NotNeighbors::Overlap { lower: last, upper: first });
        }
        self.room = self.kept_room().max(upper.kept_room());
        self.epoch = self.epoch.max(upper.epoch);
        self.leases = self.leases.with_those_of(upper.leases);
        (self.shard, self.first_start) = (None, None);
        self.rows.extend(upper.rows);
        for record in upper.records {
            self.merge_record(record);
        }
        Ok(self)
    }

    fn merge_record(&mut self, other: Record) {
        match self.records.iter_mut().find(|record| record.client == other.client) {
            Some(record) if record.incarnation < other.incarnation => *record = other,
            Some(_) => {}
            None => self.records.push(other),
        }
    }

    fn without_rows(&self) -> Snapshot {
        let Snapshot { epoch, ref records, leases, room, .. } = *self;
        Snapshot { epoch, records: records.clone(), leases, room, ..Snapshot::default() }
    }
}

impl fmt::Display for NotNeighbors {
    fn fmt(&self, f: &mut fmt::Formatter<'_>) -> fmt::Result {
        let NotNeighbors::Overlap { lower, upper } = self;
        write!(f, "the lower store has the key {lower}, and the upper one begins at {upper}")
    }
}

impl std::error::Error for NotNeighbors {}

#[cfg(test)]
mod tests {
    use super::*;
    use crate::model::row::{END, Row};

    fn record(client: u8, incarnation: u64) -> Record {
        Record { client, incarnation, last: Some((1, Outcome::Applied)), left: true }
    }

    fn snapshot(epoch: u64, keys: &[u64], records: &[Record]) -> Snapshot {
        let rows = keys.iter().map(|key| (*key, Value::from(*key))).collect();
        let room = Some(Room::default());
        Snapshot { epoch, rows, records: records.to_vec(), room, ..Snapshot::default() }
    }

    #[test]
    fn each_row_is_in_one_half_and_a_server_can_start_on_both() {
        let records = [record(9, 5), record(2, 7)];
        let whole = snapshot(7, &[0, 4, 5, 6, END - 1], &records);
        for (at, lower, upper) in [
            (5, &[0, 4][..], &[5, 6, END - 1][..]),
            (1, &[0], &[4, 5, 6, END - 1]),
            (END - 1, &[0, 4, 5, 6], &[END - 1]),
        ] {
            let halves = whole.clone().split(at);
            let expected = (snapshot(7, lower, &records), snapshot(7, upper, &records));
            assert_eq!(halves, expected);
            assert_eq!((halves.0.judge(), halves.1.judge()), (Ok(()), Ok(())));
            assert_eq!(halves.0.merge(halves.1), Ok(whole.clone()));
        }
    }

    #[test]
    fn the_greater_epoch_and_incarnations_stay() {
        let lower = snapshot(3, &[1, 2], &[record(9, 5), record(2, 7)]);
        let upper = snapshot(8, &[3], &[record(2, 6), record(4, 1), record(9, 6)]);
        let merged = lower.merge(upper).unwrap();
        let records = [record(9, 6), record(2, 7), record(4, 1)];
        assert_eq!(merged, snapshot(8, &[1, 2, 3], &records));
        assert_eq!(merged.judge(), Ok(()));
    }

    #[test]
    fn both_halves_keep_the_room_and_the_greater_one_stays() {
        let room = |rows| Some(Room::of(rows).unwrap());
        let whole = Snapshot { room: room(100), ..snapshot(1, &[1, 5], &[]) };
        let (lower, upper) = whole.split(5);
        assert_eq!((lower.room, upper.room), (room(100), room(100)));
        let greater = Snapshot { room: room(200), ..upper.clone() };
        assert_eq!(lower.clone().merge(greater).unwrap().room, room(200));
        let older = Snapshot { room: None, ..upper };
        assert_eq!(lower.clone().merge(older).unwrap().room, Some(Room::default()));
        let new = Snapshot::default();
        assert_eq!(lower.merge(new.clone()).unwrap().room, room(100));
        assert_eq!(new.clone().merge(new).unwrap().room, None);
    }

    #[test]
    fn the_lower_half_is_the_store_and_the_others_are_new_ones() {
        let whole = Snapshot { first_start: Some(7), ..snapshot(1, &[1, 5], &[]) };
        let (lower, upper) = whole.split(5);
        assert_eq!((lower.first_start, upper.first_start), (Some(7), None));
        assert_eq!(lower.merge(upper).unwrap().first_start, None);
    }

    #[test]
    fn stores_that_are_no_neighbors_are_not_merged() {
        let (lower, upper) = (snapshot(1, &[1, 5], &[]), snapshot(1, &[5, 9], &[]));
        let refused = NotNeighbors::Overlap { lower: 5, upper: 5 };
        assert_eq!(lower.clone().merge(upper.clone()), Err(refused));
        assert!(upper.merge(lower).is_err());
    }

    #[test]
    fn who_has_not_left_is_named() {
        let there = |client| Record { left: false, ..record(client, 1) };
        let snapshot = snapshot(1, &[], &[there(9), record(5, 1), there(2)]);
        assert_eq!(snapshot.present(), [2, 9]);
    }

    #[test]
    fn the_rows_that_are_counted_are_those_of_the_table() {
        let row = |key| Row { key, value: Value::from(key) };
        let judged = |write, outcome| Change::Judged { client: 3, number: 1, write, outcome };
        let mut table = Snapshot::default();
        let mut rows = 0;
        for (change, count) in [
            (Change::Started { epoch: 1 }, 0),
            (Change::Registered { client: 3, incarnation: 1 }, 0),
            (judged(Write::Insert(row(1)), Outcome::Applied), 1),
            (judged(Write::Insert(row(2)), Outcome::NotHeld), 1),
            (judged(Write::Insert(row(2)), Outcome::Applied), 2),
            (judged(Write::Insert(row(2)), Outcome::Exists), 2),
            (judged(Write::Put(row(1)), Outcome::Applied), 2),
            (judged(Write::Delete(7), Outcome::Absent), 2),
            (judged(Write::Delete(1), Outcome::Applied), 1),
            (Change::Left { client: 3 }, 1),
        ] {
            table.apply(&change);
            rows = change.rows_after(rows);
            assert_eq!((rows, table.rows.len() as u64), (count, count), "{change:?}");
        }
    }
}
