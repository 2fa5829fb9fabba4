//! What etcd has of a table, as a server keeps it, and how it stands in etcd's keys.
use crate::bucket::{self, Buckets};
use crate::head::Head;
use crate::transaction::Set;
use crate::{lease, record};
use krl::operate::Room;
use krl::store::fence::Failure;
use krl::store::{Change, KeptShard, LeaseRecord, Record, Snapshot};
use std::fmt::Display;
use std::str::FromStr;

/// The names after the prefix that are of no table: who serves, and a map of shards.
pub(crate) const OTHERS: [&str; 2] = ["active", "map"];

/// What etcd has of the table.
#[derive(Debug, Default)]
pub(crate) struct Table {
    pub buckets: Buckets,
    /// By place of first registration.
    pub records: Vec<Record>,
    pub leases: LeaseRecord,
    pub room: Option<Room>,
    pub shard: Option<KeptShard>,
    /// The buckets that have rows in etcd of keys that the shard does not have.
    pub stale: Vec<usize>,
    /// By epoch. A copy of another store has that one's first start at epoch 0, in which no server
    /// starts.
    pub starts: Vec<(u64, Head)>,
}

impl Table {
    /// The table that these keys have, under this head: names after the prefix, with their values.
    pub fn of_pairs(
        pairs: &[(String, Vec<u8>)],
        head: Option<Head>,
        salt: u64,
    ) -> Result<Table, Failure> {
        let count = head.map_or(bucket::FEWEST, |head| head.buckets);
        let mut table = Table { buckets: Buckets::empty(salt, count), ..Table::default() };
        let mut records = Vec::new();
        for (name, value) in pairs {
            match name.split_once('/') {
                None if name == "head" || OTHERS.contains(&name.as_str()) => {}
                None if name == "lease" => table.leases = parse_lease(name, value)?,
                None if name == "room" => table.room = Some(parse_text(name, value)?),
                None if name == "shard" => table.shard = Some(parse_text(name, value)?),
                Some(("bucket", number)) => table.parse_bucket(name, number, value)?,
                Some(("client", number)) => records.push(parse_record(name, number, value)?),
                Some(("start", epoch)) => {
                    let epoch = epoch.parse().map_err(|_| strange(name))?;
                    table.starts.push((epoch, parse_head(name, value)?));
                }
                _ => return Err(strange(name)),
            }
        }
        records.sort_by_key(|(place, _)| *place);
        table.records = records.into_iter().map(|(_, record)| record).collect();
        table.starts.sort_by_key(|(epoch, _)| *epoch);
        table.keep_own_rows();
        if head.is_none() && table.has_something() {
            return Err(Failure::Refused("there are rows or records, and no head".to_string()));
        }
        Ok(table)
    }

    fn has_something(&self) -> bool {
        let has_rows = self.buckets.iter().any(|rows| !rows.is_empty());
        let has_clients = !self.records.is_empty() || !self.starts.is_empty();
        has_rows || has_clients || self.room.is_some() || self.shard.is_some()
    }

    /// The table as a snapshot, under this head.
    pub fn snapshot(&self, epoch: u64, head: Option<Head>) -> Snapshot {
        let rows = self.buckets.iter().flatten().map(|(key, value)| (*key, *value)).collect();
        let (records, leases, room) = (self.records.clone(), self.leases, self.room);
        let shard = self.shard;
        let first = self.starts.first().map(|(_, head)| *head).or(head);
        let first_start = first.map(|head| head.fence.owner);
        Snapshot { epoch, rows, records, leases, room, shard, first_start }
    }

    pub fn note_record(&mut self, change: &Change) {
        // A snapshot without rows takes the change only for the records.
        let records = std::mem::take(&mut self.records);
        let mut snapshot = Snapshot { records, ..Snapshot::default() };
        snapshot.apply(change);
        self.records = snapshot.records;
    }

    /// What stands in etcd for the client.
    pub fn set_record(&self, prefix: &str, client: u8) -> Option<Set> {
        let mut places = self.records.iter().enumerate();
        let (place, of) = places.find(|(_, record)| record.client == client)?;
        let key = format!("{prefix}/client/{client:02}");
        Some(Set { key, value: record::encode(place, of).into() })
    }

    pub fn set_leases(&self, prefix: &str) -> Set {
        Set { key: format!("{prefix}/lease"), value: lease::encode(self.leases).into() }
    }

    pub fn set_room(&self, prefix: &str) -> Option<Set> {
        Some(Set { key: format!("{prefix}/room"), value: self.room?.to_string().into() })
    }

    pub fn set_shard(&self, prefix: &str) -> Option<Set> {
        Some(Set { key: format!("{prefix}/shard"), value: self.shard?.to_string().into() })
    }

    /// Removes the rows of keys that the shard does not have. They may stay in etcd: a server that
    /// was killed as it cut the table has left them there, and the next one removes them.
    pub fn keep_own_rows(&mut self) {
        let Some(KeptShard { bounds, .. }) = self.shard else { return };
        let keys = bounds.keys();
        self.stale.extend(self.buckets.retain(|key| keys.contains(&key)));
    }

    pub fn set_starts(&self, prefix: &str) -> impl Iterator<Item = Set> {
        self.starts.iter().map(move |(epoch, head)| Set {
            key: format!("{prefix}/start/{epoch}"),
            value: head.to_string().into(),
        })
    }

    fn parse_bucket(&mut self, name: &str, number: &str, value: &[u8]) -> Result<(), Failure> {
        let number = number.parse().ok().filter(|of| bucket_key("", *of).ends_with(name));
        let taken = number.and_then(|number| self.buckets.decode(number, value));
        taken.ok_or_else(|| strange(name))
    }
}

/// The key of the bucket of this number.
pub(crate) fn bucket_key(prefix: &str, number: usize) -> String {
    format!("{prefix}/bucket/{number:04}")
}

pub(crate) fn strange(name: &str) -> Failure {
    Failure::Refused(format!("the key {name:?} has what no server of krl keeps"))
}

pub(crate) fn parse_head(name: &str, value: &[u8]) -> Result<Head, Failure> {
    let text = std::str::from_utf8(value).map_err(|_| strange(name))?;
    text.parse().map_err(|()| strange(name))
}

fn parse_lease(name: &str, value: &[u8]) -> Result<LeaseRecord, Failure> {
    let text = std::str::from_utf8(value).map_err(|_| strange(name))?;
    lease::decode(text).ok_or_else(|| strange(name))
}

/// What stands there as text, if it is written as krl writes it.
fn parse_text<T: FromStr + Display>(name: &str, value: &[u8]) -> Result<T, Failure> {
    let parsed: Option<T> = std::str::from_utf8(value).ok().and_then(|text| text.parse().ok());
    parsed.filter(|it| it.to_string().as_bytes() == value).ok_or_else(|| strange(name))
}

fn parse_record(name: &str, number: &str, value: &[u8]) -> Result<(usize, Record), Failure> {
    let text = std::str::from_utf8(value).ok();
    let client = number.parse().ok();
    let record = client.zip(text).and_then(|(client, text)| record::decode(client, text));
    record.ok_or_else(|| strange(name))
}
