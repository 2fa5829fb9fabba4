//! A store in etcd.
//!
//! ```text
//! PREFIX/head          the head: what every transaction compares, and sets
//! PREFIX/bucket/0017   the rows of a bucket
//! PREFIX/client/03     the record of a client
//! PREFIX/lease         what is known of leases
//! PREFIX/room          the greatest room of a server, as a number of rows
//! PREFIX/start/7       the head as the server of epoch 7 left it; in a copy of another store,
//!                      start/0 has that one's first start
//! PREFIX/active        the address of the server that serves, with a lease: no promise rests on it
//! PREFIX/map           a map of shards, if one is at home there: it is of no store
//! ```
use crate::address::{Credentials, EtcdAddress};
use crate::bucket;
use crate::call::{Etcd, pair_of};
use crate::concerns;
use crate::create;
use crate::head::Head;
use crate::request;
use crate::table::{Table, bucket_key, parse_head, strange};
use crate::transaction::{self, Part, Set};
use krl::Outcome;
use krl::store::fence::{self, Failure, Fence, Ownership};
use krl::store::{Change, History, Snapshot, Store, StoreError};
use serde_json::{Value as Json, json};
use std::ops::Range;
use std::time::{Duration, Instant};

/// A change sets this many keys at most: a bucket and a record.
const KEYS_OF_A_CHANGE: usize = 2;

/// An answer of a load has about this many bytes of keys and values, and at least this many keys.
const PAGE_BYTES: usize = 1 << 20;
const FEWEST_KEYS: usize = 64;

/// How many times a load is tried, if what it reads is compacted away.
const LOADS: u32 = 4;

/// How long a load continues to ask for one part, and how long a commit, by default.
const LOAD_TIMEOUT: Duration = Duration::from_secs(30);
const COMMIT_TIMEOUT: Duration = Duration::from_secs(5);

/// How much longer a call may take in all, on a busy machine.
const LAST_ATTEMPT: Duration = Duration::from_secs(5);

/// A store in etcd, which keeps it on several machines. Any number of servers may open it: one of
/// them at a time can commit something, the one that loaded and committed last.
///
/// It takes an etcd of version 3.4 or newer, whose JSON gateway is on, as it is by default.
#[derive(Debug)]
pub struct EtcdStore {
    etcd: Etcd,
    prefix: String,
    load_timeout: Duration,
    commit_timeout: Duration,
    ownership: Ownership,
    /// The head as it stands in etcd, as far as this store knows. None in a new store.
    head: Option<Head>,
    /// The head that the next transaction sets.
    next: Head,
    table: Table,
}

impl EtcdStore {
    /// A store at this address. Nothing is asked yet.
    ///
    /// # Errors
    ///
    /// If the credentials can't be used.
    pub fn open(address: &EtcdAddress, credentials: &Credentials) -> Result<EtcdStore, StoreError> {
        Ok(EtcdStore {
            etcd: Etcd::new(address, credentials).map_err(StoreError::failed)?,
            prefix: address.prefix.clone(),
            load_timeout: LOAD_TIMEOUT,
            commit_timeout: COMMIT_TIMEOUT,
            ownership: Ownership::default(),
            head: None,
            next: Head::EMPTY,
            table: Table::default(),
        })
    }

    /// Makes a store of the snapshot, such as a backup's, at an address where there is none. No
    /// server serves it before it is whole. A store that an earlier call has made of the same
    /// snapshot, and on which no server has started since, stays as it is.
    ///
    /// # Errors
    ///
    /// If there is something else already; if the cluster does not answer, or refuses. What was begun
    /// stays then, no server starts on it, and the next call here takes its place.
    pub fn create(
        address: &EtcdAddress,
        credentials: &Credentials,
        snapshot: &Snapshot,
    ) -> Result<(), StoreError> {
        let made = create::create(address, credentials, snapshot);
        let found = || EtcdStore::open(address, credentials)?.load();
        let first_start = snapshot.first_start;
        let is_it = |found| Snapshot { first_start, ..found } == *snapshot;
        if made.is_err() && found().is_ok_and(is_it) { Ok(()) } else { made }
    }

    /// Removes a store of these keys that is sealed, so that another one can be made there. Returns
    /// whether there was one: any other one stays as it is. No server can have started on it.
    ///
    /// # Errors
    ///
    /// If somebody else changes it meanwhile; if the cluster does not answer, or refuses.
    pub fn remove_sealed(
        address: &EtcdAddress,
        credentials: &Credentials,
        keys: &Range<u64>,
    ) -> Result<bool, StoreError> {
        let mut store = EtcdStore::open(address, credentials)?;
        if create::is_unfinished(&mut store.etcd, &store.prefix)? {
            return Ok(false);
        }
        let shard = store.load()?.shard;
        if !shard.is_some_and(|shard| shard.is_sealed && shard.bounds.keys() == *keys) {
            return Ok(false);
        }
        let head = store.key("head");
        let mut removes = create::delete_all(&store.prefix);
        removes.push(request::delete(&head));
        let asked = json!({
            "compare": [store.fence()], "success": removes, "failure": [request::get(&head)],
        });
        store.ask(&asked, None, Instant::now() + store.load_timeout)?;
        Ok(true)
    }

    /// From now on a commit waits at most this long for the cluster. Longer than an election of
    /// etcd takes, the server continues over one.
    #[must_use]
    pub fn with_commit_timeout(self, commit_timeout: Duration) -> EtcdStore {
        EtcdStore { commit_timeout, ..self }
    }

    /// What is wrong with the cluster, or will be, as sentences for an operator: an alarm, little
    /// space, no compaction.
    pub fn concerns(&mut self) -> Vec<String> {
        let key = self.key("head");
        concerns::concerns(&mut self.etcd, &key)
    }

    /// How many calls had to be made again.
    #[must_use]
    pub fn retries(&self) -> u64 {
        self.etcd.retries()
    }

    fn key(&self, name: &str) -> String {
        format!("{}/{name}", self.prefix)
    }

    fn load_once(&mut self) -> Result<Snapshot, Failure> {
        transaction::probe(&mut self.etcd, &self.prefix, Instant::now() + self.load_timeout)?;
        let pairs = self.all_pairs()?;
        let head = pairs.iter().find(|(name, _)| name == "head");
        let head = head.map(|(name, text)| parse_head(name, text)).transpose()?;
        let salt = match head {
            Some(head) => head.salt,
            None => u64::from_ne_bytes(fence::draw()?),
        };
        self.table = Table::of_pairs(&pairs, head, salt)?;
        self.head = head;
        let epoch = head.map_or(0, |head| head.fence.epoch);
        let fence = Fence::with_new_owner(epoch)?;
        self.next = Head { fence, salt, buckets: self.table.buckets.count() };
        Ok(self.table.snapshot(epoch, head))
    }

    /// All that is stored, as it was at one moment: names after the prefix, with their values.
    fn all_pairs(&mut self) -> Result<Vec<(String, Vec<u8>)>, Failure> {
        let folder = self.key("");
        // What begins with the folder comes before what begins with the byte after the slash.
        let last = format!("{}0", self.prefix);
        let (mut pairs, mut from, mut revision) = (Vec::new(), folder.clone().into_bytes(), 0);
        let mut limit = FEWEST_KEYS;
        loop {
            let asked = request::range(&from, last.as_bytes(), limit, revision);
            let page = self.etcd.call("kv/range", &asked, Instant::now() + self.load_timeout)?;
            if revision == 0 {
                revision = request::number_of(&page["header"]["revision"]);
            }
            let mut bytes = 0;
            for pair in page["kvs"].as_array().into_iter().flatten() {
                let (key, value) = pair_of(pair)?;
                bytes += key.len() + value.len();
                from = [key.as_bytes(), &[0]].concat();
                let name = key.strip_prefix(&folder).ok_or_else(|| strange(&key))?;
                pairs.push((name.to_string(), value));
            }
            if page["more"].as_bool() != Some(true) {
                return Ok(pairs);
            }
            limit = next_limit(limit, bytes);
        }
    }

    /// Commits what the part sets, if nobody else has committed anything since this store did.
    fn send(&mut self, part: &Part, end: Instant) -> Result<(), StoreError> {
        let next = Head { fence: self.next.fence.after_transaction(), ..self.next };
        let sets = self.operations(&next, part);
        let asked = json!({
            "compare": [self.fence()], "success": sets, "failure": [request::get(&self.key("head"))],
        });
        self.ask(&asked, Some(next), end)?;
        (self.head, self.next) = (Some(next), next);
        Ok(())
    }

    /// What a transaction does that sets this head and the content of the part.
    fn operations(&self, next: &Head, part: &Part) -> Vec<Json> {
        let mut operations = vec![request::put(&self.key("head"), next.to_string().as_bytes())];
        if let Some(past) = part.past {
            let name = format!("start/{}", past.fence.epoch);
            operations.push(request::put(&self.key(&name), past.to_string().as_bytes()));
        }
        operations.extend(part.buckets().map(|number| self.set_bucket(number)));
        let clients = part.clients.iter();
        let clients = clients.filter_map(|client| self.table.set_record(&self.prefix, *client));
        let leases = part.sets_leases.then(|| self.table.set_leases(&self.prefix));
        let room = part.sets_room.then(|| self.table.set_room(&self.prefix)).flatten();
        let shard = part.sets_shard.then(|| self.table.set_shard(&self.prefix)).flatten();
        let sets = clients.chain(leases).chain(room).chain(shard);
        operations.extend(sets.map(|set: Set| set.as_json()));
        operations
    }

    /// Asks whether the store is still this one's.
    fn confirm(&mut self, end: Instant) -> Result<(), StoreError> {
        let asked =
            json!({"compare": [self.fence()], "failure": [request::get(&self.key("head"))]});
        self.ask(&asked, self.head, end)
    }

    /// What every transaction compares: that the head is the one that this store knows.
    fn fence(&self) -> Json {
        let head = self.head.map(|head| head.to_string());
        request::has(&self.key("head"), head.as_deref())
    }

    fn set_bucket(&self, number: usize) -> Json {
        let key = bucket_key(&self.prefix, number);
        match self.table.buckets.get(number).filter(|rows| !rows.is_empty()) {
            Some(rows) => request::put(&key, &bucket::encode(rows)),
            None => request::delete(&key),
        }
    }

    /// Makes a transaction after which this is the head, or which finds the head that stands there.
    fn ask(&mut self, asked: &Json, head: Option<Head>, end: Instant) -> Result<(), StoreError> {
        let head = head.map(|head| head.to_string());
        let found = self.etcd.call("kv/txn", asked, end).map(|answer| {
            if request::succeeded(&answer) { head.clone() } else { request::found_by_get(&answer) }
        });
        self.ownership.judge(found, head.as_ref())
    }

    /// Makes a change in the table, and adds to the part what it has to set.
    fn note(&mut self, change: &Change, part: &mut Part) {
        match *change {
            Change::Started { epoch } => {
                part.past = self.head;
                self.table.starts.extend(self.head.map(|head| (head.fence.epoch, head)));
                self.next.fence.epoch = epoch;
            }
            Change::Registered { client, .. } | Change::Left { client } => {
                part.clients.insert(client);
            }
            Change::Judged { client, write, outcome, .. } => {
                part.clients.insert(client);
                if outcome == Outcome::Applied {
                    let number = self.table.buckets.write(write);
                    self.set_in(part, number);
                }
            }
            Change::Leased(leases) => {
                part.sets_leases = true;
                self.table.leases = leases;
            }
            Change::Room(room) => {
                part.sets_room = true;
                self.table.room = Some(room);
            }
            Change::Shard(shard) => {
                part.sets_shard = true;
                self.table.shard = Some(shard);
                self.table.keep_own_rows();
            }
        }
        self.table.note_record(change);
    }

    /// How many more bytes the part has with the change, at most.
    fn bytes_of(&self, change: &Change) -> usize {
        let Change::Judged { write, outcome: Outcome::Applied, .. } = change else { return 0 };
        let rows = self.table.buckets.get(self.table.buckets.number_of(write.key()));
        rows.map_or(0, bucket::length) + bucket::LONGEST_ROW
    }

    fn set_in(&self, part: &mut Part, number: usize) {
        if let Some(rows) = self.table.buckets.get(number) {
            part.set_bucket(number, rows);
        }
    }

    /// Adds buckets until there are as many as the room wants. Each part of them is a transaction,
    /// which sets their number with their rows. If a server ends meanwhile, the next one continues.
    fn grow(&mut self) -> Result<(), StoreError> {
        let wanted = bucket::count_for(self.table.room.unwrap_or_default());
        while self.next.buckets < wanted {
            let part = self.add_buckets(wanted);
            self.send(&part, Instant::now() + self.load_timeout)?;
        }
        Ok(())
    }

    /// Removes the rows of keys that the shard does not have. The transaction that set the shard has
    /// cut them off: nobody loads them any more, also if a server ends meanwhile.
    fn remove_other_rows(&mut self) -> Result<(), StoreError> {
        let mut part = Part::default();
        for stale in std::mem::take(&mut self.table.stale) {
            let bytes = self.table.buckets.get(stale).map_or(0, bucket::length);
            if !part.has_room_for(1, bytes) {
                self.send(&part, Instant::now() + self.load_timeout)?;
                part = Part::default();
            }
            self.set_in(&mut part, stale);
        }
        if part.is_empty() {
            return Ok(());
        }
        self.send(&part, Instant::now() + self.load_timeout)
    }

    /// Adds as many of them as fit into one transaction.
    fn add_buckets(&mut self, wanted: usize) -> Part {
        let mut part = Part::default();
        while self.table.buckets.count() < wanted {
            let (from, number) = (self.table.buckets.splits_next(), self.table.buckets.count());
            let bytes = self.table.buckets.get(from).map_or(0, bucket::length);
            if !part.is_empty() && !part.has_room_for(KEYS_OF_A_CHANGE, bytes) {
                break;
            }
            if self.table.buckets.add() {
                self.set_in(&mut part, from);
                self.set_in(&mut part, number);
            }
        }
        self.next.buckets = self.table.buckets.count();
        part
    }
}

impl Store for EtcdStore {
    /// A store is loaded once: what it commits rests on what it has loaded, and a server that
    /// loads again is a new one.
    fn load(&mut self) -> Result<Snapshot, StoreError> {
        self.ownership.may_load()?;
        for _ in 1..LOADS {
            match self.load_once() {
                // The revision that was read was compacted away meanwhile.
                Err(Failure::Refused(why)) if why.contains("compacted") => {}
                Err(failure) => return Err(failure.into()),
                Ok(snapshot) => {
                    self.ownership.note_loaded();
                    return Ok(snapshot);
                }
            }
        }
        let snapshot = self.load_once()?;
        self.ownership.note_loaded();
        Ok(snapshot)
    }

    /// Each transaction sets 120 keys and 1 MiB at most. If the changes set more, they are
    /// committed in several, in their order: after an error, the first ones may be kept.
    fn commit(&mut self, changes: &[Change]) -> Result<(), StoreError> {
        self.ownership.may_commit()?;
        let end = Instant::now() + self.commit_timeout;
        if changes.is_empty() {
            return self.confirm(end);
        }
        Change::judge_shards(self.table.shard, changes).map_err(StoreError::failed)?;
        let mut part = Part::default();
        for change in changes {
            if !part.has_room_for(KEYS_OF_A_CHANGE, self.bytes_of(change)) {
                self.send(&part, end)?;
                part = Part::default();
            }
            self.note(change, &mut part);
        }
        self.next.fence = self.next.fence.after_batch();
        self.send(&part, end)?;
        self.remove_other_rows()?;
        // A store of the first form stays as it is until its room is raised.
        let is_raised = changes.iter().any(|change| matches!(change, Change::Room(_)));
        if is_raised || self.next.buckets > bucket::FEWEST {
            self.grow()?;
        }
        Ok(())
    }

    /// What this store has committed, from memory.
    fn snapshot(&mut self) -> Result<Snapshot, StoreError> {
        self.ownership.may_commit()?;
        Ok(self.table.snapshot(self.next.fence.epoch, self.head))
    }

    fn history(&mut self) -> Result<Option<History>, StoreError> {
        let heads = self.table.starts.iter().map(|(_, head)| *head).chain(self.head);
        Ok(History::new(heads.filter_map(|head| head.fence.mark()).collect()))
    }

    fn longest_wait(&self) -> Duration {
        self.commit_timeout + LAST_ATTEMPT
    }
}

/// How many keys the next answer may have, after one of this many keys and bytes.
fn next_limit(keys: usize, bytes: usize) -> usize {
    (keys * PAGE_BYTES / bytes.max(1)).clamp(FEWEST_KEYS, 64 * FEWEST_KEYS)
}

#[cfg(test)]
mod tests;
