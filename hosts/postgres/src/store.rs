//! A store in PostgreSQL.
use crate::address::PostgresAddress;
use crate::batch::{self, Batch};
use crate::connector::Connector;
use crate::head::{fence_of, no_fence};
use crate::link::{Link, Stored};
use krl::Value;
use krl::operate::Room;
use krl::store::fence::{Failure, Fence, Ownership};
use krl::store::{
    Change, ClientSet, History, KeptShard, LeaseRecord, Mark, Snapshot, Store, StoreError,
};
use std::fmt;
use std::ops::Range;
use std::thread;
use std::time::{Duration, Instant};
use tokio_postgres::Row;

/// How long a load continues to ask, how long a commit by default, and how long what makes a store.
const LOAD_TIMEOUT: Duration = Duration::from_secs(60);
const COMMIT_TIMEOUT: Duration = Duration::from_secs(5);
const CREATE_TIMEOUT: Duration = Duration::from_secs(120);

/// How long one attempt to reach the database takes at most, and the pause before the next one.
const REACH: Duration = Duration::from_secs(1);
const REACH_PAUSE: Duration = Duration::from_millis(200);

/// How much longer a call may take in all, on a busy machine.
const LAST_ATTEMPT: Duration = Duration::from_secs(5);

/// A store in a database of PostgreSQL, in its schema `krl`. Any number of servers may open it: one
/// of them at a time can commit something, the one that loaded and committed last.
///
/// **It rests on what the database answers.** What was answered has to be there forever. So it
/// loads from no database that runs without `fsync` or `full_page_writes`, and commits with
/// `synchronous_commit`. It can't see how the database fails over: a replica that lags and is
/// promoted takes back what clients have learned, and the epoch may fall, so that an older server's
/// changes are taken. Then nothing is promised. Only synchronous replication keeps the promise:
/// `synchronous_standby_names` names the replicas, and none is promoted that it did not wait for.
///
/// It waits for the database by its own runtime. So it panics on a thread on which another runtime
/// of tokio runs: start a server over it on a thread that has none.
pub struct PostgresStore {
    link: Link,
    commit_timeout: Duration,
    ownership: Ownership,
    /// The head as it stands in the database, as far as this store knows.
    head: Fence,
    /// The head that the next commit sets.
    next: Fence,
    /// The heads of servers before.
    starts: Vec<Mark>,
    snapshot: Snapshot,
}

impl PostgresStore {
    /// A store at this address, as this user by this password, or as the address states. Nothing is
    /// asked yet.
    ///
    /// # Errors
    ///
    /// If a file of the address can't be used, or this process can open no sockets.
    pub fn open(
        address: &PostgresAddress,
        user: Option<&(String, String)>,
    ) -> Result<PostgresStore, StoreError> {
        let connector = Connector::new(address, user).map_err(StoreError::failed)?;
        let link = Link::new(connector);
        Ok(PostgresStore {
            link: link.map_err(StoreError::failed)?,
            commit_timeout: COMMIT_TIMEOUT,
            ownership: Ownership::default(),
            head: Fence::default(),
            next: Fence::default(),
            starts: Vec::new(),
            snapshot: Snapshot::default(),
        })
    }

    /// Connects to the database, and tries again until it answers. Each time that it does not,
    /// `goes_on` gets the reason, and returns whether to try again. False if it is not to continue.
    ///
    /// # Errors
    ///
    /// If the database refuses this user, or what it is asked, or TLS fails by a certificate.
    pub fn reach(&mut self, mut goes_on: impl FnMut(&str) -> bool) -> Result<bool, StoreError> {
        loop {
            match self.link.connect(Instant::now() + REACH) {
                Ok(()) => return Ok(true),
                Err(Failure::Unknown(why)) if goes_on(&why) => thread::sleep(REACH_PAUSE),
                Err(Failure::Unknown(_)) => return Ok(false),
                Err(refused @ Failure::Refused(_)) => return Err(refused.into()),
            }
        }
    }

    /// Makes a store of the snapshot, such as a backup's, in a database that has none. One that an
    /// earlier call has made of the same snapshot, and on which no server has started since, stays
    /// as it is.
    ///
    /// # Errors
    ///
    /// If there is another store already; if the database does not answer, or refuses.
    pub fn create(
        address: &PostgresAddress,
        user: Option<&(String, String)>,
        snapshot: &Snapshot,
    ) -> Result<(), StoreError> {
        let mut store = PostgresStore::open(address, user)?;
        let found = store.load()?;
        if store.head != Fence::default() {
            let first_start = snapshot.first_start;
            if (Snapshot { first_start, ..found }) == *snapshot {
                return Ok(());
            }
            let why = format!("the database of {address} has a store of krl already");
            return Err(StoreError::failed(why));
        }
        let next = Fence { epoch: snapshot.epoch, ..store.next };
        let next = next.after_batch().after_transaction();
        store.send(&Batch::of_all(snapshot), next, Instant::now() + CREATE_TIMEOUT)
    }

    /// Removes a store of these keys that is sealed, so that another one can be made there. Returns
    /// whether there was one: any other one stays as it is. No server can have started on it.
    ///
    /// # Errors
    ///
    /// If somebody else changes it meanwhile; if the database does not answer, or refuses.
    pub fn remove_sealed(
        address: &PostgresAddress,
        user: Option<&(String, String)>,
        keys: &Range<u64>,
    ) -> Result<bool, StoreError> {
        let mut store = PostgresStore::open(address, user)?;
        let shard = store.load()?.shard;
        if !shard.is_some_and(|shard| shard.is_sealed && shard.bounds.keys() == *keys) {
            return Ok(false);
        }
        let found = store.link.remove(&store.head, Instant::now() + CREATE_TIMEOUT);
        store.ownership.judge(found, Some(&Fence::default()))?;
        Ok(true)
    }

    /// From now on a commit waits at most this long for the database.
    #[must_use]
    pub fn with_commit_timeout(self, commit_timeout: Duration) -> PostgresStore {
        PostgresStore { commit_timeout, ..self }
    }

    fn load_once(&mut self, end: Instant) -> Result<(), Failure> {
        let loaded = self.link.load(end)?;
        if !loaded.is_safe {
            let why =
                "PostgreSQL runs with fsync or full_page_writes off: it loses what it answers";
            return Err(Failure::Refused(why.to_string()));
        }
        let Some(stored) = loaded.stored else {
            self.next = Fence::with_new_owner(self.head.epoch)?;
            return Ok(());
        };
        let head = fence_of(&stored.head).ok_or_else(|| no_fence(&stored.head))?;
        self.snapshot = snapshot(&stored, head.epoch)?;
        self.starts = stored.starts.iter().map(mark).collect::<Result<_, _>>()?;
        self.head = head;
        self.next = Fence::with_new_owner(head.epoch)?;
        Ok(())
    }

    /// Commits the batch, and `next` as the head.
    fn send(&mut self, batch: &Batch, next: Fence, end: Instant) -> Result<(), StoreError> {
        let found = self.link.commit(&self.head, &next, batch, end);
        self.ownership.judge(found, Some(&next))?;
        (self.head, self.next) = (next, next);
        Ok(())
    }

    fn whole_history(&self) -> Option<History> {
        History::new(self.starts.iter().copied().chain(self.head.mark()).collect())
    }

    fn whole_snapshot(&self) -> Snapshot {
        let first_start = self.whole_history().and_then(|history| history.first_start());
        Snapshot { first_start, ..self.snapshot.clone() }
    }
}

impl Store for PostgresStore {
    /// A store is loaded once: what it commits rests on what it has loaded, and a server that
    /// loads again is a new one.
    fn load(&mut self) -> Result<Snapshot, StoreError> {
        self.ownership.may_load()?;
        self.load_once(Instant::now() + LOAD_TIMEOUT)?;
        self.ownership.note_loaded();
        Ok(self.whole_snapshot())
    }

    fn commit(&mut self, changes: &[Change]) -> Result<(), StoreError> {
        self.ownership.may_commit()?;
        let end = Instant::now() + self.commit_timeout;
        if changes.is_empty() {
            let found = self.link.confirm(&self.head, end);
            return self.ownership.judge(found, Some(&self.head));
        }
        Change::judge_shards(self.snapshot.shard, changes).map_err(StoreError::failed)?;
        for change in changes {
            self.snapshot.apply(change);
        }
        let next = Fence { epoch: self.snapshot.epoch, ..self.next };
        let next = next.after_batch().after_transaction();
        let batch = Batch::new(changes, &self.snapshot);
        if batch.starts {
            self.starts.extend(self.head.mark());
        }
        self.send(&batch, next, end)
    }

    /// What this store has committed, from memory.
    fn snapshot(&mut self) -> Result<Snapshot, StoreError> {
        self.ownership.may_commit()?;
        Ok(self.whole_snapshot())
    }

    fn history(&mut self) -> Result<Option<History>, StoreError> {
        Ok(self.whole_history())
    }

    fn longest_wait(&self) -> Duration {
        self.commit_timeout + LAST_ATTEMPT
    }
}

impl fmt::Debug for PostgresStore {
    fn fmt(&self, f: &mut fmt::Formatter<'_>) -> fmt::Result {
        f.debug_struct("PostgresStore").field("head", &self.head).finish_non_exhaustive()
    }
}

pub(crate) fn strange(table: &str) -> Failure {
    Failure::Refused(format!("the table krl.{table} has what no server of krl keeps"))
}

fn snapshot(stored: &Stored, epoch: u64) -> Result<Snapshot, Failure> {
    let rows = stored.entries.iter().map(entry).collect::<Result<_, _>>()?;
    let records = stored.clients.iter().map(record).collect::<Result<_, _>>()?;
    let room = stored.room.as_ref().map(room).transpose()?;
    let shard = stored.shard.as_ref().map(shard).transpose()?;
    let leases = leases(&stored.leases)?;
    Ok(Snapshot { epoch, rows, records, leases, room, shard, first_start: None })
}

fn entry(row: &Row) -> Result<(u64, Value), Failure> {
    let key: Option<i64> = row.try_get(0).ok();
    let value = row.try_get(1).ok().and_then(|bytes: &[u8]| Value::try_from(bytes).ok());
    let key = key.map(i64::cast_unsigned).filter(|key| *key < krl::END);
    key.zip(value).ok_or_else(|| strange("entry"))
}

fn record(row: &Row) -> Result<krl::store::Record, Failure> {
    let mut fields = [0; 5];
    for (at, field) in fields.iter_mut().enumerate() {
        *field = row.try_get(at).map_err(|_| strange("client"))?;
    }
    batch::record(fields).ok_or_else(|| strange("client"))
}

fn leases(row: &Row) -> Result<LeaseRecord, Failure> {
    let number = |at: usize| row.try_get(at).map(i64::cast_unsigned).map_err(|_| strange("lease"));
    Ok(LeaseRecord { longest: number(0)?, unleased: ClientSet::of_bits(number(1)?) })
}

fn room(row: &Row) -> Result<Room, Failure> {
    let rows: Option<i64> = row.try_get(0).ok();
    let rows = rows.and_then(|rows| usize::try_from(rows).ok());
    rows.and_then(|rows| Room::of(rows).ok()).ok_or_else(|| strange("room"))
}

fn shard(row: &Row) -> Result<KeptShard, Failure> {
    let mut numbers = [0; 3];
    for (at, number) in numbers.iter_mut().enumerate() {
        *number = row.try_get(at).map_err(|_| strange("shard"))?;
    }
    let is_sealed = row.try_get(3).map_err(|_| strange("shard"))?;
    batch::shard(numbers, is_sealed).ok_or_else(|| strange("shard"))
}

fn mark(row: &Row) -> Result<Mark, Failure> {
    let owner: Option<&str> = row.try_get(0).ok();
    let start = owner.and_then(|owner| u128::from_str_radix(owner, 16).ok());
    let commits: Option<i64> = row.try_get(1).ok();
    let mark = start.zip(commits).map(|(start, commits)| (start, commits.cast_unsigned()));
    mark.map(|(start, commits)| Mark { start, commits }).ok_or_else(|| strange("start"))
}

#[cfg(test)]
mod tests;
