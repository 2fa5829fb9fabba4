//! The stores whose shards change, and the new one, as the command finds them.
use super::change::{self, NewStore, OldStore, Opened, Place};
use super::{POLL_PERIOD, START_OR_END};
use crate::commands::{ask, stores};
use crate::daemon::owner;
use crate::process::Done;
use crate::process::output::{self, cause};
use crate::settings::{StatusPort, StorePlace, credentials};
use crate::status::http;
use crate::status::paths::{JSON, STATUS};
use krl::SqliteStore;
use krl::store::{KeptShard, ShardBounds, Snapshot, Store, StoreError};
use krl_etcd::EtcdStore;
use krl_postgres::PostgresStore;
use std::thread;
use std::time::{Duration, Instant};

/// How long the server of a store may give no answer.
const SERVER_WAIT: Duration = Duration::from_secs(10);

/// How long a command waits for a database to commit what a shard loses: all rows of a store at most.
const COMMIT_WAIT: Duration = Duration::from_secs(120);

/// The stores of a change.
pub struct Stores<'c> {
    pub old: Vec<OldStore<'c, StorePlace>>,
    /// The status ports of their servers, in the same order.
    pub ports: Vec<StatusPort>,
    pub new: NewStore<'c, StorePlace>,
}

/// The process that serves the store, if it is a file. A store in a database does not show that.
pub fn served_by(place: &StorePlace) -> Option<String> {
    match place {
        StorePlace::File(path) => owner::served_by(path),
        StorePlace::Etcd(_) | StorePlace::Postgres(_) => None,
    }
}

impl Stores<'_> {
    /// Refuses stores that are not of the shards that change, before anybody learns of the change:
    /// they would lose rows.
    pub fn refuse_others(&self) -> Done {
        for (place, old) in self.old.iter().enumerate() {
            let kept = self.shard(place)?;
            if ![KeptShard::open(old.before), old.after].map(Some).contains(&kept) {
                return Err(change::other_shard(old, kept).into());
            }
        }
        Ok(())
    }

    /// Whether the old stores no longer have what the new one has.
    pub fn have_changed(&self) -> Done<bool> {
        Ok(self.changed()?.into_iter().all(|has| has))
    }

    /// Whether some old store no longer has what it had.
    pub fn have_begun_to_change(&self) -> Done<bool> {
        Ok(self.changed()?.contains(&true))
    }

    /// Whether they are files, which no command changes any more once it has ended.
    pub fn are_files(&self) -> bool {
        self.old.iter().all(|old| matches!(old.place, StorePlace::File(_)))
    }

    /// Whether no old store has changed, nor will by a command that has ended. `end_servers` ends those of
    /// stores in databases.
    pub fn stay_unchanged(&self, end_servers: impl FnOnce() -> Done) -> Done<bool> {
        if self.are_files() {
            return Ok(!self.have_begun_to_change()?);
        }
        end_servers()?;
        change::stay_unchanged(&self.old)
    }

    fn changed(&self) -> Done<Vec<bool>> {
        let has_changed = |(place, old): (usize, &OldStore<'_, StorePlace>)| {
            Ok(self.shard(place)? == Some(old.after))
        };
        self.old.iter().enumerate().map(has_changed).collect()
    }

    /// Which shard the old store at this place is of: as its server shows it if that keeps others off
    /// the store, and otherwise as the store does.
    fn shard(&self, place: usize) -> Done<Option<KeptShard>> {
        let (store, port) = (self.old[place].place, &self.ports[place]);
        let (begun, mut answers) = (Instant::now(), false);
        while let Some(by) = served_by(store) {
            // One that starts or stops does not answer, or shows no shard yet.
            let status = json(port, STATUS);
            if let Some(status) = status.as_ref().filter(|status| status["role"] == "serves") {
                let shard = status["shard"].as_str().and_then(|shard| shard.parse().ok());
                return Ok(shard.map(KeptShard::open));
            }
            answers |= status.is_some();
            if begun.elapsed() >= if answers { START_OR_END } else { SERVER_WAIT } {
                let what = if answers { "does not serve" } else { "gives no answer" };
                return Err(format!(
                    "{store} is used by {by}, and {port} {what}: is it its status port?"
                )
                .into());
            }
            thread::sleep(POLL_PERIOD);
        }
        shard_of(store)
    }

    /// Changes the stores, which nobody serves.
    pub fn change(&self, content: impl FnOnce(Vec<Snapshot>) -> Done<Snapshot>) -> Done {
        change::change(&self.old, &self.new, content)
    }

    /// Opens the new store, unless that was done: the old ones have changed, and show whether it was
    /// made of them once `stop` has ended their servers.
    pub fn open_new(&self, stop: impl FnOnce() -> Done) -> Done {
        let NewStore { place, shard } = self.new;
        if served_by(place).is_some() {
            return Ok(());
        }
        let kept = shard_of(place).ok().flatten();
        if kept == Some(KeptShard::sealed(shard)) {
            stop()?;
        }
        change::open_new(&self.old, &self.new)
    }
}

/// What a page of a server shows, if it answers.
pub fn json(port: &StatusPort, path: &str) -> Option<serde_json::Value> {
    serde_json::from_str(&http::page(port, path, JSON, ask::COMMAND_WAIT).ok()?).ok()
}

/// Which shard a store is of that no server serves, or that shows it also then.
pub fn shard_of(place: &StorePlace) -> Done<Option<KeptShard>> {
    let snapshot = match place {
        StorePlace::File(path) if !path.exists() => {
            return Err(format!("there is no store {place}").into());
        }
        StorePlace::File(path) => stores::read(path)?.snapshot,
        StorePlace::Etcd(_) | StorePlace::Postgres(_) => {
            let loaded = place.open()?.store.load();
            loaded.map_err(|error| format!("{place}: {}", cause(&error)))?
        }
    };
    Ok(snapshot.shard)
}

impl Place for StorePlace {
    fn open(&self) -> Done<Opened> {
        let fails = |error: StoreError| format!("{self}: {}", cause(&error));
        Ok(match self {
            StorePlace::File(path) => {
                let owner = stores::own(path)?;
                Opened::new(SqliteStore::open(owner.file()).map_err(fails)?, Some(owner))
            }
            StorePlace::Etcd(address) => {
                let store = EtcdStore::open(address, &credentials::of_environment());
                Opened::new(store.map_err(fails)?.with_commit_timeout(COMMIT_WAIT), None)
            }
            StorePlace::Postgres(address) => {
                let store = PostgresStore::open(address, credentials::user().as_ref());
                Opened::new(store.map_err(fails)?.with_commit_timeout(COMMIT_WAIT), None)
            }
        })
    }

    fn create(&self, snapshot: &Snapshot) -> Done {
        stores::create(self, snapshot)
            .map_err(|error| format!("{self} can't be made: {error}").into())
    }

    fn clear(&self, unused: &ShardBounds) -> Done {
        let keys = unused.keys();
        let removed = match self {
            StorePlace::File(path) => return stores::set_unused_aside(path, &keys),
            StorePlace::Etcd(address) => {
                let credentials = credentials::of_environment();
                EtcdStore::remove_sealed(address, &credentials, &keys)
            }
            StorePlace::Postgres(address) => {
                PostgresStore::remove_sealed(address, credentials::user().as_ref(), &keys)
            }
        };
        if removed.map_err(|error| format!("{self}: {}", cause(&error)))? {
            output::report(&format!("the store at {self} is removed: no change used it"));
        }
        Ok(())
    }
}
