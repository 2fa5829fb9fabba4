//! What survives a server, and the store that commits it: what a store of your own needs.
#[cfg(feature = "fence")]
pub mod fence;
pub(crate) mod map_home;
pub(crate) mod replaced_file;
#[cfg(feature = "sqlite")]
pub(crate) mod sqlite;
#[cfg(any(test, feature = "store-tests"))]
#[cfg_attr(not(feature = "store-tests"), allow(dead_code, reason = "not each store runs all"))]
pub mod store_tests;

pub use crate::model::change::{Change, Record, Write};
pub use crate::model::client_set::ClientSet;
pub use crate::model::history::{History, Mark};
pub use crate::model::kept_shard::KeptShard;
pub use crate::model::lease_record::LeaseRecord;
pub use crate::model::shard_bounds::ShardBounds;
pub use crate::model::snapshot::Snapshot;
pub use map_home::{FileMap, MapHome};
#[cfg(feature = "sqlite")]
pub use sqlite::LogWrites;

use crate::model::row::Row;
use std::fmt;
use std::time::Duration;

/// What survives a server.
///
/// Several servers may have values for one store. What a value commits rests on what it has loaded
/// and committed itself: if another one has committed something meanwhile, it is refused as
/// [`StoreError::Deposed`]. That is all that keeps an older server from changing what a newer one
/// serves: the first that a server commits is [`Change::Started`], and from then on every older
/// one's changes are refused. A store that lets one process at a time open it has that by itself.
///
/// # Examples
///
/// A store with all parts but a disk. It is shared as a database is, and so compares who commits:
///
/// ```
/// use krl::Server;
/// use krl::store::{Change, Snapshot, Store, StoreError};
/// use std::sync::{Arc, Mutex};
///
/// #[derive(Default)]
/// struct Kept {
///     snapshot: Snapshot,
///     commits: u64,
/// }
///
/// struct SharedStore {
///     kept: Arc<Mutex<Kept>>,
///     own: Snapshot,
///     commits: u64,
/// }
///
/// impl Store for SharedStore {
///     fn load(&mut self) -> Result<Snapshot, StoreError> {
///         let kept = self.kept.lock().unwrap();
///         (self.own, self.commits) = (kept.snapshot.clone(), kept.commits);
///         Ok(self.own.clone())
///     }
///
///     fn commit(&mut self, changes: &[Change]) -> Result<(), StoreError> {
///         let mut kept = self.kept.lock().unwrap();
///         if kept.commits != self.commits {
///             return Err(StoreError::Deposed("another server has committed".into()));
///         }
///         changes.iter().for_each(|change| self.own.apply(change));
///         self.commits += 1;
///         // Here a store on a disk writes the changes in one transaction, and syncs it.
///         *kept = Kept { snapshot: self.own.clone(), commits: self.commits };
///         Ok(())
///     }
///
///     fn snapshot(&mut self) -> Result<Snapshot, StoreError> {
///         Ok(self.own.clone())
///     }
/// }
///
/// let kept = Arc::new(Mutex::new(Kept::default()));
/// let store = SharedStore { kept, own: Snapshot::default(), commits: 0 };
/// let server = Server::start(std::net::TcpListener::bind("127.0.0.1:0")?, store)?;
/// server.stop()?;
/// # Ok::<(), Box<dyn std::error::Error>>(())
/// ```
pub trait Store: Send {
    /// Loads all that was committed. It is called once, before anything else; later commits build
    /// on it.
    ///
    /// # Errors
    ///
    /// If it can't be read, or is not what a server commits.
    fn load(&mut self) -> Result<Snapshot, StoreError>;

    /// Commits the changes, in their order. When it returns all are kept, and no crash of the
    /// process or of a machine takes them away. After an error a first part of them may be kept,
    /// each change whole: the server sends nothing of them, and ends, and this value commits
    /// nothing any more. With no changes it only asks whether the store is still this value's.
    ///
    /// # Errors
    ///
    /// `Deposed` if another value has committed something: from then on nothing is kept. A store of
    /// several machines may have kept them before, if the answer to its first attempt was lost.
    /// `Unanswered` if it is not known whether they are kept. `Failed` if they are not.
    fn commit(&mut self, changes: &[Change]) -> Result<(), StoreError>;

    /// All that this value has loaded and committed, for a copy. What it commits rests on that as
    /// before: nothing that another server has committed meanwhile comes into this one.
    ///
    /// # Errors
    ///
    /// If it can't be read.
    fn snapshot(&mut self) -> Result<Snapshot, StoreError>;

    /// Each start of a server that is committed, and how many batches were committed since. A store
    /// that has a history draws the random bits of a start as it commits [`Change::Started`], and
    /// counts each batch as it commits it, in one transaction with the changes. By it the clients
    /// notice an earlier copy that is brought back. A store without one has `None`, and then nobody
    /// notices.
    ///
    /// # Errors
    ///
    /// If it can't be read.
    fn history(&mut self) -> Result<Option<History>, StoreError> {
        Ok(None)
    }

    /// The longest that a commit or a snapshot of this store may take, even if it then fails.
    /// Meanwhile the server judges at most a few messages, sends nothing that rests on them, and
    /// serves nobody. One whose store takes longer counts as hung: see
    /// [`Monitor::liveness`](crate::operate::Monitor::liveness). The server asks once, when it starts. By
    /// default 30 seconds; `Duration::MAX` means that any time is in order.
    fn longest_wait(&self) -> Duration {
        Duration::from_secs(30)
    }
}

/// Why a store did not do what it was asked.
#[derive(Debug)]
#[non_exhaustive]
pub enum StoreError {
    /// Another server has the store: what it found there.
    Deposed(String),
    /// No answer came in time. What was asked may be done, or may still be.
    Unanswered(Box<dyn std::error::Error + Send + Sync>),
    /// It failed, and what was asked is not done.
    Failed(Box<dyn std::error::Error + Send + Sync>),
}

impl StoreError {
    /// A failure for this reason: a sentence or another error.
    #[must_use]
    pub fn failed(why: impl Into<Box<dyn std::error::Error + Send + Sync>>) -> StoreError {
        StoreError::Failed(why.into())
    }
}

impl fmt::Display for StoreError {
    fn fmt(&self, f: &mut fmt::Formatter<'_>) -> fmt::Result {
        match self {
            StoreError::Deposed(found) => write!(f, "another server has the store: {found}"),
            StoreError::Unanswered(why) => write!(f, "the store does not answer: {why}"),
            StoreError::Failed(why) => write!(f, "the store failed: {why}"),
        }
    }
}

impl std::error::Error for StoreError {
    fn source(&self) -> Option<&(dyn std::error::Error + 'static)> {
        match self {
            StoreError::Deposed(_) => None,
            StoreError::Unanswered(why) | StoreError::Failed(why) => Some(&**why),
        }
    }
}

/// A store in memory: nothing of it survives the value, and a clone is another store. It is for tests
/// and trials, and for tables that may be lost.
///
/// `default` is an empty one. One with rows is made of these, or of the snapshot of another store:
///
/// ```
/// use krl::{MemoryStore, Row, Value};
/// use krl::store::Store;
///
/// let mut store: MemoryStore = [Row { key: 15, value: Value::from(5) }].into_iter().collect();
/// let copy = MemoryStore::from(store.snapshot()?);
/// # Ok::<(), krl::store::StoreError>(())
/// ```
#[derive(Clone, Debug, Default)]
pub struct MemoryStore {
    pub(crate) snapshot: Snapshot,
}

impl From<Snapshot> for MemoryStore {
    fn from(snapshot: Snapshot) -> MemoryStore {
        MemoryStore { snapshot }
    }
}

/// A store that no server has served. Of two rows with one key the last one counts.
impl FromIterator<Row> for MemoryStore {
    fn from_iter<Rows: IntoIterator<Item = Row>>(rows: Rows) -> MemoryStore {
        let rows = rows.into_iter().map(|row| (row.key, row.value)).collect();
        Snapshot { rows, ..Snapshot::default() }.into()
    }
}

impl Store for MemoryStore {
    fn load(&mut self) -> Result<Snapshot, StoreError> {
        Ok(self.snapshot.clone())
    }

    fn commit(&mut self, changes: &[Change]) -> Result<(), StoreError> {
        for change in changes {
            self.snapshot.apply(change);
        }
        Ok(())
    }

    fn snapshot(&mut self) -> Result<Snapshot, StoreError> {
        Ok(self.snapshot.clone())
    }
}

impl Store for Box<dyn Store> {
    fn load(&mut self) -> Result<Snapshot, StoreError> {
        (**self).load()
    }

    fn commit(&mut self, changes: &[Change]) -> Result<(), StoreError> {
        (**self).commit(changes)
    }

    fn snapshot(&mut self) -> Result<Snapshot, StoreError> {
        (**self).snapshot()
    }

    fn history(&mut self) -> Result<Option<History>, StoreError> {
        (**self).history()
    }

    fn longest_wait(&self) -> Duration {
        (**self).longest_wait()
    }
}
