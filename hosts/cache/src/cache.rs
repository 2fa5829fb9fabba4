//! What the tables of a process share: connections to the database, and one client of krl.
use crate::PostgresAddress;
use crate::error::ReadError;
use crate::loader::Loader;
use crate::locks::KrlPlace;
use crate::shared::Shared;
use crate::table::{Errand, Table};
use krl::TlsConfig;
use krl_postgres::Connector;
use std::convert::Infallible;
use std::fmt;
use std::fs;
use std::io;
use std::ops::Range;
use std::path::{Path, PathBuf};
use std::sync::mpsc::{Receiver, SyncSender, sync_channel};
use std::sync::{Arc, Mutex, PoisonError};
use std::thread;
use std::time::Duration;

/// How many bytes of rows of a table are kept, by default.
const MEMORY: usize = 64 << 20;

/// How long a read waits for the database, by default.
const TIMEOUT: Duration = Duration::from_secs(30);

/// The numbers of krl's clients that readers take, by default: the extension has those from 56 on.
const NUMBERS: Range<u8> = 0..56;

/// How long a cache that is closed waits for its loader.
const LAST_LOAD: Duration = Duration::from_secs(1);

/// This many misses wait for the loader. It learns of no further ones.
const MOST_ERRANDS: usize = 256;

/// The tables that a process reads: it is one client of krl.
///
/// `krl_cache` has an example.
pub struct Cache {
    shared: Arc<Shared>,
    errands: SyncSender<Errand>,
    /// Ends when the loader does.
    loader: Mutex<Receiver<Infallible>>,
}

/// The settings of a cache before it is opened.
#[derive(Debug)]
#[must_use = "a builder does nothing before `open`"]
pub struct CacheBuilder {
    database: PostgresAddress,
    user: Option<(String, String)>,
    krl: KrlPlace,
    memory: usize,
    timeout: Duration,
}

impl CacheBuilder {
    /// The user that connects to the database, with this password.
    pub fn user(self, name: &str, password: &str) -> CacheBuilder {
        CacheBuilder { user: Some((name.to_string(), password.to_string())), ..self }
    }

    /// What the process shows to krl's servers if they listen over TLS, and whom it trusts. The
    /// connection to the database uses TLS if its address requests it.
    pub fn tls(mut self, config: TlsConfig) -> CacheBuilder {
        self.krl.tls = Some(config);
        self
    }

    /// The numbers of krl's clients of which the process takes the first that is free: 0 to 55 by
    /// default. None of them is a number of the extension, whose first one is `krl.first_client`.
    pub fn numbers(mut self, numbers: Range<u8>) -> CacheBuilder {
        self.krl.numbers = numbers;
        self
    }

    /// About how many bytes of rows are kept of each table: 64 MiB by default. If there are more,
    /// rows that were not read recently are dropped.
    pub fn memory(self, bytes: usize) -> CacheBuilder {
        CacheBuilder { memory: bytes, ..self }
    }

    /// How long a read waits for an answer from the database: 30 seconds by default. One that is late
    /// fails, and up to a second later, since its statement is canceled there.
    pub fn timeout(self, timeout: Duration) -> CacheBuilder {
        CacheBuilder { timeout, ..self }
    }

    /// Opens the cache. It does not connect yet.
    ///
    /// # Errors
    ///
    /// [`ReadError::Database`] if a file of the address cannot be used; [`ReadError::System`] if
    /// the folder of the lock files cannot be made, or there is no thread.
    pub fn open(self) -> Result<Cache, ReadError> {
        let CacheBuilder { database, user, krl, memory, timeout } = self;
        make_lock_folder(&krl.lock_folder)?;
        let connector = Connector::new(&database, user.as_ref());
        let connector = connector.map_err(ReadError::without_code)?;
        let shared = Arc::new(Shared::new(connector, memory, timeout));
        let (errands, received) = sync_channel(MOST_ERRANDS);
        let loader = Loader::new(Arc::clone(&shared), krl, received);
        let thread = thread::Builder::new().name("krl-cache loader".to_string());
        let (ends, ended) = sync_channel(0);
        thread.spawn(move || {
            let _ends = ends;
            loader.run();
        })?;
        Ok(Cache { shared, errands, loader: Mutex::new(ended) })
    }
}

impl Cache {
    /// A builder for a cache of tables of this database. The folder has the lock files by which
    /// processes of this machine keep off each other's numbers of krl's clients: it is made if it is
    /// missing, and all processes of the machine name the same one. Two machines have to have
    /// different numbers: see [`CacheBuilder::numbers`].
    pub fn builder(database: PostgresAddress, lock_folder: impl Into<PathBuf>) -> CacheBuilder {
        let krl = KrlPlace { numbers: NUMBERS, lock_folder: lock_folder.into(), tls: None };
        CacheBuilder { database, user: None, krl, memory: MEMORY, timeout: TIMEOUT }
    }

    /// Opens a table by its name. Names are those of SQL: one that is not in lower case stands in
    /// quotes. One without a schema is looked up by the role's search path, once: the table is then
    /// that of this name in the schema in which it was found. Each call begins with empty memory, so
    /// a program keeps what it returns, and clones it.
    ///
    /// A table that is not cached is read from the database, by its primary key. Its rows are kept
    /// after `krl.cache` was called.
    ///
    /// # Errors
    ///
    /// [`ReadError::NoExtension`], [`ReadError::Database`]; [`ReadError::Key`] if the columns of the
    /// key have changed since the table was cached, or if it is not cached and has no primary key.
    pub fn table(&self, name: &str) -> Result<Table, ReadError> {
        Table::open(Arc::clone(&self.shared), self.errands.clone(), name)
    }

    /// Why no rows are kept, as a sentence, if krl or the extension is away. Meanwhile the database
    /// answers the reads. [`Table::fault`] reports why those of one table are not.
    #[must_use]
    pub fn fault(&self) -> Option<String> {
        self.shared.fault.get()
    }

    /// Gives back all that the process holds in krl, so that no writer waits for it, and waits until
    /// that is done: for two seconds at most, if krl's server or the database does not answer.
    /// Tables of the cache that are still there are read from the database.
    pub fn close(self) {
        // A loader that waits for the database holds nothing up.
        self.shared.locks.close();
        let _ = self.errands.try_send(Errand::Leave);
        let loader = self.loader.into_inner().unwrap_or_else(PoisonError::into_inner);
        let _ = loader.recv_timeout(LAST_LOAD);
    }

    /// A call that gives back all that the process holds in krl, and closes the cache. Other threads
    /// may read meanwhile, and the cache may be gone. It waits for a second at most.
    pub fn give_back(&self) -> impl Fn() + Send + Sync + 'static {
        let shared = Arc::downgrade(&self.shared);
        move || {
            if let Some(shared) = shared.upgrade() {
                shared.locks.close();
            }
        }
    }
}

/// Makes the folder of the lock files, unless it is there.
fn make_lock_folder(folder: &Path) -> io::Result<()> {
    fs::create_dir_all(folder).map_err(|error| {
        let folder = folder.display();
        io::Error::new(error.kind(), format!("the folder of lock files, {folder}: {error}"))
    })
}

impl fmt::Debug for Cache {
    fn fmt(&self, f: &mut fmt::Formatter<'_>) -> fmt::Result {
        let database = self.shared.address();
        f.debug_struct("Cache").field("database", &database).finish_non_exhaustive()
    }
}

#[cfg(test)]
mod tests {
    use super::*;

    #[test]
    fn a_folder_that_cannot_be_made_is_named() {
        let below_a_file = "/proc/version/locks";
        let builder = Cache::builder("postgres://localhost/shop".parse().unwrap(), below_a_file);
        let refused = builder.open().map(Cache::close).unwrap_err().to_string();
        assert!(refused.contains(below_a_file), "{refused}");
    }
}
