//! A store that is wrong: it reports that changes are kept before they are on the disk. What it has
//! not written yet is lost with its process, as a disk's own memory is with the power. Each drive
//! over it has to find something wrong.
use krl::SqliteStore;
use krl::store::{Change, Snapshot, Store, StoreError};

/// How many batches wait until they are written together.
const BATCHES: u32 = 40;

pub struct UnsyncedStore {
    store: SqliteStore,
    waiting: Vec<Change>,
    batches: u32,
}

impl UnsyncedStore {
    pub fn new(store: SqliteStore) -> UnsyncedStore {
        UnsyncedStore { store, waiting: Vec::new(), batches: 0 }
    }
}

impl Store for UnsyncedStore {
    fn load(&mut self) -> Result<Snapshot, StoreError> {
        self.store.load()
    }

    fn snapshot(&mut self) -> Result<Snapshot, StoreError> {
        self.store.snapshot()
    }

    fn commit(&mut self, changes: &[Change]) -> Result<(), StoreError> {
        self.waiting.extend_from_slice(changes);
        self.batches += 1;
        // An epoch is written at once: a server that comes back in its old epoch would never wait
        // for its clients, and nothing more would be read or written.
        let is_start = matches!(changes, [Change::Started { .. }, ..]);
        if is_start || self.batches >= BATCHES {
            self.store.commit(&self.waiting)?;
            self.waiting.clear();
            self.batches = 0;
        }
        Ok(())
    }
}
