//! A store whose contents outlive a server.
use krl::MemoryStore;
use krl::store::{Change, Snapshot, Store, StoreError};
use std::sync::{Arc, Mutex};

/// A store in memory that is shared by its clones. It does not compare who commits: so one server
/// at a time may have it.
#[derive(Clone, Default)]
pub struct SharedStore(Arc<Mutex<MemoryStore>>);

impl Store for SharedStore {
    fn load(&mut self) -> Result<Snapshot, StoreError> {
        self.0.lock().unwrap().load()
    }

    fn commit(&mut self, changes: &[Change]) -> Result<(), StoreError> {
        self.0.lock().unwrap().commit(changes)
    }

    fn snapshot(&mut self) -> Result<Snapshot, StoreError> {
        self.0.lock().unwrap().snapshot()
    }
}
