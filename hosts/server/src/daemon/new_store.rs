//! Whether a server may begin a new store.
use crate::settings::{Settings, StorePlace};
use krl::store::{Change, History, Snapshot, Store, StoreError};
use std::fs;
use std::io::ErrorKind;
use std::path::Path;
use std::time::Duration;

/// A store that a server loads. One that holds nothing is refused unless the operator has asked for
/// a new store: a name with a typo, or a disk that is not mounted, would serve an empty table.
pub struct AskedFor<S> {
    store: S,
    place: StorePlace,
    may_be_new: bool,
}

impl<S: Store> AskedFor<S> {
    pub fn new(store: S, settings: &Settings) -> AskedFor<S> {
        AskedFor { store, place: settings.store.clone(), may_be_new: settings.may_make_store }
    }
}

impl<S: Store> Store for AskedFor<S> {
    fn load(&mut self) -> Result<Snapshot, StoreError> {
        let snapshot = self.store.load()?;
        if is_new(&snapshot) {
            if !self.may_be_new {
                return Err(missing(&format!("{} holds nothing", self.place)));
            }
            tracing::info!(store = %self.place, "made a new store");
        }
        Ok(snapshot)
    }

    fn commit(&mut self, changes: &[Change]) -> Result<(), StoreError> {
        self.store.commit(changes)
    }

    fn snapshot(&mut self) -> Result<Snapshot, StoreError> {
        self.store.snapshot()
    }

    fn history(&mut self) -> Result<Option<History>, StoreError> {
        self.store.history()
    }

    fn longest_wait(&self) -> Duration {
        self.store.longest_wait()
    }
}

/// Whether no server has served it, and nobody has written rows to it.
fn is_new(snapshot: &Snapshot) -> bool {
    snapshot.epoch == 0 && snapshot.rows.is_empty()
}

/// Refuses a file that is missing or empty, before it is opened and so made.
pub fn judge_file(path: &Path, may_be_new: bool) -> Result<(), StoreError> {
    match fs::metadata(path) {
        _ if may_be_new => Ok(()),
        Ok(file) if file.len() == 0 => Err(missing("the file has 0 bytes")),
        Err(error) if error.kind() == ErrorKind::NotFound => Err(missing("there is no such file")),
        _ => Ok(()),
    }
}

fn missing(what: &str) -> StoreError {
    StoreError::failed(format!(
        "{what}. Is this the right place, and is its disk mounted? To make a new store there, give \
         --create at the first start"
    ))
}
