//! The stores of commands, which no server serves meanwhile.
use crate::daemon::owner::{self, Owner};
use crate::process::Done;
use crate::process::output::{self, cause, numbers};
use crate::settings::{StorePlace, credentials};
use krl::SqliteStore;
use krl::operate::StoreFile;
use krl::operate::beside;
use krl::store::{Snapshot, Store, StoreError};
use krl_etcd::EtcdStore;
use krl_postgres::PostgresStore;
use std::fmt::Display;
use std::fs;
use std::ops::Range;
use std::path::Path;
use std::time::{SystemTime, UNIX_EPOCH};

/// Refuses a file that a process serves.
pub fn refuse_served(file: &Path) -> Result<(), String> {
    match owner::served_by(file) {
        Some(by) => Err(format!("the store {} is served, by {by}", file.display())),
        None => Ok(()),
    }
}

/// All that a file keeps.
pub fn read(file: &Path) -> Result<StoreFile, String> {
    SqliteStore::read(file).map_err(|error| unreadable(file, &error))
}

/// The same of a file whose checksum, if it has one, matches.
pub fn read_undamaged(file: &Path) -> Result<StoreFile, String> {
    read(file)?.undamaged().map_err(|error| unreadable(file, &error))
}

fn unreadable(file: &Path, error: &StoreError) -> String {
    format!("{} can't be read as a store: {}", file.display(), cause(error))
}

/// Refuses a store on which no server could start.
pub fn judge(store: &impl Display, snapshot: &Snapshot) -> Result<(), String> {
    snapshot.judge().map_err(|code| format!("no server could start on {store}: {code}"))
}

/// Makes a new store.
pub fn create(place: &StorePlace, snapshot: &Snapshot) -> Done {
    let made = match place {
        StorePlace::File(path) => SqliteStore::create(path, snapshot),
        StorePlace::Etcd(address) => {
            EtcdStore::create(address, &credentials::of_environment(), snapshot)
        }
        StorePlace::Postgres(address) => {
            PostgresStore::create(address, credentials::user().as_ref(), snapshot)
        }
    };
    made.map_err(|error| cause(&error).into())
}

/// Gives a file another name if it is a sealed store of these keys. It is not removed, since only the
/// operator knows whether it is needed.
pub fn set_unused_aside(store: &Path, keys: &Range<u64>) -> Done {
    let store = &krl::operate::store_file(store).map_err(|error| unreadable(store, &error))?;
    if !store.exists() {
        return Ok(());
    }
    let shard = read(store)?.snapshot.shard;
    if !shard.is_some_and(|shard| shard.is_sealed && shard.bounds.keys() == *keys) {
        return Ok(());
    }
    let now = SystemTime::now().duration_since(UNIX_EPOCH).unwrap_or_default().as_nanos();
    let aside = beside(store, &format!(".unused-{now}"));
    let (from, to) = (store.display(), aside.display());
    output::report(&format!("{from} is {to} now: no change used it"));
    ["-wal", "-shm", "-journal", ""].into_iter().try_for_each(|end| {
        let from = beside(store, end);
        if from.exists() { fs::rename(from, beside(&aside, end)) } else { Ok(()) }
    })?;
    Ok(())
}

/// Changes a store that this process owns.
pub fn change(
    store: &Path,
    change: impl FnOnce(&mut SqliteStore) -> Result<(), StoreError>,
) -> Result<(), String> {
    let changed = SqliteStore::open(store).and_then(|mut file| {
        file.load()?;
        change(&mut file)
    });
    changed.map_err(|error| cause(&error))
}

/// No server starts on the store while this process has it.
pub fn own(store: &Path) -> Done<Owner> {
    if !store.exists() {
        return Err(format!("there is no store {}", store.display()).into());
    }
    Ok(Owner::take(store, &"no address: krl-server works on the file")?)
}

/// All that was kept, if no client may still answer for it.
pub fn read_left(store: &Path) -> Done<StoreFile> {
    let file = read_undamaged(store)?;
    match who_has_not_left(&store.display(), &file.snapshot) {
        None => Ok(file),
        Some(who) => Err(format!(
            "{who}. Serve it once more, and let each leave, or evict it if its process is dead"
        )
        .into()),
    }
}

/// The clients that have not left the store, in words, if there are any.
pub fn who_has_not_left(store: &impl Display, snapshot: &Snapshot) -> Option<String> {
    let present = snapshot.present();
    let clients = numbers(&present);
    (!present.is_empty()).then(|| format!("{store} has clients that have not left: {clients}"))
}
