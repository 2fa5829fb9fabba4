//! How the stores of shards change, which no server serves, wherever they are.
//!
//! The command takes each old store as a server that starts does: by a start of its own, after which
//! the store refuses whatever an older server commits. So no lock is needed where several processes
//! may open a store. The new store is known by that start: it is the first one that it has.
//!
//! 1. The new store is written, sealed: no server starts on it.
//! 2. Each old store becomes what it is after the change, by one commit.
//! 3. The new store is opened.
//!
//! **So no server can start on the new store while one can start on another store that has its
//! rows.** Each step may be cut off: the same call continues from what the stores show.
use crate::commands::stores;
use crate::daemon::owner::Owner;
use crate::process::Done;
use krl::store::{Change, KeptShard, Mark, ShardBounds, Snapshot, Store, StoreError};
use std::error::Error;
use std::fmt;

/// A start by which an old store has changed has committed this many batches: itself, and the change.
const BATCHES_OF_A_CHANGE: u64 = 2;

/// Where a store is.
pub trait Place: fmt::Display {
    /// Opens the store that is there, which changes nothing.
    fn open(&self) -> Done<Opened>;

    /// Makes a store of the snapshot where there is none.
    fn create(&self, snapshot: &Snapshot) -> Done;

    /// Makes room for another store if there is one of these keys that is sealed. No change has used
    /// it, and nobody else uses it now.
    fn clear(&self, unused: &ShardBounds) -> Done;
}

/// A store that is open, and, of a file, the right to serve it.
pub struct Opened {
    pub store: Box<dyn Store>,
    _owner: Option<Owner>,
}

impl Opened {
    pub fn new(store: impl Store + 'static, owner: Option<Owner>) -> Opened {
        Opened { store: Box::new(store), _owner: owner }
    }
}

/// A store whose shard changes.
#[derive(Debug)]
pub struct OldStore<'p, P> {
    pub place: &'p P,
    pub before: ShardBounds,
    /// What it is after the change. One that is no longer served is sealed.
    pub after: KeptShard,
}

/// The store that a change makes.
#[derive(Debug)]
pub struct NewStore<'p, P> {
    pub place: &'p P,
    pub shard: ShardBounds,
}

/// Stores can't be changed yet: who uses one.
#[derive(Debug)]
pub struct InUse(String);

/// Whether an old store has changed is not known: its database has not answered.
#[derive(Debug)]
pub struct Unknown(String);

/// An old store that is open.
struct Taken<'s, 'p, P: Place> {
    old: &'s OldStore<'p, P>,
    opened: Opened,
    snapshot: Snapshot,
}

/// Makes the change: `content` returns what the new store has, of what the old ones have.
pub fn change<P: Place>(
    old: &[OldStore<'_, P>],
    new: &NewStore<'_, P>,
    content: impl FnOnce(Vec<Snapshot>) -> Done<Snapshot>,
) -> Done {
    let mut taken = old.iter().map(Taken::open).collect::<Done<Vec<_>>>()?;
    if taken.iter().all(Taken::has_changed) {
        drop(taken);
        return open_new(old, new);
    }
    let mut start = None;
    for store in taken.iter_mut().filter(|store| !store.has_changed()) {
        start = Some(store.start()?);
    }
    let snapshots = taken.iter().map(|store| store.snapshot.clone()).collect();
    let mut made = content(snapshots)?;
    made.shard = Some(KeptShard::sealed(new.shard));
    made.first_start = start;
    made.judge().map_err(|code| format!("no server could start on {}: {code}", new.place))?;
    // By the starts no other call changes an old store any more: it uses no new store that it has made.
    new.place.clear(&new.shard)?;
    new.place.create(&made)?;
    for store in taken.iter_mut().filter(|store| !store.has_changed()) {
        store.become_next()?;
    }
    unseal(new)
}

/// A server may start on the new store from now on: the old ones, which nobody serves, have changed. If
/// the new one was made of them, one of them has changed by its first start.
pub fn open_new<P: Place>(old: &[OldStore<'_, P>], new: &NewStore<'_, P>) -> Done {
    let opened = new.place.open().and_then(|mut opened| load(new.place, &mut opened));
    let made = opened.map_err(|error| not_made(new, &format!(": {error}")))?;
    if made.shard == Some(KeptShard::open(new.shard)) {
        return Ok(());
    }
    let is_sealed = made.shard == Some(KeptShard::sealed(new.shard));
    if is_sealed && have_changed_by(old, made.first_start)? {
        return unseal(new);
    }
    Err(not_made(new, "").into())
}

/// Whether no old store has changed, nor will by a call that has ended: each refuses what such a call has
/// sent once it is taken as a server that starts does. So does one that has a client by now.
pub fn stay_unchanged<P: Place>(old: &[OldStore<'_, P>]) -> Done<bool> {
    let mut have_changed = false;
    for old in old {
        match Taken::open(old) {
            Err(error) if error.is::<InUse>() => {}
            Err(error) => return Err(error),
            Ok(taken) if taken.has_changed() => have_changed = true,
            Ok(mut taken) => drop(taken.start()?),
        }
    }
    Ok(!have_changed)
}

fn not_made<P: Place>(new: &NewStore<'_, P>, why: &str) -> String {
    let NewStore { place, shard } = new;
    format!(
        "the rows of {shard} have left their store, and {place} is not the store that was made of \
         them{why}"
    )
}

/// Whether one of the stores has changed by this start.
fn have_changed_by<P: Place>(old: &[OldStore<'_, P>], start: Option<u128>) -> Done<bool> {
    for old in old {
        if Taken::open(old)?.has_changed_by(start)? {
            return Ok(true);
        }
    }
    Ok(false)
}

fn unseal<P: Place>(new: &NewStore<'_, P>) -> Done {
    let mut opened = new.place.open()?;
    let epoch = next_epoch(new.place, &load(new.place, &mut opened)?)?;
    let changes = [Change::Started { epoch }, Change::Shard(KeptShard::open(new.shard))];
    commit(new.place, &mut opened, &changes)
}

impl<'s, 'p, P: Place> Taken<'s, 'p, P> {
    /// Opens an old store, if it is of its shard, before the change or after it, and nobody uses it.
    fn open(old: &'s OldStore<'p, P>) -> Done<Taken<'s, 'p, P>> {
        let mut opened = old.place.open()?;
        let snapshot = load(old.place, &mut opened)?;
        if ![KeptShard::open(old.before), old.after].map(Some).contains(&snapshot.shard) {
            return Err(other_shard(old, snapshot.shard).into());
        }
        let taken = Taken { old, opened, snapshot };
        match stores::who_has_not_left(old.place, &taken.snapshot) {
            Some(who) if !taken.has_changed() => Err(InUse(who).into()),
            _ => Ok(taken),
        }
    }

    fn has_changed(&self) -> bool {
        self.snapshot.shard == Some(self.old.after)
    }

    /// Takes the store as a server that starts does. Returns the bits of the start.
    fn start(&mut self) -> Done<u128> {
        let place = self.old.place;
        let epoch = next_epoch(place, &self.snapshot)?;
        commit(place, &mut self.opened, &[Change::Started { epoch }])?;
        self.snapshot = self.opened.store.snapshot()?;
        let mark = self.opened.store.history()?.and_then(|history| history.mark());
        Ok(mark.ok_or_else(|| format!("{place} keeps no history"))?.start)
    }

    fn become_next(&mut self) -> Done {
        let made = commit(self.old.place, &mut self.opened, &[Change::Shard(self.old.after)]);
        made.map_err(|why| if why.is::<InUse>() { why } else { Unknown(why.to_string()).into() })
    }

    /// Whether the store has changed by this start.
    fn has_changed_by(&mut self, start: Option<u128>) -> Done<bool> {
        let mark = start.map(|start| Mark { start, commits: BATCHES_OF_A_CHANGE });
        let history = self.opened.store.history()?;
        Ok(mark.zip(history).is_some_and(|(mark, history)| history.has(mark)))
    }
}

/// Why a store is refused that is of this shard, or of none.
pub fn other_shard<P: Place>(old: &OldStore<'_, P>, kept: Option<KeptShard>) -> String {
    let OldStore { place, before, .. } = old;
    match kept {
        Some(kept) => format!("{place} is of the shard {kept}, and by the map it is {before}"),
        None => format!("{place} shows no shard: serve it with --shard {before}"),
    }
}

fn load(place: &impl Place, opened: &mut Opened) -> Done<Snapshot> {
    opened.store.load().map_err(|error| failed(place, &error))
}

fn commit(place: &impl Place, opened: &mut Opened, changes: &[Change]) -> Done {
    opened.store.commit(changes).map_err(|error| failed(place, &error))
}

fn failed(place: &impl Place, error: &StoreError) -> Box<dyn Error> {
    match error {
        StoreError::Deposed(_) => InUse(format!("{place} was changed meanwhile")).into(),
        error => format!("{place}: {error}").into(),
    }
}

fn next_epoch(place: &impl Place, snapshot: &Snapshot) -> Done<u64> {
    let next = snapshot.epoch.checked_add(1).filter(|epoch| *epoch < krl::END);
    next.ok_or_else(|| format!("{place} has the last epoch").into())
}

impl fmt::Display for InUse {
    fn fmt(&self, f: &mut fmt::Formatter<'_>) -> fmt::Result {
        f.write_str(&self.0)
    }
}

impl Error for InUse {}

impl fmt::Display for Unknown {
    fn fmt(&self, f: &mut fmt::Formatter<'_>) -> fmt::Result {
        f.write_str(&self.0)
    }
}

impl Error for Unknown {}

#[cfg(test)]
mod tests;
