//! A store that is cut in two, and two that become one, while no server runs on them.
//!
//! A command that was killed is repeated: the stores show how far it had come.
use super::next_map::{MergeMap, NextMap, SplitMap};
use super::stores::{self, own, read_left};
use crate::process::Done;
use crate::process::output::{self, cause};
use krl::operate::{Checksum, StoreFile};
use krl::store::{KeptShard, Snapshot};
use krl::{END, SqliteStore};
use std::error::Error;
use std::path::Path;

/// Moves the rows from the key on into a new store, and returns what was done. Without
/// `is_empty_allowed` it refuses to move none.
///
/// The new store is on the disk before the old one changes. So at each moment one of three states
/// is on the disk, and this continues from each: there is no new store; the new store has a copy of
/// the rows that move; it has their only copy. By a map, no server starts on the new store before
/// it has the only copy, and from then on none of the old shard starts on the old one.
pub fn split(
    store: &Path,
    at: u64,
    new: &Path,
    is_empty_allowed: bool,
    map: &SplitMap,
) -> Done<DoneByMap> {
    let owner = own(store)?;
    let kept = read_left(owner.file())?;
    let own_shard = kept.snapshot.shard;
    let earlier = moved_by_an_earlier_split(&kept, at, new);
    let is_cut = earlier.is_some();
    let before = earlier.unwrap_or(kept.snapshot);
    let next = map.next(at, &before)?;
    let shards = next.as_ref().map(NextMap::shards_of_cut).transpose()?;
    match (own_shard, &shards) {
        (Some(own), Some(shards)) => shards.refuse_other(own, is_cut)?,
        (Some(own), None) => return Err(needs_map(own)),
        (None, _) => {}
    }
    let (mut lower, mut upper) = before.split(at);
    lower.shard = shards.as_ref().map(|shards| KeptShard::open(shards.lower));
    upper.shard = shards.as_ref().map(|shards| KeptShard::sealed(shards.upper));
    if upper.rows.is_empty() && !is_empty_allowed {
        return Err(format!(
            "{} has no row from {at} on, and {} is not the new store of a split at this key: \
             nothing would move. --allow-empty makes a new store without rows",
            store.display(),
            new.display()
        )
        .into());
    }
    stores::judge(&store.display(), &lower)?;
    stores::judge(&new.display(), &upper)?;
    create(new, &upper)?;
    stores::change(owner.file(), |file| file.cut_off(at, &upper, lower.shard)).map_err(
        |error| format!("{} may have all its rows still: {error}. Split it again", store.display()),
    )?;
    unseal(new)?;
    let (below, from) = (lower.rows.len(), upper.rows.len());
    let done = format!(
        "{}: {below} rows below {at}, epoch {}\n{}: {from} rows from {at} on, epoch {}\n",
        store.display(),
        lower.epoch,
        new.display(),
        upper.epoch
    );
    Ok(DoneByMap { done, next })
}

/// The store as it was before a split that was killed after it had moved the rows, if the new store
/// is that split's: the old one keeps the new one's checksum.
fn moved_by_an_earlier_split(kept: &StoreFile, at: u64, new: &Path) -> Option<Snapshot> {
    let moved = SqliteStore::read(new).ok().filter(|file| file.checksum == Checksum::Matches)?;
    kept.cut_off.filter(|cut_off| cut_off.is(&moved.snapshot))?;
    rejoined(&kept.snapshot, at, &moved.snapshot)
}

/// The snapshot of which a split at this key makes these two, if there is one. Of which shard it was
/// is not known any more.
fn rejoined(lower: &Snapshot, at: u64, upper: &Snapshot) -> Option<Snapshot> {
    let of_no_shard = |half: &Snapshot| Snapshot { shard: None, ..half.clone() };
    let (lower, upper) = (of_no_shard(lower), of_no_shard(upper));
    let mut whole = lower.clone();
    whole.rows.extend(&upper.rows);
    let (below, from) = whole.clone().split(at);
    (below == lower && from == upper).then_some(whole)
}

/// Makes a new store of two, and returns what was done. Without a map they are only read. By a map no
/// server starts on them any more once the new store is there, and none on the new one before both
/// are sealed.
pub fn merge(lower: &Path, upper: &Path, new: &Path, map: &MergeMap) -> Done<DoneByMap> {
    let owners = (own(lower)?, own(upper)?);
    let (below, from) = (read_left(owners.0.file())?, read_left(owners.1.file())?);
    // Before both are sealed, no server can have started on a new store.
    if is_sealed(&below) && is_sealed(&from) {
        refuse_second(lower, &below, new)?;
        refuse_second(upper, &from, new)?;
    }
    let (below, from) = (below.snapshot, from.snapshot);
    let next = map.next(&below, &from)?;
    let shards = next.as_ref().map(NextMap::shards_of_merge).transpose()?;
    match (&shards, below.shard.or(from.shard)) {
        (Some(shards), _) => shards.refuse_others([below.shard, from.shard])?,
        (None, Some(own)) => return Err(needs_map(own)),
        (None, None) => {}
    }
    let mut whole = below.merge(from)?;
    whole.shard = shards.as_ref().map(|shards| KeptShard::sealed(shards.whole));
    stores::judge(&new.display(), &whole)?;
    create(new, &whole)?;
    if let Some(shards) = &shards {
        let [below, from] = shards.sealed();
        stores::change(owners.0.file(), |file| file.seal(below, &whole))?;
        stores::change(owners.1.file(), |file| file.seal(from, &whole))?;
    }
    unseal(new)?;
    let (rows, epoch) = (whole.rows.len(), whole.epoch);
    Ok(DoneByMap { done: format!("{}: {rows} rows, epoch {epoch}\n", new.display()), next })
}

fn is_sealed(kept: &StoreFile) -> bool {
    kept.snapshot.shard.is_some_and(|shard| shard.is_sealed)
}

/// Refuses to make a second new store of one that is sealed: the new store that an earlier call has
/// made may be served by now.
fn refuse_second(store: &Path, kept: &StoreFile, new: &Path) -> Done {
    let is_made = |made: StoreFile| kept.cut_off.is_some_and(|cut_off| cut_off.is(&made.snapshot));
    if SqliteStore::read(new).is_ok_and(is_made) {
        return Ok(());
    }
    let (store, new) = (store.display(), new.display());
    Err(format!("{store} is sealed, and {new} is not the store that was made of it").into())
}

/// A store that is of a shard changes with the map.
fn needs_map(own: KeptShard) -> Box<dyn Error> {
    format!("the store is of the shard {own}: give --map").into()
}

/// What was done with stores, and the map that comes next, if there is one. It is not written yet.
pub struct DoneByMap {
    pub done: String,
    next: Option<NextMap>,
}

impl DoneByMap {
    /// Writes the next map, and only then prints what was done.
    pub fn write_and_print(&self) -> Done {
        let written = self.next.as_ref().map_or(Ok(String::new()), NextMap::write);
        let map = written.as_deref().unwrap_or_default();
        output::print_done(&format!("{}{map}", self.done))?;
        written.map(drop)
    }
}

fn create(new: &Path, snapshot: &Snapshot) -> Done {
    set_other_aside(new, snapshot)?;
    SqliteStore::create(new, snapshot).map_err(|error| cause(&error).into())
}

/// Sets a sealed new store aside that an earlier call has made, and that is not what the old stores
/// have by now: they were served since, so no server can have started on the new one.
fn set_other_aside(new: &Path, snapshot: &Snapshot) -> Done {
    let is_other = SqliteStore::read(new).is_ok_and(|made| made.snapshot != *snapshot);
    match snapshot.shard.filter(|_| is_other) {
        Some(shard) => stores::set_unused_aside(new, &shard.bounds.keys()),
        None => Ok(()),
    }
}

/// A server may start on the store: no other one has its rows any more.
fn unseal(new: &Path) -> Done {
    SqliteStore::unseal(new).map_err(|error| cause(&error).into())
}

/// Whether a shard may begin at a key: the first one begins at 0 by itself.
pub fn cut(text: &str) -> Result<u64, String> {
    match text.parse() {
        Ok(at) if (1..END).contains(&at) => Ok(at),
        _ => Err(format!("a cut is a key from 1 to {}", END - 1)),
    }
}

#[cfg(test)]
mod tests {
    use super::*;
    use krl::Value;
    use krl::store::Record;

    #[test]
    fn only_the_two_stores_of_one_split_are_rejoined() {
        let rows = |keys: std::ops::Range<u64>| keys.map(|key| (key, Value::from(key))).collect();
        let record = Record { client: 3, incarnation: 5, last: None, left: true };
        let whole = Snapshot {
            epoch: 7,
            rows: rows(0..10),
            records: vec![record],
            first_start: Some(9),
            ..Snapshot::default()
        };
        let (lower, upper) = whole.clone().split(4);
        assert_eq!(rejoined(&lower, 4, &upper), Some(whole.clone()));
        assert_eq!(rejoined(&whole, 4, &upper), None, "the rows are there still");
        assert_eq!(rejoined(&lower, 3, &upper), None, "another key");
        assert_eq!(rejoined(&lower, 5, &upper), None, "another key");
        let served = Snapshot { epoch: 8, ..lower.clone() };
        assert_eq!(rejoined(&served, 4, &upper), None, "a server has started since");
        let other = Snapshot { records: Vec::new(), ..upper.clone() };
        assert_eq!(rejoined(&lower, 4, &other), None, "another store");
        let below = Snapshot { rows: rows(3..10), ..upper };
        assert_eq!(rejoined(&lower, 4, &below), None, "a row below the key");
    }
}
