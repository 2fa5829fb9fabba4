//! The map after a split or a merge, as a file.
use crate::process::Done;
use clap::Args;
use krl::operate::NextFile;
use krl::store::{KeptShard, ShardBounds, Snapshot};
use krl::{Address, Servers, Shard, ShardMap};
use std::error::Error;
use std::io::{self, ErrorKind};
use std::path::{Path, PathBuf};

/// The map of a split.
#[derive(Debug, Args)]
pub struct SplitMap {
    /// The current map. The next map is written to --new-map
    #[arg(long, value_name = "FILE", requires_all = ["servers", "new_map"])]
    map: Option<PathBuf>,
    /// Where the new store will be served, as in a map
    #[arg(long, value_name = "ADDRESS", requires = "map")]
    servers: Option<Servers>,
    /// The file of the next map. What exists is never replaced
    #[arg(long, value_name = "FILE", requires = "map")]
    new_map: Option<PathBuf>,
}

/// The map of a merge.
#[derive(Debug, Args)]
pub struct MergeMap {
    /// The current map. The next map is written to --new-map
    #[arg(long, value_name = "FILE", requires_all = ["at", "new_map"])]
    map: Option<PathBuf>,
    /// Where the upper one of the two shards begins
    #[arg(long, value_name = "KEY", requires = "map")]
    at: Option<u64>,
    /// The file of the next map. What exists is never replaced
    #[arg(long, value_name = "FILE", requires = "map")]
    new_map: Option<PathBuf>,
}

/// A map that is not written yet.
pub struct NextMap {
    before: ShardMap,
    map: ShardMap,
    /// Where two shards meet, before or after the change.
    at: u64,
    path: PathBuf,
}

impl SplitMap {
    /// The next map, if one is wanted. The store has to be that of the shard that is cut.
    pub fn next(&self, at: u64, store: &Snapshot) -> Done<Option<NextMap>> {
        let (Some(path), Some(servers), Some(new)) = (&self.map, &self.servers, &self.new_map)
        else {
            return Ok(None);
        };
        let map = read(path)?;
        refuse_server_of_map(&map, servers)?;
        if store.shard.is_none() {
            refuse_empty_store(&map, at, store)?;
        }
        refuse_other_store(&map, at, store)?;
        let next = map.split(at, servers.clone()).map_err(|error| no_map(path, at, &error))?;
        NextMap::new(map, next, at, new).map(Some)
    }
}

impl MergeMap {
    /// The next map, if one is wanted. The stores have to be those of the two shards.
    pub fn next(&self, lower: &Snapshot, upper: &Snapshot) -> Done<Option<NextMap>> {
        let (Some(path), Some(at), Some(new)) = (&self.map, self.at, &self.new_map) else {
            return Ok(None);
        };
        let map = read(path)?;
        let next = map.merge(at).map_err(|error| no_map(path, at, &error))?;
        refuse_other_store(&map, at - 1, lower)?;
        refuse_other_store(&map, at, upper)?;
        NextMap::new(map, next, at, new).map(Some)
    }
}

/// The shards of a cut.
pub struct CutShards {
    /// The shard that is cut, as it is before.
    pub whole: ShardBounds,
    /// The lower half, by the next map.
    pub lower: ShardBounds,
    /// The upper half, by the next map.
    pub upper: ShardBounds,
}

/// The shards of a merge.
pub struct MergedShards {
    /// The shard of both, by the next map.
    pub whole: ShardBounds,
    /// The two shards, as they are before.
    before: [ShardBounds; 2],
}

impl CutShards {
    /// Refuses a store that is not of the shard that is cut, or, if an earlier call has cut it, not
    /// of the lower half: it would lose rows.
    pub fn refuse_other(&self, own: KeptShard, is_cut: bool) -> Done {
        refuse_other_shard(own, if is_cut { self.lower } else { self.whole })
    }
}

impl MergedShards {
    /// What the two stores become: nobody serves them any more.
    pub fn sealed(&self) -> [ShardBounds; 2] {
        self.before.map(|half| half.with_version(self.whole.map_version()))
    }

    /// Refuses stores that are not of the two shards. An earlier call may have sealed them.
    pub fn refuse_others(&self, stores: [Option<KeptShard>; 2]) -> Done {
        for ((own, before), sealed) in stores.into_iter().zip(self.before).zip(self.sealed()) {
            let own = own.filter(|own| *own != KeptShard::sealed(sealed));
            own.map_or(Ok(()), |own| refuse_other_shard(own, before))?;
        }
        Ok(())
    }
}

fn refuse_other_shard(own: KeptShard, expected: ShardBounds) -> Done {
    if own == KeptShard::open(expected) {
        return Ok(());
    }
    Err(format!("the store is of the shard {own}, and by the map it is {expected}").into())
}

impl NextMap {
    pub fn shards_of_cut(&self) -> Done<CutShards> {
        let [lower, upper] = neighbors(&self.map, self.at)?;
        Ok(CutShards { whole: bounds(&self.before, self.at)?, lower, upper })
    }

    pub fn shards_of_merge(&self) -> Done<MergedShards> {
        let before = neighbors(&self.before, self.at)?;
        Ok(MergedShards { whole: bounds(&self.map, self.at)?, before })
    }

    fn new(before: ShardMap, map: ShardMap, at: u64, path: &Path) -> Done<NextMap> {
        if !may_become(path, &map.to_toml())? {
            return Err(format!("there is a file {} already", path.display()).into());
        }
        Ok(NextMap { before, map, at, path: path.into() })
    }

    /// Writes the map, and returns by which shard each server has to be started.
    pub fn write(&self) -> Done<String> {
        let at = self.path.display();
        let written = NextFile::write(&self.path, &self.map.to_toml());
        written.and_then(NextFile::take_its_place).map_err(|error| {
            format!("the stores are as they should be, but the map {at} can't be written: {error}")
        })?;
        let shards = self.map.shards().iter().enumerate();
        let changed = shards.filter(|(place, _)| self.map.since(*place) == self.map.version());
        let start = |(place, shard): (usize, &Shard)| {
            let bounds = self.map.bounds_of(place)?;
            Some(format!("    {}: {bounds}\n", shard.servers))
        };
        let starts: String = changed.filter_map(start).collect();
        Ok(format!(
            "{at}: the next map. Start these servers, each on the store of its shard; all others \
             continue:\n{starts}"
        ))
    }
}

/// Whether the file may be given this text: there is none, or a command that was killed has written
/// it.
fn may_become(path: &Path, text: &str) -> io::Result<bool> {
    match std::fs::read(path) {
        Ok(bytes) => Ok(bytes == text.as_bytes()),
        Err(error) if error.kind() == ErrorKind::NotFound => Ok(true),
        Err(error) => Err(error),
    }
}

/// What the shard of this key has.
pub fn bounds(map: &ShardMap, key: u64) -> Done<ShardBounds> {
    let bounds = map.shard_of(key).ok().and_then(|shard| map.bounds_of(shard));
    bounds.ok_or_else(|| "the map has no such shard".into())
}

/// The two shards that meet at this key.
fn neighbors(map: &ShardMap, at: u64) -> Done<[ShardBounds; 2]> {
    Ok([bounds(map, at - 1)?, bounds(map, at)?])
}

pub fn read(path: &Path) -> Done<ShardMap> {
    ShardMap::from_file(path)
        .map_err(|error| format!("the map {} can't be used: {error}", path.display()).into())
}

pub fn no_map(path: &Path, at: u64, error: &dyn Error) -> Box<dyn Error> {
    format!("{} and a shard from {at} on give no next map: {error}", path.display()).into()
}

/// Refuses a server that has a shard in the map already: a server has one.
pub fn refuse_server_of_map(map: &ShardMap, servers: &Servers) -> Done {
    let has = |shard: &Shard, address: &Address| shard.servers.iter().any(|it| it == address);
    for address in servers.iter() {
        if let Some(shard) = map.shards().iter().position(|shard| has(shard, address)) {
            return Err(format!(
                "the server {address} has shard {shard} in the map: the new store needs one of its own"
            )
            .into());
        }
    }
    Ok(())
}

/// Refuses a store without rows, if it might be that of another shard: its rows would show which.
fn refuse_empty_store(map: &ShardMap, point: u64, store: &Snapshot) -> Done {
    if map.shards().len() == 1 || !store.rows.is_empty() {
        return Ok(());
    }
    let shard = map.shard_of(point)?;
    Err(format!(
        "the store has no rows, so nothing shows that it is the one of shard {shard} in the map: leave \
         out --map, and write the next map by hand"
    )
    .into())
}

/// Refuses a store with a key that the shard of this point does not have.
fn refuse_other_store(map: &ShardMap, point: u64, store: &Snapshot) -> Done {
    let shard = map.shard_of(point)?;
    let stray = store.rows.keys().find(|key| map.shard_of(**key) != Ok(shard));
    let Some(key) = stray else { return Ok(()) };
    Err(format!("the store has the key {key}, which is not one of shard {shard} in the map").into())
}
