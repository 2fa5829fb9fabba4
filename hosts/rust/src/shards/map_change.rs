//! The next map: a shard is cut in two, two neighbors become one, or a shard moves.
//!
//! Only the shards that change have the next map's version. All others stay known by theirs: so
//! their servers and their clients continue.
use crate::net::servers::Servers;
use crate::shards::map::{BadShardMap, Shard, ShardMap};
use std::num::NonZeroU64;

impl ShardMap {
    /// The next map, in which the shard that has this key is cut there: the new shard begins at the
    /// key, and these are its servers. Its version is greater by 1, if the map has one, and the two
    /// shards are of that version.
    ///
    /// # Errors
    ///
    /// `BadShardMap` if a shard begins at the key already, the key is above 2^63 - 1, or there are
    /// 64 shards.
    pub fn split(&self, at: u64, servers: Servers) -> Result<ShardMap, BadShardMap> {
        let mut shards = self.dated_shards();
        let place = shards.partition_point(|shard| shard.first <= at);
        let cut = place.checked_sub(1).ok_or(BadShardMap)?;
        shards[cut].since = None;
        shards.insert(place, Shard::new(at, servers));
        self.next(shards)
    }

    /// The next map, in which the shard that begins at this key belongs to the one below it. Its
    /// version is greater by 1, if the map has one, and the shard of both is of that version.
    ///
    /// # Errors
    ///
    /// `BadShardMap` if no shard begins there but the first one, or none at all.
    pub fn merge(&self, at: u64) -> Result<ShardMap, BadShardMap> {
        let mut shards = self.dated_shards();
        let place = shards.iter().skip(1).position(|shard| shard.first == at).ok_or(BadShardMap)?;
        shards.remove(place + 1);
        shards[place].since = None;
        self.next(shards)
    }

    /// The next map, in which the shard that begins at this key has these servers: it moves. Its
    /// version is greater by 1, if the map has one, and the shard is of that version.
    ///
    /// # Errors
    ///
    /// `BadShardMap` if no shard begins there.
    pub fn with_servers(&self, first: u64, servers: Servers) -> Result<ShardMap, BadShardMap> {
        let mut shards = self.dated_shards();
        let place = shards.iter().position(|shard| shard.first == first).ok_or(BadShardMap)?;
        shards[place] = Shard::new(first, servers);
        self.next(shards)
    }

    /// The shards, each with the version by which it is known, so that it stays known by it.
    fn dated_shards(&self) -> Vec<Shard> {
        let dated =
            |(place, shard): (usize, &Shard)| Shard { since: self.since(place), ..shard.clone() };
        self.shards().iter().enumerate().map(dated).collect()
    }

    fn next(&self, shards: Vec<Shard>) -> Result<ShardMap, BadShardMap> {
        let map = ShardMap::new(shards)?;
        let next = |version: NonZeroU64| version.saturating_add(1);
        Ok(match self.version() {
            Some(version) => map.with_version(next(version)),
            None => map,
        })
    }
}

#[cfg(test)]
mod tests {
    use super::*;

    fn servers(port: u16) -> Servers {
        format!("127.0.0.1:{port}").parse().unwrap()
    }

    fn firsts(map: &ShardMap) -> Vec<u64> {
        map.shards().iter().map(|shard| shard.first).collect()
    }

    fn two_shards() -> ShardMap {
        ShardMap::new(vec![Shard::new(0, servers(1)), Shard::new(100, servers(2))]).unwrap()
    }

    /// The version by which each shard is known.
    fn known(map: &ShardMap) -> Vec<u64> {
        (0..map.shards().len()).map(|shard| map.since(shard).unwrap().get()).collect()
    }

    #[test]
    fn a_split_and_its_merge_have_greater_versions() {
        let map = two_shards();
        assert_eq!(map.split(50, servers(3)).unwrap().version(), None);
        let map = map.with_version(NonZeroU64::new(3).unwrap());
        let split = map.split(50, servers(3)).unwrap();
        assert_eq!((firsts(&split), split.version().unwrap().get()), (vec![0, 50, 100], 4));
        assert_eq!(split.shards()[1].servers, servers(3));
        assert_eq!(firsts(&map.split(150, servers(3)).unwrap()), [0, 100, 150]);
        let merged = split.merge(50).unwrap();
        assert_eq!((firsts(&merged), merged.version().unwrap().get()), (vec![0, 100], 5));
        for at in [0, 100, u64::MAX] {
            assert_eq!(map.split(at, servers(3)), Err(BadShardMap), "{at}");
        }
        for at in [0, 50, u64::MAX] {
            assert_eq!(map.merge(at), Err(BadShardMap), "{at}");
        }
    }

    #[test]
    fn only_the_shards_that_change_have_the_next_version() {
        let map = two_shards().with_version(NonZeroU64::new(3).unwrap());
        let split = map.split(50, servers(3)).unwrap();
        assert_eq!((known(&map), known(&split)), (vec![3, 3], vec![4, 4, 3]));
        let moved = split.with_servers(50, servers(4)).unwrap();
        assert_eq!((known(&moved), moved.version().unwrap().get()), (vec![4, 5, 3], 5));
        assert_eq!(moved.shards()[1].servers, servers(4));
        assert_eq!(known(&moved.merge(50).unwrap()), [6, 3]);
        assert_eq!(known(&moved.merge(100).unwrap()), [4, 6]);
        assert_eq!(known(&moved.split(150, servers(5)).unwrap()), [4, 5, 6, 6]);
        assert_eq!(moved.with_servers(51, servers(4)), Err(BadShardMap));
    }
}
