//! Which servers have which keys.
use crate::call::error::{Error, ErrorKind};
use crate::call::range::keys_of;
use crate::model::code::Code;
use crate::model::row::END;
use crate::model::shard_bounds::ShardBounds;
use crate::net::servers::Servers;
#[cfg(feature = "tls")]
use crate::net::tls::TlsConfig;
use crate::proved::partition::{Part, Partition};
use std::fmt;
use std::num::NonZeroU64;
use std::ops::{Range, RangeBounds};
#[cfg(feature = "map-file")]
use std::path::{Path, PathBuf};

/// One shard: the keys from `first` on below the next shard's first one, and its servers.
#[derive(Clone, Debug, PartialEq, Eq)]
pub struct Shard {
    /// The first key.
    pub first: u64,
    /// Where its server is, or where it may be; with what is shown there, if it listens over TLS.
    pub servers: Servers,
    /// The version of the map in which the shard became what it is, if that is an earlier one than
    /// the map's. Its server and its clients know it by this version, so they need not learn of a
    /// change of other shards.
    pub since: Option<NonZeroU64>,
}

impl Shard {
    /// A shard that begins at this key, with these servers, as the map's version has it.
    #[must_use]
    pub fn new(first: u64, servers: impl Into<Servers>) -> Shard {
        Shard { first, servers: servers.into(), since: None }
    }
}

/// All keys, cut into shards, each with a server and a store of its own.
///
/// **All clients have to have the same map**: a client with another one would write keys at the
/// wrong server, where the others do not see them. A map with a version is fenced: each server is
/// started as that of its shard ([`ServerBuilder::shard`]), and serves only clients of the same
/// map. A map without a version is not: nothing notices two of them.
///
/// Two maps are equal if they have the same shards and the same version, wherever they come from.
///
/// [`ServerBuilder::shard`]: crate::ServerBuilder::shard
#[derive(Clone, Debug)]
pub struct ShardMap {
    shards: Vec<Shard>,
    partition: Partition,
    version: Option<NonZeroU64>,
    /// The file that holds it, if it was read from one.
    #[cfg(feature = "map-file")]
    file: Option<PathBuf>,
}

/// Shards that make no map: there is none, or there are more than 64; the first one does not begin
/// at 0; or another one does not begin above the one before it, or begins above 2^63 - 1.
#[derive(Clone, Copy, Debug, PartialEq, Eq)]
pub struct BadShardMap;

impl ShardMap {
    /// The map of these shards, in ascending order.
    ///
    /// ```
    /// use krl::{Address, Shard, ShardMap};
    ///
    /// let map = ShardMap::new(vec![
    ///     Shard::new(0, "127.0.0.1:7400".parse::<Address>()?),
    ///     Shard::new(1000, "127.0.0.1:7500".parse::<Address>()?),
    /// ])?;
    /// assert_eq!(map.shard_of(1000), Ok(1));
    /// # Ok::<(), Box<dyn std::error::Error>>(())
    /// ```
    ///
    /// # Errors
    ///
    /// `BadShardMap`, which describes why they make none.
    pub fn new(shards: Vec<Shard>) -> Result<ShardMap, BadShardMap> {
        let mut firsts = shards.iter().map(|shard| shard.first);
        if firsts.next() != Some(0) {
            return Err(BadShardMap);
        }
        let partition = Partition::new(firsts.collect()).map_err(|_| BadShardMap)?;
        Ok(ShardMap {
            shards,
            partition,
            version: None,
            #[cfg(feature = "map-file")]
            file: None,
        })
    }

    /// The shards, in ascending order. Their number, from 0, is their place here.
    #[must_use]
    pub fn shards(&self) -> &[Shard] {
        &self.shards
    }

    /// The same map with a version. Each change of the map takes a greater one.
    #[must_use]
    pub fn with_version(self, version: NonZeroU64) -> ShardMap {
        ShardMap { version: Some(version), ..self }
    }

    /// The same map, whose servers are shown this if they listen over TLS.
    #[cfg(feature = "tls")]
    pub(crate) fn with_tls(self, config: &TlsConfig) -> ShardMap {
        let shown =
            |shard: Shard| Shard { servers: shard.servers.with_tls(config.clone()), ..shard };
        ShardMap { shards: self.shards.into_iter().map(shown).collect(), ..self }
    }

    /// The same map, which this file holds.
    #[cfg(feature = "map-file")]
    pub(crate) fn in_file(self, file: &Path) -> ShardMap {
        ShardMap { file: Some(file.into()), ..self }
    }

    /// The file that holds the map, if it was read from one.
    #[cfg(feature = "map-file")]
    pub(crate) fn file(&self) -> Option<&Path> {
        self.file.as_deref()
    }

    /// The version, if the map has one.
    #[must_use]
    pub fn version(&self) -> Option<NonZeroU64> {
        self.version
    }

    /// Whether this map comes after the one of this version. One that does not is a copy that is late:
    /// a client that went back to it would ask servers for keys that they no longer have.
    pub(crate) fn comes_after(&self, version: NonZeroU64) -> bool {
        self.version > Some(version)
    }

    /// The version of the map in which the shard of this number became what it is. A map without a
    /// version returns `None`, and so does one that has no such shard.
    #[must_use]
    pub fn since(&self, shard: usize) -> Option<NonZeroU64> {
        let version = self.version?;
        Some(self.shards.get(shard)?.since.unwrap_or(version))
    }

    /// What the shard of this number has of the keys, by the version in which it became what it is.
    /// A map without a version returns `None`, and so does one that has no such shard.
    #[must_use]
    pub fn bounds_of(&self, shard: usize) -> Option<ShardBounds> {
        let first = self.shards.get(shard)?.first;
        let end = self.shards.get(shard + 1).map_or(END + 1, |next| next.first);
        ShardBounds::new(first..end, self.since(shard)?).ok()
    }

    /// The servers of a shard, which a client takes for its own.
    pub(crate) fn servers_of(&self, shard: usize) -> Servers {
        let servers = self.shards[shard].servers.clone();
        match self.bounds_of(shard) {
            Some(bounds) => servers.of_shard(bounds),
            None => servers,
        }
    }

    /// The shard of a key.
    ///
    /// # Errors
    ///
    /// `BadKey` for a key of 2^63 - 1 or more.
    pub fn shard_of(&self, key: u64) -> Result<usize, Error> {
        if key >= END {
            return Err(ErrorKind::BadKey.into());
        }
        Ok(self.partition.shard_of(key)?)
    }

    /// What each shard has of a range, in ascending order. Of an empty range none has anything.
    ///
    /// # Errors
    ///
    /// `BadRange` if the range begins above its end, or ends above 2^63.
    pub fn parts(&self, keys: impl RangeBounds<u64>) -> Result<Vec<Part>, Error> {
        let keys = keys_of(&keys)?;
        if keys.is_empty() { Ok(Vec::new()) } else { Ok(self.parts_of(&keys)?) }
    }

    /// The parts of a range that is not empty.
    pub(crate) fn parts_of(&self, keys: &Range<u64>) -> Result<Vec<Part>, Code> {
        self.partition.parts(keys)
    }
}

impl PartialEq for ShardMap {
    fn eq(&self, other: &ShardMap) -> bool {
        (&self.shards, self.version) == (&other.shards, other.version)
    }
}

impl Eq for ShardMap {}

impl fmt::Display for BadShardMap {
    fn fmt(&self, f: &mut fmt::Formatter<'_>) -> fmt::Result {
        f.write_str(
            "a map has 1 to 64 shards; the first one begins at 0, and each other one above the one \
             before it and at 2^63 - 1 or below",
        )
    }
}

impl std::error::Error for BadShardMap {}

#[cfg(test)]
mod tests {
    use super::*;

    fn map(firsts: &[u64]) -> Result<ShardMap, BadShardMap> {
        let servers: Servers = "127.0.0.1:7400".parse().unwrap();
        let shards = firsts.iter().map(|first| Shard::new(*first, servers.clone()));
        ShardMap::new(shards.collect())
    }

    #[test]
    fn shards_that_make_no_map() {
        for firsts in [&[][..], &[1], &[0, 0], &[0, 9, 9], &[0, 9, 8], &[0, END + 1]] {
            assert_eq!(map(firsts), Err(BadShardMap), "{firsts:?}");
        }
        assert!(map(&[0]).is_ok() && map(&[0, END]).is_ok());
    }

    #[test]
    fn keys_and_ranges_have_their_shards() {
        let map = map(&[0, 10]).unwrap();
        assert_eq!([9, 10, END - 1].map(|key| map.shard_of(key)), [Ok(0), Ok(1), Ok(1)]);
        assert_eq!(map.shard_of(END), Err(ErrorKind::BadKey.into()));
        let whole = [Part { shard: 0, keys: 0..10 }, Part { shard: 1, keys: 10..END + 1 }];
        assert_eq!(map.parts(..).unwrap(), whole);
        assert_eq!(map.parts(5..5), Ok(Vec::new()));
        assert_eq!(map.parts(..=u64::MAX), Err(ErrorKind::BadRange.into()));
    }

    #[test]
    fn a_map_with_a_version_shows_what_each_shard_has() {
        let map = map(&[0, 10, END]).unwrap();
        assert_eq!((map.version(), map.bounds_of(0)), (None, None));
        let map = map.with_version(NonZeroU64::new(3).unwrap());
        let bounds: Vec<_> = (0..4).map(|shard| map.bounds_of(shard)).collect();
        let expected = ["0..10@3", "10..9223372036854775807@3", "9223372036854775807..@3"];
        let expected = expected.map(|text| Some(text.parse().unwrap()));
        assert_eq!(bounds, [&expected[..], &[None]].concat());
    }

    #[test]
    fn a_shard_is_known_by_the_version_in_which_it_became_what_it_is() {
        let version = |number| NonZeroU64::new(number).unwrap();
        let mut shards = map(&[0, 10]).unwrap().shards().to_vec();
        shards[1].since = Some(version(3));
        let map = ShardMap::new(shards).unwrap();
        assert_eq!((map.since(1), map.bounds_of(1)), (None, None));
        let map = map.with_version(version(5));
        let bounds = [0, 1].map(|shard| map.bounds_of(shard).unwrap().to_string());
        assert_eq!(bounds, ["0..10@5", "10..@3"]);
        assert_eq!(
            [0, 1, 2].map(|shard| map.since(shard)),
            [Some(version(5)), Some(version(3)), None]
        );
    }
}
