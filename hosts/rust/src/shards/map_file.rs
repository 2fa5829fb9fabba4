//! A map of shards as a file.
use crate::shards::map::{BadShardMap, Shard, ShardMap};
use serde::Deserialize;
use std::fmt;
use std::io;
use std::num::NonZeroU64;
use std::path::Path;

/// Why a text is not a map.
#[derive(Debug)]
#[non_exhaustive]
pub enum BadMapFile {
    /// The file can't be read.
    File(io::Error),
    /// It does not have the form of a map: what is wrong, and in which line.
    Form(String),
    /// Its shards make no map.
    Shards(BadShardMap),
}

#[derive(Debug, Deserialize)]
#[serde(deny_unknown_fields)]
struct MapFile {
    version: NonZeroU64,
    shard: Vec<ShardEntry>,
}

#[derive(Debug, Deserialize)]
#[serde(deny_unknown_fields)]
struct ShardEntry {
    first: u64,
    servers: String,
    /// That of the map if it is left out.
    since: Option<NonZeroU64>,
}

impl ShardMap {
    /// The map that a text in TOML holds:
    ///
    /// ```
    /// let map = krl::ShardMap::from_toml(
    ///     r#"
    ///     version = 3
    ///
    ///     [[shard]]
    ///     first = 0
    ///     servers = "tls:db1:7400,tls:db2:7400"
    ///
    ///     [[shard]]
    ///     first = 500000
    ///     servers = "tls:db3:7400"
    ///     since = 2
    ///     "#,
    /// )?;
    /// assert_eq!(map.bounds_of(0), Some("0..500000@3".parse()?));
    /// assert_eq!(map.bounds_of(1), Some("500000..@2".parse()?));
    /// # Ok::<(), Box<dyn std::error::Error>>(())
    /// ```
    ///
    /// A shard ends where the next one begins. It is known by the version in which it became what it
    /// is: `since`, or the map's version if that is left out.
    ///
    /// # Errors
    ///
    /// `Form`, or `Shards`.
    pub fn from_toml(text: &str) -> Result<ShardMap, BadMapFile> {
        let form = |error: toml::de::Error| BadMapFile::Form(error.to_string().trim_end().into());
        let file: MapFile = toml::from_str(text).map_err(form)?;
        let shards: Result<Vec<Shard>, BadMapFile> =
            file.shard.iter().map(ShardEntry::shard).collect();
        let map = ShardMap::new(shards?).map_err(BadMapFile::Shards)?;
        if let Some(later) = map.shards().iter().find(|shard| shard.since > Some(file.version)) {
            let first = later.first;
            let form = format!("the shard from {first} on is of a later version than the map");
            return Err(BadMapFile::Form(form));
        }
        Ok(map.with_version(file.version))
    }

    /// The map that a file holds, as [`ShardMap::from_toml`] reads it. A client that joins by it looks
    /// at the file again while it waits, and joins by a next map that it finds there.
    ///
    /// # Errors
    ///
    /// `File`, or those of [`ShardMap::from_toml`].
    pub fn from_file(path: impl AsRef<Path>) -> Result<ShardMap, BadMapFile> {
        let path = path.as_ref();
        let text = std::fs::read_to_string(path).map_err(BadMapFile::File)?;
        Ok(ShardMap::from_toml(&text)?.in_file(path))
    }

    /// The text of this map. That of a map without a version lacks it, and cannot be read as a map.
    #[must_use]
    pub fn to_toml(&self) -> String {
        let version = self.version().map(|version| format!("version = {version}\n"));
        let shard = |Shard { first, servers, since }: &Shard| {
            let servers = toml::Value::String(servers.to_string());
            let since = since.filter(|since| Some(*since) != self.version());
            let since = since.map(|since| format!("since = {since}\n")).unwrap_or_default();
            format!("\n[[shard]]\nfirst = {first}\nservers = {servers}\n{since}")
        };
        version.into_iter().chain(self.shards().iter().map(shard)).collect()
    }
}

impl ShardEntry {
    fn shard(&self) -> Result<Shard, BadMapFile> {
        let ShardEntry { first, servers, since } = self;
        let parsed = servers.parse().map_err(|error| {
            BadMapFile::Form(format!(
                "the servers '{servers}' of the shard from {first} on: {error}"
            ))
        });
        Ok(Shard { first: *first, servers: parsed?, since: *since })
    }
}

impl fmt::Display for BadMapFile {
    fn fmt(&self, f: &mut fmt::Formatter<'_>) -> fmt::Result {
        match self {
            BadMapFile::File(error) => write!(f, "it can't be read: {error}"),
            BadMapFile::Form(what) => write!(
                f,
                "a map is a line `version = N`, and for each shard a table [[shard]] with `first` \
                 and `servers`, and `since` if it is of an earlier version: {what}"
            ),
            BadMapFile::Shards(error) => error.fmt(f),
        }
    }
}

impl std::error::Error for BadMapFile {
    fn source(&self) -> Option<&(dyn std::error::Error + 'static)> {
        match self {
            BadMapFile::File(error) => Some(error),
            BadMapFile::Shards(error) => Some(error),
            BadMapFile::Form(_) => None,
        }
    }
}

#[cfg(test)]
mod tests {
    use super::*;

    const MAP: &str = "version = 3\n\n[[shard]]\nfirst = 0\nservers = \"127.0.0.1:1\"\n\n\
                       [[shard]]\nfirst = 9\nservers = \"tls:db1:7400,tls:db2:7400\"\nsince = 2\n";

    #[test]
    fn a_map_has_its_version_and_its_shards() {
        let map = ShardMap::from_toml(MAP).unwrap();
        assert_eq!(map.version().map(NonZeroU64::get), Some(3));
        let shards: Vec<(u64, String)> =
            map.shards().iter().map(|shard| (shard.first, shard.servers.to_string())).collect();
        let last = (9, "tls:db1:7400,tls:db2:7400".into());
        assert_eq!(shards, [(0, "127.0.0.1:1".into()), last]);
        assert_eq!([0, 1].map(|shard| map.since(shard).map(NonZeroU64::get)), [Some(3), Some(2)]);
        assert_eq!(map.to_toml(), MAP);
    }

    #[test]
    fn what_is_no_map_is_reported() {
        let error_of = |text: &str| ShardMap::from_toml(text).unwrap_err().to_string();
        for (old, new, expected) in [
            ("version = 3\n", "", "missing field `version`"),
            ("version = 3", "version = 0", "[[shard]]"),
            ("first = 9", "frist = 9", "unknown field `frist`"),
            ("since = 2", "since = 4", "the shard from 9 on is of a later version"),
            ("since = 2", "since = 0", "[[shard]]"),
            ("first = 9", "first = 0", "each other one above the one before it"),
            ("127.0.0.1:1", "here", "the servers 'here' of the shard from 0 on: "),
        ] {
            let error = error_of(&MAP.replace(old, new));
            assert!(error.contains(expected), "{error}");
        }
        assert!(error_of("").contains("missing field `version`"));
        let missing = ShardMap::from_file("/no/such/map.toml").unwrap_err().to_string();
        assert!(missing.starts_with("it can't be read: "), "{missing}");
    }
}
