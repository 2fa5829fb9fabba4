//! What one shard has of the keys, by which map.
use crate::model::row::END;
use std::fmt;
use std::num::NonZeroU64;
use std::ops::Range;
use std::str::FromStr;

/// One past the last point, where the last shard ends.
const TOP: u64 = END + 1;

/// What one shard has of the keys, and the version of the map by which it does. A server that
/// serves a shard, and a client of it, compare theirs before anything else is sent.
///
/// As text it is `FIRST..END@VERSION`, such as `0..500000@3`; the last shard's is `500000..@3`.
#[derive(Clone, Copy, Debug, PartialEq, Eq)]
pub struct ShardBounds {
    first: u64,
    end: u64,
    map_version: NonZeroU64,
}

/// Bounds of no shard: the first key is not below the end, the end is above 2^63, or the version is
/// not a number from 1 on.
#[derive(Clone, Copy, Debug, PartialEq, Eq)]
pub struct BadShardBounds;

impl ShardBounds {
    /// The shard with these keys, by the map of this version. The last shard ends at 2^63.
    ///
    /// # Errors
    ///
    /// `BadShardBounds` if the range is empty or ends above 2^63.
    pub fn new(keys: Range<u64>, map_version: NonZeroU64) -> Result<ShardBounds, BadShardBounds> {
        let Range { start: first, end } = keys;
        let is_shard = first < end && end <= TOP;
        is_shard.then_some(ShardBounds { first, end, map_version }).ok_or(BadShardBounds)
    }

    /// The keys of the shard.
    #[must_use]
    pub fn keys(self) -> Range<u64> {
        self.first..self.end
    }

    /// The same keys, by the map of this version.
    #[must_use]
    pub fn with_version(self, map_version: NonZeroU64) -> ShardBounds {
        ShardBounds { map_version, ..self }
    }

    /// The version of the map.
    #[must_use]
    pub fn map_version(self) -> NonZeroU64 {
        self.map_version
    }
}

impl FromStr for ShardBounds {
    type Err = BadShardBounds;

    fn from_str(text: &str) -> Result<ShardBounds, BadShardBounds> {
        let (keys, version) = text.split_once('@').ok_or(BadShardBounds)?;
        let (first, end) = keys.split_once("..").ok_or(BadShardBounds)?;
        let end = if end.is_empty() { Some(TOP) } else { number(end) };
        let (first, end) = number(first).zip(end).ok_or(BadShardBounds)?;
        let version = number(version).and_then(NonZeroU64::new).ok_or(BadShardBounds)?;
        ShardBounds::new(first..end, version)
    }
}

/// A number of digits only.
fn number(text: &str) -> Option<u64> {
    let is_number = text.bytes().all(|digit| digit.is_ascii_digit());
    text.parse().ok().filter(|_| is_number)
}

impl fmt::Display for ShardBounds {
    fn fmt(&self, f: &mut fmt::Formatter<'_>) -> fmt::Result {
        match self.end {
            TOP => write!(f, "{}..@{}", self.first, self.map_version),
            end => write!(f, "{}..{end}@{}", self.first, self.map_version),
        }
    }
}

impl fmt::Display for BadShardBounds {
    fn fmt(&self, f: &mut fmt::Formatter<'_>) -> fmt::Result {
        f.write_str(
            "a shard is FIRST..END@VERSION, such as 0..500000@3, or 500000..@3 if it is the last: \
             FIRST is below END, END is at most 2^63, and the map's version is 1 or more",
        )
    }
}

impl std::error::Error for BadShardBounds {}

#[cfg(test)]
mod tests {
    use super::*;

    #[test]
    fn bounds_are_read_as_they_are_written() {
        for text in ["0..500000@3", "500000..@3", "0..@1", "9223372036854775807..@2"] {
            assert_eq!(text.parse::<ShardBounds>().unwrap().to_string(), text);
        }
        let whole: ShardBounds = "0..9223372036854775808@7".parse().unwrap();
        assert_eq!((whole.keys(), whole.map_version().get()), (0..TOP, 7));
        assert_eq!(whole.to_string(), "0..@7");
        let later = whole.with_version(NonZeroU64::new(8).unwrap());
        assert_eq!(later.to_string(), "0..@8");
    }

    #[test]
    fn what_is_no_shard_is_refused() {
        for text in [
            "",
            "0..5",
            "0..5@",
            "0..5@0",
            "0..5@-1",
            "5..5@1",
            "6..5@1",
            "..5@1",
            "+0..5@1",
            "0-5@1",
            "0..9223372036854775809@1",
            "0..5@18446744073709551616",
        ] {
            assert_eq!(text.parse::<ShardBounds>(), Err(BadShardBounds), "{text}");
        }
    }
}
