//! Which shard a store is of.
use crate::model::shard_bounds::{BadShardBounds, ShardBounds};
use std::fmt;
use std::str::FromStr;

/// Which shard a store belongs to, as the store keeps it.
///
/// As text it is the shard's bounds, followed by ` sealed` if it is: `0..500000@3 sealed`.
#[derive(Clone, Copy, Debug, PartialEq, Eq)]
pub struct KeptShard {
    /// The keys, and the version of the map in which the shard became what it is.
    pub bounds: ShardBounds,
    /// No server may start on the store: another store has these rows, or may have them.
    pub is_sealed: bool,
}

/// What a store may not become: its next shard has other keys, or a version that is not greater
/// than the store's own.
#[derive(Clone, Copy, Debug, PartialEq, Eq)]
pub struct NotLater {
    /// What it is.
    pub kept: KeptShard,
    /// What it was to become.
    pub next: KeptShard,
}

const SEALED: &str = " sealed";

impl KeptShard {
    /// The shard of a store on which a server may start.
    #[must_use]
    pub fn open(bounds: ShardBounds) -> KeptShard {
        KeptShard { bounds, is_sealed: false }
    }

    /// The shard of a store on which no server may start.
    #[must_use]
    pub fn sealed(bounds: ShardBounds) -> KeptShard {
        KeptShard { bounds, is_sealed: true }
    }

    /// Whether a store of this shard may become one of the next: of a greater version, with keys
    /// that it has already. A sealed store may be opened as it is.
    ///
    /// # Errors
    ///
    /// `NotLater` otherwise.
    pub fn judge_next(self, next: KeptShard) -> Result<(), NotLater> {
        let (own, keys) = (self.bounds.keys(), next.bounds.keys());
        let is_later = next.bounds.map_version() > self.bounds.map_version();
        let is_inside = own.start <= keys.start && keys.end <= own.end;
        let is_opened = self.is_sealed && next == KeptShard::open(self.bounds);
        let may = self == next || is_opened || is_later && is_inside;
        may.then_some(()).ok_or(NotLater { kept: self, next })
    }
}

impl FromStr for KeptShard {
    type Err = BadShardBounds;

    fn from_str(text: &str) -> Result<KeptShard, BadShardBounds> {
        match text.strip_suffix(SEALED) {
            Some(bounds) => bounds.parse().map(KeptShard::sealed),
            None => text.parse().map(KeptShard::open),
        }
    }
}

impl fmt::Display for KeptShard {
    fn fmt(&self, f: &mut fmt::Formatter<'_>) -> fmt::Result {
        write!(f, "{}{}", self.bounds, if self.is_sealed { SEALED } else { "" })
    }
}

impl fmt::Display for NotLater {
    fn fmt(&self, f: &mut fmt::Formatter<'_>) -> fmt::Result {
        let NotLater { kept, next } = self;
        write!(
            f,
            "the store is of the shard {kept}, and can't become one of {next}: its next shard has a \
             greater version, and no key that it lacks"
        )
    }
}

impl std::error::Error for NotLater {}

#[cfg(test)]
mod tests {
    use super::*;

    #[test]
    fn it_is_read_as_it_is_written() {
        for text in ["0..500000@3", "500000..@3 sealed", "0..@1 sealed"] {
            assert_eq!(text.parse::<KeptShard>().unwrap().to_string(), text);
        }
        for text in ["", " sealed", "0..5@1  sealed", "0..5@1 Sealed", "0..5@0 sealed"] {
            assert_eq!(text.parse::<KeptShard>(), Err(BadShardBounds), "{text}");
        }
    }

    #[test]
    fn a_store_becomes_only_a_later_shard_with_keys_of_its_own() {
        for (kept, next, may) in [
            ("0..10@3", "0..10@3", true),
            ("0..10@3", "0..5@4", true),
            ("0..10@3", "5..10@9", true),
            ("0..10@3", "0..10@4 sealed", true),
            ("0..10@4 sealed", "0..10@4", true),
            ("0..10@4 sealed", "0..10@5", true),
            ("0..10@3", "0..5@3", false),
            ("0..10@3", "0..5@2", false),
            ("0..10@3", "0..10@3 sealed", false),
            ("0..10@3", "0..11@4", false),
            ("5..10@3", "4..10@4", false),
            ("0..10@4 sealed", "0..5@4", false),
            ("0..10@4 sealed", "0..10@3", false),
        ] {
            let [kept, next] = [kept, next].map(|text| text.parse::<KeptShard>().unwrap());
            let expected = if may { Ok(()) } else { Err(NotLater { kept, next }) };
            assert_eq!(kept.judge_next(next), expected);
        }
    }
}
