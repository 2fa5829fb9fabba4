//! How a shard is spelled in the frames of the hosts. `docs/STREAM.md` has the table.
use crate::model::refusal::Refusal;
use crate::model::shard_bounds::ShardBounds;
use crate::wire::numbers::{self, bytes_of};
use std::num::NonZeroU64;

/// The three numbers of a shard: its first key, its end, and the version of its map. Those of none
/// are 0.
pub(crate) fn spelled(shard: Option<ShardBounds>) -> Vec<u8> {
    bytes_of(shard.map_or([0; 3], |shard| {
        let keys = shard.keys();
        [keys.start, keys.end, shard.map_version().get()]
    }))
}

/// The shard of these bytes. A later release may send more after them.
pub(crate) fn read(bytes: &[u8]) -> Option<ShardBounds> {
    let [first, end, version] = numbers::read(bytes)?;
    ShardBounds::new(first..end, NonZeroU64::new(version)?).ok()
}

/// The refusal of a server that serves the shard of these bytes, or none if all are 0.
pub(crate) fn read_refusal(bytes: &[u8]) -> Option<Refusal> {
    if bytes.starts_with(&spelled(None)) {
        return Some(Refusal::OtherShard(None));
    }
    read(bytes).map(|served| Refusal::OtherShard(Some(served)))
}

#[cfg(test)]
mod tests {
    use super::*;

    #[test]
    fn what_is_spelled_is_read() {
        for text in ["0..5@1", "500000..@18446744073709551615"] {
            let shard: ShardBounds = text.parse().unwrap();
            let bytes = spelled(Some(shard));
            assert_eq!((bytes.len(), read(&bytes)), (24, Some(shard)));
            assert_eq!(read(&[&bytes[..], b"more"].concat()), Some(shard));
            assert_eq!(read_refusal(&bytes), Some(Refusal::OtherShard(Some(shard))));
            assert!((0..24).all(|length| read_refusal(&bytes[..length]).is_none()));
        }
        let none = Some(Refusal::OtherShard(None));
        assert_eq!((read(&[0; 24]), read_refusal(&[0; 24])), (None, none));
        let empty = [[5_u64, 5, 1], [6, 5, 1], [0, 5, 0]];
        for numbers in empty {
            assert_eq!(read_refusal(&bytes_of(numbers)), None, "{numbers:?}");
        }
    }
}
