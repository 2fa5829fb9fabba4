//! Which shard has a key, and which part of a range each shard has: the library computes it.
use crate::ffi::{self, done};
use crate::model::code::Code;
use std::ops::Range;

/// The most shards.
pub(crate) const MAX_SHARDS: usize = 64;

/// What one shard has of a range.
#[derive(Clone, Debug, PartialEq, Eq)]
pub struct Part {
    /// The shard, from 0.
    pub shard: usize,
    /// Its keys. There is at least one.
    pub keys: Range<u64>,
}

/// All points, cut into shards.
#[derive(Clone, Debug, PartialEq, Eq)]
pub(crate) struct Partition {
    /// Where each shard begins but the first one, which begins at 0.
    bounds: Vec<u64>,
}

impl Partition {
    /// Error by `BadShards` if the bounds make no shards.
    pub fn new(bounds: Vec<u64>) -> Result<Partition, Code> {
        let partition = Partition { bounds };
        partition.shard_of(0)?;
        Ok(partition)
    }

    /// The shard of a point.
    pub fn shard_of(&self, point: u64) -> Result<usize, Code> {
        let (at, length) = (self.bounds.as_ptr(), self.bounds.len());
        // SAFETY: that many bounds are there to be read.
        place(done(unsafe { ffi::krl_shard_of(at, length, point) })?)
    }

    /// The parts of a range that is not empty, in ascending order.
    pub fn parts(&self, keys: &Range<u64>) -> Result<Vec<Part>, Code> {
        let Range { start, end } = *keys;
        let mut parts = [ffi::RawPart { shard: 0, lo: 0, hi: 0 }; MAX_SHARDS];
        let (at, length) = (self.bounds.as_ptr(), self.bounds.len());
        let (to, room) = (parts.as_mut_ptr(), parts.len());
        // SAFETY: that many bounds are there to be read, and that much room to be written to.
        let count = done(unsafe { ffi::krl_parts(at, length, start, end, to, room) })?;
        parts.iter().take(place(count)?).map(Part::of).collect()
    }
}

impl Part {
    fn of(raw: &ffi::RawPart) -> Result<Part, Code> {
        Ok(Part { shard: place(raw.shard)?, keys: raw.lo..raw.hi })
    }
}

fn place(number: u64) -> Result<usize, Code> {
    usize::try_from(number).map_err(|_| Code::OutOfMemory)
}

#[cfg(test)]
mod tests {
    use super::*;

    const END: u64 = crate::model::row::END;

    #[test]
    fn bounds_that_make_no_shards() {
        let many: Vec<u64> = (1..=64).collect();
        for bounds in [&[0][..], &[9, 9], &[9, 8], &[END + 1], &[u64::MAX], &many] {
            assert_eq!(Partition::new(bounds.to_vec()), Err(Code::BadShards), "{bounds:?}");
        }
        for bounds in [&[][..], &[1], &[END], &many[1..]] {
            assert!(Partition::new(bounds.to_vec()).is_ok(), "{bounds:?}");
        }
    }

    #[test]
    fn parts_are_the_range_and_lie_in_their_shards() {
        let bounds = [10, 11, 20];
        let partition = Partition::new(bounds.to_vec()).unwrap();
        let shard_of = |key| bounds.iter().filter(|bound| **bound <= key).count();
        for lo in 0..30 {
            assert_eq!(partition.shard_of(lo), Ok(shard_of(lo)));
            for hi in lo + 1..=30 {
                let parts = partition.parts(&(lo..hi)).unwrap().into_iter();
                let keys = parts.flat_map(|part| part.keys.map(move |key| (part.shard, key)));
                let wanted: Vec<_> = (lo..hi).map(|key| (shard_of(key), key)).collect();
                assert_eq!(keys.collect::<Vec<_>>(), wanted);
            }
        }
        assert_eq!(partition.parts(&(5..5)), Err(Code::BadSpan));
        assert_eq!(partition.shard_of(END), Ok(3));
        assert_eq!(partition.shard_of(END + 1), Err(Code::BadPoint));
    }
}
