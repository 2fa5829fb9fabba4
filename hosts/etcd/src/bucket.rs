//! Rows in etcd: many in one key, so that a full table is loaded in a moment.
use krl::Value;
use krl::operate::Room;
use krl::store::Write;
use std::collections::BTreeMap;

/// The fewest buckets of a store. A table that fills the standard room has 64 rows in each, some
/// 2,600 bytes.
pub(crate) const FEWEST: usize = 1024;

/// This many rows, or fewer, are in a bucket of a greater room that is full. A write of one row
/// stores its whole bucket, and etcd keeps each revision for some minutes.
const ROWS_OF_A_GREAT_ROOM: usize = 16;

/// The rows of one bucket, by key.
pub(crate) type Bucket = BTreeMap<u64, Value>;

/// How many buckets a store of this room has.
pub(crate) fn count_for(room: Room) -> usize {
    if room <= Room::default() {
        return FEWEST;
    }
    room.rows().div_ceil(ROWS_OF_A_GREAT_ROOM).next_power_of_two()
}

/// Whether a store may have this many buckets.
pub(crate) fn is_count(count: usize) -> bool {
    (FEWEST..=count_for(Room::MAX)).contains(&count)
}

/// The rows of a store, in buckets.
///
/// There may be any number of buckets, and one may be added at a time: it takes rows of one other
/// bucket, and all others stay as they are (linear hashing).
#[derive(Debug, Default)]
pub(crate) struct Buckets {
    salt: u64,
    buckets: Vec<Bucket>,
}

impl Buckets {
    /// This many empty ones, of a store with this salt.
    pub fn empty(salt: u64, count: usize) -> Buckets {
        Buckets { salt, buckets: vec![Bucket::new(); count] }
    }

    pub fn of_rows(salt: u64, count: usize, rows: &BTreeMap<u64, Value>) -> Buckets {
        let mut buckets = Buckets::empty(salt, count);
        for (key, value) in rows {
            let number = buckets.number_of(*key);
            buckets.buckets[number].insert(*key, *value);
        }
        buckets
    }

    pub fn count(&self) -> usize {
        self.buckets.len()
    }

    /// The rows of the bucket of this number, if there is one.
    pub fn get(&self, number: usize) -> Option<&Bucket> {
        self.buckets.get(number)
    }

    pub fn iter(&self) -> impl Iterator<Item = &Bucket> {
        self.buckets.iter()
    }

    /// The number of the bucket that has the key, or would have it.
    pub fn number_of(&self, key: u64) -> usize {
        number_of(mix(key, self.salt), self.count())
    }

    /// Makes the write, and returns which bucket it changes.
    pub fn write(&mut self, write: Write) -> usize {
        let number = self.number_of(write.key());
        let rows = &mut self.buckets[number];
        match write {
            Write::Insert(row) | Write::Put(row) => rows.insert(row.key, row.value),
            Write::Delete(key) => rows.remove(&key),
        };
        number
    }

    /// Keeps only the rows of these keys, and returns the numbers of the buckets that had others.
    pub fn retain(&mut self, is_kept: impl Fn(u64) -> bool) -> Vec<usize> {
        let mut keep = |(number, rows): (usize, &mut Bucket)| {
            let before = rows.len();
            rows.retain(|key, _| is_kept(*key));
            (rows.len() < before).then_some(number)
        };
        self.buckets.iter_mut().enumerate().filter_map(&mut keep).collect()
    }

    /// The number of the bucket from which the next one that is added takes rows.
    pub fn splits_next(&self) -> usize {
        self.count() - (self.count() + 1).next_power_of_two() / 2
    }

    /// Adds a bucket, with the rows that are its own from now on. Returns whether there are any.
    pub fn add(&mut self) -> bool {
        let (from, number, salt) = (self.splits_next(), self.count(), self.salt);
        let is_moved = |key: u64| number_of(mix(key, salt), number + 1) == number;
        let rows = std::mem::take(&mut self.buckets[from]);
        let (moved, kept) = rows.into_iter().partition(|(key, _)| is_moved(*key));
        self.buckets[from] = kept;
        self.buckets.push(moved);
        !self.buckets[number].is_empty()
    }

    /// Takes the rows of the bucket of this number, if there is such a bucket, and the bytes are
    /// one: its keys ascend and are its own.
    pub fn decode(&mut self, number: usize, bytes: &[u8]) -> Option<()> {
        let rows = decode(bytes)?;
        let are_own = rows.keys().all(|key| self.number_of(*key) == number);
        *self.buckets.get_mut(number).filter(|_| are_own)? = rows;
        Some(())
    }
}

/// A key mixed with the store's salt, so that no pattern of keys fills one bucket, and nobody can
/// choose keys that do.
fn mix(key: u64, salt: u64) -> u64 {
    // The end of SplitMix64.
    let mut mixed = key.wrapping_add(salt);
    mixed = (mixed ^ (mixed >> 30)).wrapping_mul(0xbf58_476d_1ce4_e5b9);
    mixed = (mixed ^ (mixed >> 27)).wrapping_mul(0x94d0_49bb_1331_11eb);
    mixed ^ (mixed >> 31)
}

/// The bucket of a mixed key, of `count` buckets. One that is not there yet has its rows in the
/// bucket from which it will take them.
fn number_of(mixed: u64, count: usize) -> usize {
    let all = count.next_power_of_two();
    let number = usize::try_from(mixed % all as u64).unwrap_or(0);
    if number < count { number } else { number - all / 2 }
}

/// How many bytes a bucket has.
pub(crate) fn length(bucket: &Bucket) -> usize {
    bucket.values().map(|value| LENGTH_WITHOUT_VALUE + value.as_bytes().len()).sum()
}

/// A row has a key of eight bytes and the number of bytes of its value.
const LENGTH_WITHOUT_VALUE: usize = 9;

/// The most bytes of a row.
pub(crate) const LONGEST_ROW: usize = LENGTH_WITHOUT_VALUE + krl::MAX_VALUE_BYTES;

/// A bucket as bytes: for each row the key in eight bytes, the highest first, the number of bytes
/// of the value, and these.
pub(crate) fn encode(bucket: &Bucket) -> Vec<u8> {
    let mut bytes = Vec::with_capacity(length(bucket));
    for (key, value) in bucket {
        let value = value.as_bytes();
        bytes.extend_from_slice(&key.to_be_bytes());
        bytes.extend(u8::try_from(value.len()));
        bytes.extend_from_slice(value);
    }
    bytes
}

/// The rows of the bytes, if they are those of a bucket: the keys ascend.
fn decode(bytes: &[u8]) -> Option<Bucket> {
    let (mut rows, mut rest) = (Bucket::new(), bytes);
    while !rest.is_empty() {
        let (key, tail) = rest.split_first_chunk()?;
        let (length, tail) = tail.split_first()?;
        let (value, tail) = tail.split_at_checked((*length).into())?;
        let key = u64::from_be_bytes(*key);
        let ascends = rows.last_key_value().is_none_or(|(last, _)| *last < key);
        if !ascends || key >= krl::END {
            return None;
        }
        rows.insert(key, Value::try_from(value).ok()?);
        rest = tail;
    }
    Some(rows)
}

#[cfg(test)]
mod tests {
    use super::*;

    const SALT: u64 = 77;

    #[test]
    fn buckets_are_read_as_they_are_written() {
        let mut buckets = Buckets::empty(SALT, FEWEST);
        let number = buckets.number_of(10);
        let keys = (10..1_000_000).filter(|key| buckets.number_of(*key) == number).take(40);
        let rows: Bucket = keys
            .zip(0u8..)
            .map(|(key, place)| {
                let bytes = vec![place; usize::from(place % 33)];
                (key, Value::try_from(&bytes[..]).unwrap())
            })
            .collect();
        assert_eq!(rows.len(), 40);
        let bytes = encode(&rows);
        assert_eq!(bytes.len(), length(&rows));
        assert_eq!(buckets.decode(number, &bytes), Some(()));
        assert_eq!(buckets.get(number), Some(&rows));
        assert_eq!(buckets.decode(number + 1, &bytes), None, "its keys are of another bucket");
        assert_eq!(buckets.decode(number, &bytes[..bytes.len() - 1]), None);
        let twice = [&bytes[..], &bytes[..]].concat();
        assert_eq!(buckets.decode(number, &twice), None, "its keys ascend");
        assert_eq!(buckets.decode(number, &[]), Some(()));
        assert_eq!(buckets.decode(FEWEST, &[]), None, "there is no such bucket");
    }

    #[test]
    fn keys_are_spread_evenly() {
        for step in [1, 2, 10, 64, 1024, 1 << 20, (1 << 46) - 1] {
            let keys = (0..65_536).map(|place: u64| (place * step, Value::from(place)));
            let buckets = Buckets::of_rows(5, FEWEST, &keys.collect());
            let most = buckets.iter().map(BTreeMap::len).max().unwrap();
            assert!(most <= 200, "a step of {step} puts {most} rows into one bucket");
        }
    }

    #[test]
    fn a_bucket_that_is_added_takes_its_rows_of_one_other() {
        let rows: Bucket = (0..10_000).map(|key| (key * 3, Value::from(key))).collect();
        let mut buckets = Buckets::of_rows(SALT, FEWEST, &rows);
        for count in FEWEST + 1..=4 * FEWEST {
            let from = buckets.splits_next();
            let before = buckets.get(from).unwrap().clone();
            let has_rows = buckets.add();
            let added = buckets.get(count - 1).unwrap();
            assert_eq!((buckets.count(), has_rows), (count, !added.is_empty()));
            assert!(added.keys().all(|key| buckets.number_of(*key) == count - 1));
            let both = added.len() + buckets.get(from).unwrap().len();
            assert_eq!(both, before.len(), "bucket {count} takes rows of {from}");
        }
        let grown = Buckets::of_rows(SALT, 4 * FEWEST, &rows);
        assert_eq!(buckets.buckets, grown.buckets);
    }

    #[test]
    fn a_greater_room_has_more_buckets() {
        let count = |rows| count_for(Room::of(rows).unwrap());
        assert_eq!([1, 65_536].map(count), [FEWEST; 2]);
        assert_eq!([65_537, 131_072, 1_048_576].map(count), [8_192, 8_192, 65_536]);
        assert!(is_count(FEWEST) && is_count(3 * FEWEST + 5) && is_count(65_536));
        assert!(!is_count(FEWEST - 1) && !is_count(65_537));
    }
}
