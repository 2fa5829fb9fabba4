//! The rows that a process keeps of a table, by their stripes.
use crate::held::{Held, may_return};
use crate::key::{Key, Stripe};
use crate::rows::Rows;
use crate::statistics::Counter;
use crate::worth::Worth;
use smallvec::SmallVec;
use std::mem;
use std::sync::atomic::{AtomicUsize, Ordering};
use std::sync::{PoisonError, RwLock, RwLockReadGuard, RwLockWriteGuard};

/// Rows by stripe and key. Those of one stripe are held by the same tenures.
#[derive(Debug)]
pub(crate) struct Memory {
    stripes: Box<[RwLock<Kept>]>,
    /// The most bytes.
    limit: usize,
    bytes: AtomicUsize,
    keys: AtomicUsize,
    /// The stripe that is looked at next if room is needed.
    hand: AtomicUsize,
    pub evictions: Counter,
}

#[derive(Debug, Default)]
struct Kept {
    /// What the stripe was held by when its rows were loaded. There are none if it is `None`.
    held: Option<Held>,
    rows: RowsByKey,
    worth: Worth,
}

/// Rows in the order of their keys. Those of the first key lie in place: most stripes have one.
#[derive(Debug, Default)]
struct RowsByKey(SmallVec<[(Key, Rows); 1]>);

impl RowsByKey {
    fn place(&self, key: &Key) -> Result<usize, usize> {
        self.0.binary_search_by(|(other, _)| other.cmp(key))
    }

    fn get(&self, key: &Key) -> Option<&Rows> {
        Some(&self.0[self.place(key).ok()?].1)
    }

    /// Returns what the key had before.
    fn insert(&mut self, key: &Key, rows: Rows) -> Option<Rows> {
        match self.place(key) {
            Ok(place) => Some(mem::replace(&mut self.0[place].1, rows)),
            Err(place) => {
                self.0.insert(place, (key.clone(), rows));
                None
            }
        }
    }
}

impl Memory {
    /// Memory for a table of this many stripes.
    pub fn new(stripes: u32, limit: usize) -> Memory {
        let stripes = (0..stripes).map(|_| RwLock::default()).collect();
        let (bytes, keys, hand) = <(AtomicUsize, AtomicUsize, AtomicUsize)>::default();
        Memory { stripes, limit, bytes, keys, hand, evictions: Counter::default() }
    }

    /// The rows of the key if they are here, and what they were held by when they were loaded.
    pub fn find(&self, stripe: Stripe, key: &Key) -> Option<(Held, Rows)> {
        let kept = self.read(stripe);
        Some((kept.held?, kept.rows.get(key)?.clone()))
    }

    /// Keeps the rows of a key, which were loaded while the stripe was held by this. What was kept
    /// of the stripe by something else is dropped.
    pub fn keep(&self, stripe: Stripe, held: Held, key: &Key, rows: Rows) {
        let mut kept = self.write(stripe);
        self.take_lost(&mut kept, Some(held));
        kept.held = Some(held);
        self.bytes.fetch_add(rows.size(key), Ordering::Relaxed);
        self.keys.fetch_add(1, Ordering::Relaxed);
        if let Some(older) = kept.rows.insert(key, rows) {
            self.note_dropped(key, &older);
        }
        drop(kept);
        self.make_room();
    }

    /// Notes that the rows of a key were not here, or may no longer be returned as the stripe is
    /// held by `now`. Returns the keys that are to be loaded for that: none if the stripe is not
    /// worth being held, otherwise the key, and those that were read before the stripe was lost.
    pub fn note_miss(&self, stripe: Stripe, now: Option<Held>, key: &Key) -> Vec<Key> {
        let mut kept = self.write(stripe);
        let mut keys = self.take_lost(&mut kept, now);
        if !kept.worth.note_miss() {
            return Vec::new();
        }
        if !keys.contains(key) {
            keys.push(key.clone());
        }
        keys
    }

    /// Drops the rows of a stripe if they may no longer be returned as it is held by `now`. Returns
    /// the keys of those that were read.
    pub fn note_loss(&self, stripe: Stripe, now: Option<Held>) -> Vec<Key> {
        self.take_lost(&mut self.write(stripe), now)
    }

    fn take_lost(&self, kept: &mut Kept, now: Option<Held>) -> Vec<Key> {
        if kept.held.is_none_or(|held| may_return(held, now)) {
            return Vec::new();
        }
        kept.held = None;
        let mut read = Vec::new();
        for (key, rows) in mem::take(&mut kept.rows).0 {
            self.note_dropped(&key, &rows);
            if rows.mark().is_set() {
                read.push(key);
            }
        }
        kept.worth.note_loss(!read.is_empty());
        read
    }

    /// Drops rows that were not read lately, until the others fit. Stripes are looked at in turn: at
    /// the first look, rows that were read since the last one stay.
    fn make_room(&self) {
        for _ in 0..2 * self.stripes.len() {
            if self.fits() {
                return;
            }
            let place = self.hand.fetch_add(1, Ordering::Relaxed) % self.stripes.len();
            let mut kept = self.stripes[place].write().unwrap_or_else(PoisonError::into_inner);
            kept.rows.0.retain(|(key, rows)| {
                let stays = self.fits() || rows.mark().take();
                if !stays {
                    self.note_dropped(key, rows);
                    self.evictions.add(1);
                }
                stays
            });
        }
    }

    fn note_dropped(&self, key: &Key, rows: &Rows) {
        self.bytes.fetch_sub(rows.size(key), Ordering::Relaxed);
        self.keys.fetch_sub(1, Ordering::Relaxed);
    }

    fn fits(&self) -> bool {
        self.bytes() <= self.limit
    }

    /// About how many bytes are used.
    pub fn bytes(&self) -> usize {
        self.bytes.load(Ordering::Relaxed)
    }

    /// Of how many keys there are rows, or is known that there are none.
    pub fn keys(&self) -> usize {
        self.keys.load(Ordering::Relaxed)
    }

    fn read(&self, stripe: Stripe) -> RwLockReadGuard<'_, Kept> {
        self.stripes[stripe.0 as usize].read().unwrap_or_else(PoisonError::into_inner)
    }

    fn write(&self, stripe: Stripe) -> RwLockWriteGuard<'_, Kept> {
        self.stripes[stripe.0 as usize].write().unwrap_or_else(PoisonError::into_inner)
    }
}

#[cfg(test)]
mod tests {
    use super::*;
    use crate::held::MarkTenures;
    use crate::row::tests::row;

    const MARKS: MarkTenures = MarkTenures { cluster: 1, table: 2 };
    const HELD: Held = Held { definition: 1, marks: MARKS, stripe: 3 };
    const LATER: Held = Held { stripe: 4, ..HELD };
    const STRIPE: Stripe = Stripe(3);

    /// Rows of about a thousand bytes.
    fn rows() -> Rows {
        Rows::new(vec![row(&"x".repeat(800), Some(1))])
    }

    fn keep(memory: &Memory, stripe: Stripe, held: Held, key: i64) {
        memory.keep(stripe, held, &key.into(), rows());
    }

    fn read(memory: &Memory, stripe: Stripe, key: i64) -> Option<Held> {
        let (held, rows) = memory.find(stripe, &key.into())?;
        rows.mark().set();
        Some(held)
    }

    #[test]
    fn what_is_kept_is_found_with_what_it_was_held_by() {
        let memory = Memory::new(16, 1 << 20);
        keep(&memory, STRIPE, HELD, 3);
        memory.keep(STRIPE, HELD, &19.into(), Rows::new(Vec::new()));
        let (held, found) = memory.find(STRIPE, &3.into()).unwrap();
        assert_eq!((held, found.as_slice().len()), (HELD, 1));
        let (_, found) = memory.find(STRIPE, &19.into()).unwrap();
        assert_eq!(found.as_slice().len(), 0, "there is no row");
        assert!(memory.find(STRIPE, &35.into()).is_none());
        assert_eq!(memory.keys(), 2);
        keep(&memory, STRIPE, HELD, 3);
        assert_eq!(memory.keys(), 2);
    }

    #[test]
    fn what_was_held_by_something_else_is_dropped() {
        let memory = Memory::new(16, 1 << 20);
        keep(&memory, STRIPE, HELD, 3);
        keep(&memory, STRIPE, LATER, 19);
        assert_eq!(read(&memory, STRIPE, 3), None);
        assert_eq!(read(&memory, STRIPE, 19), Some(LATER));
        assert_eq!(memory.keys(), 1);
        assert_eq!(memory.note_loss(STRIPE, Some(LATER)), []);
        assert_eq!(memory.note_loss(STRIPE, None), [19.into()]);
        assert_eq!((memory.keys(), memory.bytes()), (0, 0));
    }

    #[test]
    fn a_miss_loads_what_was_read_before_the_loss() {
        let memory = Memory::new(16, 1 << 20);
        for key in [3, 19, 35] {
            keep(&memory, STRIPE, HELD, key);
        }
        read(&memory, STRIPE, 19);
        read(&memory, STRIPE, 35);
        let mut keys = memory.note_miss(STRIPE, Some(LATER), &35.into());
        keys.sort_by_key(ToString::to_string);
        assert_eq!(keys, [19.into(), 35.into()]);
        assert_eq!(memory.note_miss(STRIPE, Some(LATER), &3.into()), [3.into()]);
    }

    #[test]
    fn what_is_lost_unread_is_not_loaded_at_each_miss() {
        let memory = Memory::new(16, 1 << 20);
        let miss = || memory.note_miss(STRIPE, None, &3.into()).len();
        assert_eq!(miss(), 1);
        keep(&memory, STRIPE, HELD, 3);
        assert_eq!([miss(), miss()], [0, 1], "it was lost unread");
        keep(&memory, STRIPE, HELD, 3);
        read(&memory, STRIPE, 3);
        assert_eq!([miss(), miss()], [1, 1], "it was read");
    }

    #[test]
    fn the_limit_is_kept_and_what_is_read_stays() {
        let memory = Memory::new(16, 64 << 10);
        for key in 0..1000 {
            keep(&memory, Stripe(u32::try_from(key % 16).unwrap()), HELD, key);
            assert_eq!(read(&memory, Stripe(0), 0), Some(HELD), "at {key}");
        }
        assert!(memory.bytes() <= 64 << 10 && memory.keys() > 40, "{} keys", memory.keys());
        assert_eq!(memory.evictions.get(), 1000 - memory.keys() as u64);
    }

    #[test]
    fn a_row_that_is_larger_than_the_limit_is_not_kept() {
        let memory = Memory::new(16, 100);
        keep(&memory, STRIPE, HELD, 3);
        assert_eq!((memory.keys(), memory.bytes()), (0, 0));
    }
}
