//! What a client has lost of what it held, and what it has written there: by this a reader finds
//! that a range stayed as it was.
use std::iter::Sum;
use std::ops::Range;
use std::sync::OnceLock;

/// The last loss of a key is kept by the key modulo this: a loss of one key counts as a loss of all
/// keys in the same place.
const PLACES: usize = 1 << 14;

/// Stands for the time for which a client holds a range and the range stays as it is:
/// [`Client::tenure`] returns it.
///
/// [`Client::tenure`]: crate::Client::tenure
#[derive(Clone, Copy, Debug, PartialEq, Eq, Hash)]
pub struct Tenure(u64);

/// The losses of a client, which are numbered from 1 on. A loss changes it at the same moment as
/// what the client knows, so no reader finds one without the other.
#[derive(Debug, Default)]
pub(crate) struct Losses {
    count: u64,
    /// The last one that counts as a loss of every key.
    of_all: u64,
    /// The last one of each place. There is none before a reader has asked, and none without memory
    /// for it: until then each loss counts as one of every key.
    by_place: OnceLock<Vec<u64>>,
}

impl Sum for Tenure {
    /// The tenure of several parts of a range. That of a part never becomes less: so the sum is the
    /// same only if each part has the same one.
    fn sum<I: Iterator<Item = Tenure>>(parts: I) -> Tenure {
        Tenure(parts.map(u64::from).sum())
    }
}

impl From<u64> for Tenure {
    /// The tenure that has this number.
    fn from(number: u64) -> Tenure {
        Tenure(number)
    }
}

impl From<Tenure> for u64 {
    /// A number that is equal for equal tenures only.
    fn from(tenure: Tenure) -> u64 {
        tenure.0
    }
}

impl Losses {
    /// The keys are lost, or written.
    pub fn note(&mut self, keys: &Range<u64>) {
        self.count += 1;
        match self.by_place.get_mut().filter(|places| !places.is_empty()) {
            Some(places) => {
                for part in places_of(keys) {
                    places[part].fill(self.count);
                }
            }
            None => self.of_all = self.count,
        }
    }

    pub fn note_all(&mut self) {
        self.count += 1;
        self.of_all = self.count;
    }

    /// How many there were: no tenure is greater.
    pub fn count(&self) -> u64 {
        self.count
    }

    /// The tenure of keys that the client holds now.
    pub fn tenure(&self, keys: &Range<u64>) -> Tenure {
        let places = self.by_place.get_or_init(no_losses);
        let last = |part: Range<usize>| places.get(part)?.iter().max().copied();
        let of_keys = places_of(keys).into_iter().filter_map(last).max();
        Tenure(self.of_all.max(of_keys.unwrap_or(0)))
    }
}

/// No loss in any place; no places, if there is no memory for them.
fn no_losses() -> Vec<u64> {
    let mut places = Vec::new();
    if places.try_reserve_exact(PLACES).is_ok() {
        places.resize(PLACES, 0);
    }
    places
}

/// The places of the keys: after the last place comes the first one.
fn places_of(keys: &Range<u64>) -> [Range<usize>; 2] {
    let length = keys.end.saturating_sub(keys.start);
    let length = usize::try_from(length).map_or(PLACES, |length| length.min(PLACES));
    let first = usize::try_from(keys.start % PLACES as u64).unwrap_or(0);
    let end = first + length;
    [first..end.min(PLACES), 0..end.saturating_sub(PLACES)]
}

#[cfg(test)]
mod tests {
    use super::*;

    const LENGTH: u64 = PLACES as u64;

    /// Losses that a reader has asked for.
    fn read() -> Losses {
        let losses = Losses::default();
        losses.tenure(&(0..1));
        losses
    }

    #[test]
    fn only_what_meets_the_range_ends_its_tenure() {
        let cases = [
            (10..20, 9..10, false),
            (10..20, 20..21, false),
            (10..20, 9..11, true),
            (10..20, 19..30, true),
            (10..20, 14..15, true),
            (10..20, 0..LENGTH - 1, true),
            (LENGTH - 1..LENGTH + 1, 0..1, true),
            (0..1, LENGTH - 1..LENGTH + 1, true),
            (1..2, LENGTH - 1..LENGTH + 1, false),
            (10..20, 10 + LENGTH..11 + LENGTH, true),
            (10..20, 5 * LENGTH..1 << 63, true),
            (0..1 << 63, 7..8, true),
            (10..20, 14..14, false),
        ];
        for (held, lost, ends) in cases {
            let mut losses = read();
            let before = losses.tenure(&held);
            losses.note(&lost);
            assert_eq!(losses.tenure(&held) != before, ends, "{held:?} {lost:?}");
        }
    }

    #[test]
    fn before_a_reader_has_asked_all_is_lost_with_each_key() {
        let (mut losses, mut other) = (Losses::default(), Losses::default());
        losses.note(&(5..6));
        assert_eq!(losses.tenure(&(100..200)), Tenure(1));
        other.by_place = OnceLock::from(Vec::new()); // memory was refused
        other.note(&(5..6));
        assert_eq!(other.tenure(&(100..200)), Tenure(1));
    }

    #[test]
    fn all_is_lost_at_once() {
        let mut losses = read();
        losses.note(&(5..6));
        losses.note_all();
        assert_eq!([0..1, 5..6, 0..1 << 63].map(|keys| losses.tenure(&keys)), [Tenure(2); 3]);
        losses.note(&(5..6));
        assert_eq!([0..1, 5..6].map(|keys| losses.tenure(&keys)), [Tenure(2), Tenure(3)]);
    }
}
