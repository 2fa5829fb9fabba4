//! Which clients wait, for which others, and for how long.
use crate::model::client_number::ClientNumber;
use crate::model::client_set::ClientSet;
use crate::model::lock::{Mode, Waiting};
use std::ops::Range;
use std::time::{Duration, Instant};

/// A client that waits for a lock.
#[derive(Clone, Debug, PartialEq, Eq)]
#[cfg_attr(feature = "serde", derive(serde::Serialize))]
#[non_exhaustive]
pub struct Wait {
    /// The client.
    pub client: u8,
    /// It asks for a lock from this point on, and waits at the slot of this one.
    pub point: u64,
    /// It asks for the points below this one.
    pub hi: u64,
    /// The mode that it asks for.
    pub mode: Mode,
    /// For how long it was seen to wait.
    pub waited: Duration,
    /// The clients that it waits for: those that wait before it, and those that hold what is not
    /// compatible with what it wants. None if it has to acknowledge a push first, or while the
    /// server recovers.
    pub waits_for: Vec<u8>,
}

/// How much a client holds.
#[derive(Clone, Copy, Debug, PartialEq, Eq)]
#[cfg_attr(feature = "serde", derive(serde::Serialize))]
#[non_exhaustive]
pub struct HeldSlots {
    /// The client.
    pub client: u8,
    /// The number of slots, each an entry with the gap below it, of which it holds something.
    pub slots: u64,
}

impl Wait {
    /// A client that has waited this long for this mode at these points, and for these clients. It
    /// is for tests of what shows waits.
    #[must_use]
    pub fn new(
        client: u8,
        points: Range<u64>,
        mode: Mode,
        waited: Duration,
        waits_for: Vec<u8>,
    ) -> Wait {
        Wait { client, point: points.start, hi: points.end, mode, waited, waits_for }
    }
}

impl HeldSlots {
    /// A client that holds something of this many slots, for tests of what shows that.
    #[must_use]
    pub fn new(client: u8, slots: u64) -> HeldSlots {
        HeldSlots { client, slots }
    }
}

/// A request that was seen to wait, and since when.
struct Seen {
    client: u8,
    request: u64,
    since: Instant,
}

/// Since when clients wait, and how much they hold.
#[derive(Default)]
pub(crate) struct Watch {
    seen: Vec<Seen>,
    holdings: Vec<HeldSlots>,
    /// The clients that may hold something else than when they were counted.
    changed: ClientSet,
    /// Those of them that have joined meanwhile.
    joined: ClientSet,
    counted: u8,
}

impl Watch {
    /// The server reports that these clients wait, and no others.
    pub fn waits(&mut self, waiting: Vec<Waiting>, now: Instant) -> Vec<Wait> {
        let since: Vec<_> = waiting.iter().map(|it| self.since(it, now)).collect();
        self.seen = waiting
            .iter()
            .zip(&since)
            .map(|(it, since)| Seen { client: it.client, request: it.request, since: *since })
            .collect();
        waiting.into_iter().zip(since).map(|(it, since)| wait(it, since, now)).collect()
    }

    fn since(&self, waiting: &Waiting, now: Instant) -> Instant {
        self.seen
            .iter()
            .find(|seen| seen.client == waiting.client && seen.request == waiting.request)
            .map_or(now, |seen| seen.since)
    }

    /// What the client holds may change by a message that it has sent, or that is sent to it.
    pub fn may_change(&mut self, client: u8) {
        self.changed = self.changed.with(client);
    }

    /// A row was inserted or deleted: so each client that holds something there holds another
    /// number of slots.
    pub fn slots_change(&mut self) {
        for holding in &self.holdings {
            self.changed = self.changed.with(holding.client);
        }
    }

    /// Whether the client may hold something.
    pub fn may_hold(&self, client: u8) -> bool {
        self.changed.has(client) || self.holdings.iter().any(|it| it.client == client)
    }

    /// A new incarnation of the client has joined, and holds nothing yet.
    pub fn joined(&mut self, client: u8) {
        self.left(client);
        self.changed = self.changed.with(client);
        self.joined = self.joined.with(client);
    }

    /// The client has left, or was evicted, and holds nothing any more.
    pub fn left(&mut self, client: u8) {
        self.holdings.retain(|holding| holding.client != client);
        self.changed = self.changed.without(client);
        self.joined = self.joined.without(client);
    }

    /// The client whose slots are to be counted next, if there is one: first those that have
    /// joined, and then each in its turn, since counting takes time.
    pub fn next_to_count(&mut self) -> Option<u8> {
        let next =
            (1..=ClientNumber::COUNT).map(|step| (self.counted + step) % ClientNumber::COUNT);
        let next = self
            .joined
            .iter()
            .next()
            .or_else(|| next.into_iter().find(|client| self.changed.has(*client)))?;
        self.joined = self.joined.without(next);
        self.changed = self.changed.without(next);
        self.counted = next;
        Some(next)
    }

    /// The client holds something of this many slots.
    pub fn counted(&mut self, client: u8, slots: u64) {
        self.holdings.retain(|holding| holding.client != client);
        if slots > 0 {
            self.holdings.push(HeldSlots { client, slots });
            self.holdings.sort_by_key(|holding| holding.client);
        }
    }

    /// The clients that hold something, by number, as they were last counted.
    pub fn holdings(&self) -> &[HeldSlots] {
        &self.holdings
    }
}

fn wait(waiting: Waiting, since: Instant, now: Instant) -> Wait {
    let Waiting { client, point, hi, mode, waits_for, .. } = waiting;
    let waited = now.saturating_duration_since(since);
    Wait { client, point, hi, mode, waited, waits_for }
}

#[cfg(test)]
mod tests {
    use super::*;

    fn waiting(client: u8, request: u64) -> Waiting {
        Waiting { client, request, point: 5, hi: 9, mode: Mode::RangeIN, waits_for: vec![0] }
    }

    #[test]
    fn a_wait_lasts_as_long_as_its_request() {
        let (mut watch, start) = (Watch::default(), Instant::now());
        let later = start + Duration::from_millis(40);
        assert_eq!(watch.waits(vec![waiting(1, 2)], start)[0].waited, Duration::ZERO);
        let waits = watch.waits(vec![waiting(1, 2), waiting(3, 1)], later);
        let expected = Wait {
            client: 1,
            point: 5,
            hi: 9,
            mode: Mode::RangeIN,
            waited: later - start,
            waits_for: vec![0],
        };
        assert_eq!(waits[0], expected);
        assert_eq!(waits[1].waited, Duration::ZERO);
        assert_eq!(watch.waits(vec![waiting(1, 3)], later)[0].waited, Duration::ZERO);
        assert_eq!(watch.waits(Vec::new(), later), []);
    }

    #[test]
    fn who_has_joined_is_counted_first_and_then_each_that_changed_in_its_turn() {
        let mut watch = Watch::default();
        assert_eq!(watch.next_to_count(), None);
        for client in [7, 3, 63, 3] {
            watch.may_change(client);
        }
        watch.joined(9);
        let counted: Vec<_> = std::iter::from_fn(|| watch.next_to_count()).collect();
        assert_eq!(counted, [9, 63, 3, 7]);
        watch.may_change(3);
        watch.may_change(8);
        assert_eq!((watch.next_to_count(), watch.next_to_count()), (Some(8), Some(3)));
        watch.counted(3, 7);
        watch.counted(8, 1);
        watch.may_change(3);
        watch.left(3);
        assert_eq!(watch.holdings(), [HeldSlots { client: 8, slots: 1 }]);
        assert_eq!(watch.next_to_count(), None);
    }

    #[test]
    fn who_was_counted_to_hold_nothing_holds_nothing_until_that_may_change() {
        let mut watch = Watch::default();
        assert!(!watch.may_hold(3));
        watch.joined(3);
        assert!(watch.may_hold(3));
        assert_eq!(watch.next_to_count(), Some(3));
        watch.counted(3, 0);
        assert!(!watch.may_hold(3));
        watch.may_change(3);
        assert!(watch.may_hold(3));
        assert_eq!(watch.next_to_count(), Some(3));
        watch.counted(3, 5);
        assert!(watch.may_hold(3));
        watch.left(3);
        assert!(!watch.may_hold(3));
    }

    #[test]
    fn a_row_that_comes_or_goes_changes_how_many_slots_others_hold() {
        let mut watch = Watch::default();
        watch.counted(3, 5);
        watch.counted(4, 0);
        watch.slots_change();
        assert_eq!((watch.next_to_count(), watch.next_to_count()), (Some(3), None));
    }

    #[test]
    fn holdings_are_by_client() {
        let mut watch = Watch::default();
        watch.counted(3, 7);
        watch.counted(1, 2);
        watch.counted(3, 8);
        watch.counted(1, 0);
        assert_eq!(watch.holdings(), [HeldSlots { client: 3, slots: 8 }]);
    }
}
