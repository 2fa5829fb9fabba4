//! A search for who holds what, which a server's loop makes in pages between its turns.
use crate::model::client_number::ClientNumber;
use crate::model::lock::{HeldSlot, Mode};
use crate::server::shown::watch::Wait;
use std::ops::Range;
use std::time::Duration;

/// The most runs of a page.
const PAGE: usize = 1024;

/// How long a page may take.
const LONG: Duration = Duration::from_millis(10);
const SHORT: Duration = Duration::from_millis(1);

/// Neighboring slots that a client holds in one mode.
#[derive(Clone, Copy, Debug, PartialEq, Eq, PartialOrd, Ord)]
#[non_exhaustive]
pub struct HeldRun {
    /// The first point of the first slot.
    pub lo: u64,
    /// One past the last point of the last slot.
    pub hi: u64,
    /// The client.
    pub client: u8,
    /// The mode that the client holds.
    pub mode: Mode,
    /// How many slots they are.
    pub slots: u64,
}

/// What a run is.
#[derive(Clone, Copy, Debug, PartialEq, Eq)]
enum Runs {
    /// Each slot by itself.
    OfOneSlot,
    /// Neighboring slots of one client and one mode.
    Joined,
}

/// What is asked for: the slots that meet the points, at most this many runs of each client. It
/// also has the client and the point from which on they have not been looked up yet.
#[derive(Clone, Debug)]
pub(crate) struct Search {
    points: Range<u64>,
    most: usize,
    runs: Runs,
    /// How long a page may take.
    longest: Duration,
    client: u8,
    from: u64,
    found: usize,
    /// The mode of the last slot that was found of this client.
    mode: Option<Mode>,
}

/// What a server finds at once.
#[derive(Debug)]
pub(crate) struct Page {
    pub held: Vec<HeldRun>,
    pub waits: Vec<Wait>,
    /// What was not looked up yet.
    pub rest: Search,
    /// How long the loop was busy with it.
    pub took: Duration,
}

impl HeldRun {
    /// A run of this many slots of these points, for tests of what shows locks.
    #[must_use]
    pub fn new(client: u8, points: Range<u64>, mode: Mode, slots: u64) -> HeldRun {
        HeldRun { lo: points.start, hi: points.end, client, mode, slots }
    }

    pub(crate) fn of(slot: &HeldSlot) -> HeldRun {
        let HeldSlot { lo, hi, client, mode } = *slot;
        HeldRun { lo, hi, client, mode, slots: 1 }
    }

    pub(crate) fn first_slot(self) -> HeldSlot {
        let HeldRun { lo, hi, client, mode, .. } = self;
        HeldSlot { lo, hi, client, mode }
    }

    /// Takes the next run into this one if they are neighbors, and returns whether they are.
    pub(crate) fn join(&mut self, next: &HeldRun) -> bool {
        let is_next = (self.client, self.mode, self.hi) == (next.client, next.mode, next.lo);
        if is_next {
            (self.hi, self.slots) = (next.hi, self.slots + next.slots);
        }
        is_next
    }
}

impl Search {
    /// A search for single slots, for a caller that waits for it.
    pub fn of_slots(points: Range<u64>, most: usize) -> Search {
        Search::new(points, most, Runs::OfOneSlot, LONG)
    }

    /// A search for runs, for which there is time.
    pub fn of_runs(points: Range<u64>, most: usize) -> Search {
        Search::new(points, most, Runs::Joined, SHORT)
    }

    fn new(points: Range<u64>, most: usize, runs: Runs, longest: Duration) -> Search {
        let client = if points.is_empty() { ClientNumber::COUNT } else { 0 };
        Search { from: points.start, points, most, runs, longest, client, found: 0, mode: None }
    }

    /// The client that is looked up next.
    pub fn client(&self) -> u8 {
        self.client
    }

    /// How long a page may take.
    pub fn longest(&self) -> Duration {
        self.longest
    }

    pub fn is_done(&self) -> bool {
        self.client == ClientNumber::COUNT
    }

    /// The runs that come next, by client and point: as many as a page has, or as come until it is
    /// late. A run that continues in the next page is in both in part.
    pub fn page(
        &mut self,
        mut next_held: impl FnMut(u8, u64) -> Option<HeldSlot>,
        mut is_late: impl FnMut() -> bool,
    ) -> Vec<HeldRun> {
        let mut held = Vec::new();
        while !self.is_done() && held.len() < PAGE && !is_late() {
            let next = next_held(self.client, self.from);
            match next.filter(|slot| self.takes(slot)) {
                Some(slot) => self.take(&slot, &mut held),
                None => self.go_to_next_client(),
            }
        }
        held
    }

    fn takes(&self, slot: &HeldSlot) -> bool {
        slot.lo < self.points.end && (self.found < self.most || self.continues(slot))
    }

    /// Whether the slot belongs to the run that was found last.
    fn continues(&self, slot: &HeldSlot) -> bool {
        self.runs == Runs::Joined && self.mode == Some(slot.mode) && slot.lo <= self.from
    }

    fn take(&mut self, slot: &HeldSlot, held: &mut Vec<HeldRun>) {
        if !self.continues(slot) {
            self.found += 1;
            held.push(HeldRun::of(slot));
        } else if !held.last_mut().is_some_and(|last| last.join(&HeldRun::of(slot))) {
            held.push(HeldRun::of(slot));
        }
        (self.from, self.mode) = (slot.hi, Some(slot.mode));
    }

    fn go_to_next_client(&mut self) {
        (self.client, self.from, self.found) = (self.client + 1, self.points.start, 0);
        self.mode = None;
    }
}

#[cfg(test)]
mod tests {
    use super::*;

    fn slot(client: u8, lo: u64, hi: u64) -> HeldSlot {
        HeldSlot { lo, hi, client, mode: Mode::RangeSS }
    }

    fn run(client: u8, lo: u64, hi: u64, slots: u64) -> HeldRun {
        HeldRun { slots, ..HeldRun::of(&slot(client, lo, hi)) }
    }

    fn search(points: Range<u64>, most: usize) -> Search {
        Search::of_slots(points, most)
    }

    /// Client 1 holds each slot of ten points, below 100, and client 3 that of 20 to 30.
    fn next_held(client: u8, from: u64) -> Option<HeldSlot> {
        let lo = from / 10 * 10;
        match client {
            1 if lo < 100 => Some(slot(1, lo, lo + 10)),
            3 if lo <= 20 => Some(slot(3, 20, 30)),
            _ => None,
        }
    }

    #[test]
    fn a_search_finds_what_meets_its_points() {
        let mut whole = search(15..31, 100);
        let held = whole.page(next_held, || false);
        let expected = [run(1, 10, 20, 1), run(1, 20, 30, 1), run(1, 30, 40, 1), run(3, 20, 30, 1)];
        assert_eq!((held.as_slice(), whole.is_done()), (expected.as_slice(), true));
        let held = search(15..30, 100).page(next_held, || false);
        assert_eq!(held, [run(1, 10, 20, 1), run(1, 20, 30, 1), run(3, 20, 30, 1)]);
        assert!(search(15..15, 100).is_done());
    }

    #[test]
    fn a_search_ends_each_client_after_the_most() {
        let held = search(0..1000, 2).page(next_held, || false);
        assert_eq!(held, [run(1, 0, 10, 1), run(1, 10, 20, 1), run(3, 20, 30, 1)]);
    }

    #[test]
    fn a_search_that_is_late_continues_with_its_next_page() {
        let whole = search(0..1000, 100).page(next_held, || false);
        let (mut search, mut held) = (search(0..1000, 100), Vec::new());
        for _ in 0..100 {
            let mut looks = 0;
            held.extend(search.page(next_held, || {
                looks += 1;
                looks > 1
            }));
        }
        assert!(search.is_done());
        assert_eq!((held.len(), held), (11, whole));
    }

    #[test]
    fn a_page_has_not_more_than_its_slots() {
        let mut search = search(0..1 << 20, 1 << 20);
        let next_held = |client, from| (client == 5).then(|| slot(5, from, from + 1));
        let first = search.page(next_held, || false);
        let second = search.page(next_held, || false);
        assert_eq!((first.len(), second.len()), (PAGE, PAGE));
        assert_eq!(second[0].lo, PAGE as u64);
    }

    /// Client 2 holds each slot of one point below 60, from 20 on in another mode, and not those of
    /// 40 to 50.
    fn in_two_modes(client: u8, from: u64) -> Option<HeldSlot> {
        let lo = if (40..50).contains(&from) { 50 } else { from };
        let mode = if lo < 20 { Mode::RangeSS } else { Mode::X };
        (client == 2 && lo < 60).then_some(HeldSlot { mode, ..slot(2, lo, lo + 1) })
    }

    #[test]
    fn neighbors_of_one_mode_are_one_run() {
        let mut search = Search::of_runs(0..100, 3);
        let held = search.page(in_two_modes, || false);
        let write = |lo, hi, slots| HeldRun { mode: Mode::X, ..run(2, lo, hi, slots) };
        assert_eq!(held, [run(2, 0, 20, 20), write(20, 40, 20), write(50, 60, 10)]);
        let held = Search::of_runs(0..100, 1).page(in_two_modes, || false);
        assert_eq!(held, [run(2, 0, 20, 20)], "a run has as many slots as there are");
    }

    #[test]
    fn a_run_continues_in_the_next_page() {
        let (mut search, mut looks) = (Search::of_runs(0..100, 3), 0);
        let first = search.page(in_two_modes, || {
            looks += 1;
            looks > 8
        });
        let mut second = search.page(in_two_modes, || false);
        assert_eq!(first[1..], []);
        let mut whole = first[0];
        assert!(whole.join(&second.remove(0)) && search.is_done());
        assert_eq!((whole, second.len()), (run(2, 0, 20, 20), 2));
    }
}
