//! Searches for who holds what in a server's table, a page at a time.
use crate::call::range::keys_of;
use crate::server::lock_search::{HeldRun, Page, Search};
use crate::server::shown::locks::{LocksError, page};
use crate::server::shown::monitor::Monitor;
use std::ops::RangeBounds;
use std::time::Duration;

/// A search for who holds what in a range, a page at a time. Its clients are looked up one after
/// another, by number, and the server continues between two pages: so what was found of one client
/// is of another moment than what was found of the next.
#[derive(Clone, Debug)]
pub struct HeldSearch {
    search: Search,
    /// What was found of the client that is not looked up completely.
    begun: Vec<HeldRun>,
}

/// What a page of a search has found.
#[derive(Clone, Debug, PartialEq, Eq)]
#[non_exhaustive]
pub struct HeldPage {
    /// The clients that are looked up completely now, by number, each with all of its runs that
    /// meet the range, or the first of them, in ascending order.
    pub clients: Vec<(u8, Vec<HeldRun>)>,
    /// How long the server's loop was busy with this page.
    pub took: Duration,
}

impl HeldPage {
    /// A page that has found this, for tests of what searches.
    #[must_use]
    pub fn new(clients: Vec<(u8, Vec<HeldRun>)>, took: Duration) -> HeldPage {
        HeldPage { clients, took }
    }
}

impl HeldSearch {
    /// A search for at most this many runs of each client that meet this range.
    ///
    /// # Errors
    ///
    /// `BadRange` if the range begins above its end or ends above 2^63.
    pub fn new(points: impl RangeBounds<u64>, most: usize) -> Result<HeldSearch, LocksError> {
        let points = keys_of(&points).map_err(|_| LocksError::BadRange)?;
        Ok(HeldSearch { search: Search::of_runs(points, most), begun: Vec::new() })
    }

    /// Whether all clients are looked up.
    #[must_use]
    pub fn is_done(&self) -> bool {
        self.search.is_done()
    }

    /// Has the server look up a page. It takes the server's loop a millisecond, or as long as the
    /// loop takes to go once through its table for one client, if that is longer.
    ///
    /// # Errors
    ///
    /// `Ended` if the server has ended; `Busy` if its loop does not answer within ten seconds. The
    /// search may continue afterwards.
    pub fn go_on(&mut self, monitor: &Monitor) -> Result<HeldPage, LocksError> {
        let first = self.search.client();
        let Page { held, rest, took, .. } = page(&monitor.questions, self.search.clone())?;
        self.search = rest;
        Ok(HeldPage { clients: self.complete(first, held), took })
    }

    /// The clients from this one on that are complete with these runs.
    fn complete(&mut self, first: u8, held: Vec<HeldRun>) -> Vec<(u8, Vec<HeldRun>)> {
        append(&mut self.begun, held);
        let (now, mut clients) = (self.search.client(), Vec::new());
        for client in first..now {
            let end = self.begun.partition_point(|run| run.client <= client);
            clients.push((client, self.begun.drain(..end).collect()));
        }
        clients
    }
}

/// Adds a page. A run that began in the page before is one with its rest.
fn append(held: &mut Vec<HeldRun>, page: Vec<HeldRun>) {
    let mut page = page.into_iter().peekable();
    if let Some(last) = held.last_mut() {
        page.next_if(|first| last.join(first));
    }
    held.extend(page);
}

#[cfg(test)]
mod tests {
    use super::*;
    use crate::model::lock::{HeldSlot, Mode};

    fn slot(client: u8, lo: u64, hi: u64) -> HeldSlot {
        HeldSlot { lo, hi, client, mode: Mode::RangeSS }
    }

    #[test]
    fn a_run_over_two_pages_is_one() {
        let run = |client, lo, hi| HeldRun::of(&slot(client, lo, hi));
        let mut held = vec![run(1, 0, 10), run(2, 0, 10)];
        append(&mut held, vec![run(2, 10, 20), run(3, 0, 10)]);
        let joined = HeldRun { slots: 2, ..run(2, 0, 20) };
        assert_eq!(held, [run(1, 0, 10), joined, run(3, 0, 10)]);
        append(&mut held, vec![HeldRun { mode: Mode::X, ..run(3, 10, 20) }]);
        assert_eq!(held.len(), 4, "it is of another mode");
    }

    /// Clients 1, 2 and 3 hold the slots of ten points below 50.
    fn next_of_three(client: u8, from: u64) -> Option<HeldSlot> {
        let lo = from / 10 * 10;
        ((1..4).contains(&client) && lo < 50).then(|| slot(client, lo, lo + 10))
    }

    #[test]
    fn clients_are_complete_one_after_another() {
        let mut search = HeldSearch::new(0..100, 9).unwrap();
        let mut found = Vec::new();
        while !search.is_done() {
            let (first, mut looks) = (search.search.client(), 0);
            let held = search.search.page(next_of_three, || {
                looks += 1;
                looks > 4
            });
            found.extend(search.complete(first, held));
        }
        let whole = |client| vec![HeldRun { slots: 5, ..HeldRun::of(&slot(client, 0, 50)) }];
        assert_eq!((found.len(), found[0].clone()), (64, (0, Vec::new())));
        assert_eq!(found[1..4], [(1, whole(1)), (2, whole(2)), (3, whole(3))]);
    }
}
