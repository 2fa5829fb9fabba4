//! The connections of the status port: strangers, and those that have a place.
//!
//! A connection is a stranger until it has sent a whole request, or over TLS until it has shown an
//! operator's certificate. For one connection too many the oldest is closed, and never the newest
//! refused: a probe sends its request in a few milliseconds, and is answered next to any number of
//! connections that send nothing.
use krl::operate::Strangers;
use std::collections::{HashMap, VecDeque};
use std::net::IpAddr;
use std::sync::{Arc, Mutex, MutexGuard, PoisonError};
use std::time::Instant;
use tokio::sync::Notify;

/// The most connections that have a place.
const MAX_PLACES: usize = 32;

/// The most orders that are carried out at once. A connection whose order is carried out is not
/// closed for another one.
const MAX_ORDERS: usize = 4;

/// All connections of a status port.
#[derive(Clone, Debug, Default)]
pub struct Visitors(Arc<Mutex<Connections>>);

#[derive(Debug, Default)]
struct Connections {
    next: u64,
    strangers: Strangers,
    /// Those that have a place, the oldest first.
    placed: VecDeque<u64>,
    /// Those whose orders are carried out.
    ordering: Vec<u64>,
    /// What closes each connection.
    closers: HashMap<u64, Arc<Notify>>,
}

/// One connection. It is forgotten when this value is dropped.
#[derive(Debug)]
pub struct Visit {
    number: u64,
    visitors: Visitors,
    closer: Arc<Notify>,
}

impl Visitors {
    /// A connection from this address is accepted. The oldest stranger is closed if there are too
    /// many.
    pub fn accept(&self, from: IpAddr, now: Instant) -> Visit {
        let mut connections = self.lock();
        let (number, closer) = (connections.next, Arc::new(Notify::new()));
        connections.next += 1;
        let gone = connections.strangers.add(number, Some(from), now);
        connections.closers.insert(number, Arc::clone(&closer));
        connections.close(gone);
        drop(connections);
        Visit { number, visitors: self.clone(), closer }
    }

    fn lock(&self) -> MutexGuard<'_, Connections> {
        self.0.lock().unwrap_or_else(PoisonError::into_inner)
    }
}

impl Connections {
    fn close(&self, number: Option<u64>) {
        if let Some(closer) = number.and_then(|number| self.closers.get(&number)) {
            closer.notify_one();
        }
    }

    fn take_place(&mut self, number: u64) {
        if self.placed.contains(&number) {
            return;
        }
        self.strangers.remove(number);
        if self.placed.len() >= MAX_PLACES {
            let gone = self.placed.iter().find(|it| !self.ordering.contains(it)).copied();
            self.placed.retain(|it| Some(*it) != gone);
            self.close(gone);
        }
        self.placed.push_back(number);
    }

    fn begin_order(&mut self, number: u64) -> bool {
        let has_room = self.ordering.len() < MAX_ORDERS;
        if has_room {
            self.ordering.push(number);
        }
        has_room
    }

    fn forget(&mut self, number: u64) {
        self.strangers.remove(number);
        self.placed.retain(|it| *it != number);
        self.ordering.retain(|it| *it != number);
        self.closers.remove(&number);
    }
}

impl Visit {
    /// The connection is not a stranger any more. The oldest one that has a place loses it if there
    /// are too many.
    pub fn take_place(&self) {
        self.visitors.lock().take_place(self.number);
    }

    /// Its order is carried out from now on, until this value is dropped. The answer is false if
    /// too many are carried out already.
    #[must_use]
    pub fn begin_order(&self) -> bool {
        self.visitors.lock().begin_order(self.number)
    }

    /// Whether its order is carried out.
    pub fn is_ordering(&self) -> bool {
        self.visitors.lock().ordering.contains(&self.number)
    }

    /// Waits until the connection has to be closed for another one.
    pub async fn closed(&self) {
        self.closer.notified().await;
    }
}

impl Drop for Visit {
    fn drop(&mut self) {
        self.visitors.lock().forget(self.number);
    }
}

#[cfg(test)]
mod tests {
    use super::*;
    use std::net::Ipv4Addr;

    const HOME: IpAddr = IpAddr::V4(Ipv4Addr::LOCALHOST);

    async fn is_closed(visit: &Visit) -> bool {
        tokio::select! {
            biased;
            () = visit.closed() => true,
            () = std::future::ready(()) => false,
        }
    }

    #[tokio::test]
    async fn the_oldest_stranger_is_closed_and_not_who_has_a_place() {
        let (visitors, now) = (Visitors::default(), Instant::now());
        let known = visitors.accept(HOME, now);
        known.take_place();
        let strangers: Vec<_> = (0..65).map(|_| visitors.accept(HOME, now)).collect();
        assert!(is_closed(&strangers[0]).await);
        for other in strangers[1..].iter().chain([&known]) {
            assert!(!is_closed(other).await);
        }
    }

    #[tokio::test]
    async fn the_oldest_that_has_a_place_is_closed_unless_it_has_an_order() {
        let (visitors, now) = (Visitors::default(), Instant::now());
        let visits: Vec<_> = (0..=MAX_PLACES).map(|_| visitors.accept(HOME, now)).collect();
        assert!(visits[0].begin_order());
        visits.iter().for_each(Visit::take_place);
        assert!(is_closed(&visits[1]).await);
        for other in [&visits[0], &visits[2], &visits[MAX_PLACES]] {
            assert!(!is_closed(other).await);
        }
        visits[0].take_place();
        assert_eq!(visitors.lock().placed.len(), MAX_PLACES, "a place is taken once");
    }

    #[test]
    fn orders_are_bounded_and_end_with_their_connections() {
        let (visitors, now) = (Visitors::default(), Instant::now());
        let mut visits: Vec<_> = (0..=MAX_ORDERS).map(|_| visitors.accept(HOME, now)).collect();
        assert!(visits[1..].iter().all(Visit::begin_order));
        assert!(!visits[0].begin_order() && !visits[0].is_ordering());
        visits.pop();
        assert!(visits[0].begin_order() && visits[0].is_ordering());
        drop(visits);
        assert!(visitors.lock().closers.is_empty());
    }
}
