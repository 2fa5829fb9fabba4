//! Connections whose owners are not known yet, and room for those whose owners are known.
use crate::identity::Identity;
use std::collections::VecDeque;
use std::net::{IpAddr, Ipv6Addr};
use std::time::{Duration, Instant};

/// The most strangers from one network: as many as a table has clients, which may all be on one
/// machine and connect at once.
const MAX_FROM_ONE: usize = 64;

/// The most strangers in all.
const MAX_IN_ALL: usize = 128;

/// How long a connection may take to identify itself. A byte now and then gains no further time.
pub const PATIENCE: Duration = Duration::from_secs(5);

/// The connections that have not identified themselves, the oldest first, and those that have.
///
/// For one more than there may be **the oldest is closed**, and not the newest refused: a client
/// identifies itself in a few milliseconds, and gets in next to any number that send nothing.
#[derive(Debug, Default)]
pub struct Strangers {
    waiting: VecDeque<Stranger>,
    known: VecDeque<(u64, Identity)>,
}

#[derive(Debug)]
struct Stranger {
    connection: u64,
    network: Option<IpAddr>,
    since: Instant,
}

impl Strangers {
    /// Adds a connection from this address. Returns which one is to be closed for it, if one is.
    pub fn add(&mut self, connection: u64, from: Option<IpAddr>, now: Instant) -> Option<u64> {
        let network = from.map(network_of);
        let crowded = self.from(network) >= MAX_FROM_ONE;
        let gone = match (crowded, self.waiting.len() >= MAX_IN_ALL) {
            (true, _) => self.oldest_of(network),
            (false, true) => self.oldest(),
            (false, false) => None,
        };
        self.waiting.push_back(Stranger { connection, network, since: now });
        gone
    }

    /// Whether the connection has not identified itself.
    #[must_use]
    pub fn has(&self, connection: u64) -> bool {
        self.waiting.iter().any(|stranger| stranger.connection == connection)
    }

    /// It has identified itself. Returns which one is to be closed for it, if one is: the oldest
    /// of the same identity.
    pub(crate) fn is_known(&mut self, connection: u64, identity: Identity) -> Option<u64> {
        self.waiting.retain(|stranger| stranger.connection != connection);
        let is_same = |(_, other): &&(u64, Identity)| *other == identity;
        let is_crowded = self.known.iter().filter(is_same).count() >= identity.most_connections();
        let gone = self.known.iter().find(is_same).map(|(oldest, _)| *oldest);
        self.known.push_back((connection, identity));
        gone.filter(|_| is_crowded)
    }

    /// How many connections have identified themselves.
    pub(crate) fn count_known(&self) -> usize {
        self.known.len()
    }

    /// Removes a connection, which is closed or has identified itself.
    pub fn remove(&mut self, connection: u64) {
        self.waiting.retain(|stranger| stranger.connection != connection);
        self.known.retain(|(other, _)| *other != connection);
    }

    fn oldest(&self) -> Option<u64> {
        self.waiting.front().map(|stranger| stranger.connection)
    }

    /// The connections that have taken too long: five seconds.
    pub fn late(&self, now: Instant) -> impl Iterator<Item = u64> {
        let is_late =
            move |stranger: &&Stranger| now.saturating_duration_since(stranger.since) >= PATIENCE;
        self.waiting.iter().take_while(is_late).map(|stranger| stranger.connection)
    }

    fn from(&self, network: Option<IpAddr>) -> usize {
        self.waiting.iter().filter(|stranger| stranger.network == network).count()
    }

    fn oldest_of(&self, network: Option<IpAddr>) -> Option<u64> {
        let mut of = self.waiting.iter().filter(|stranger| stranger.network == network);
        of.next().map(|stranger| stranger.connection)
    }
}

/// A holder of one IPv6 address has 2^64 of them.
fn network_of(address: IpAddr) -> IpAddr {
    match address.to_canonical() {
        IpAddr::V6(address) => IpAddr::V6(Ipv6Addr::from(u128::from(address) >> 64 << 64)),
        address @ IpAddr::V4(_) => address,
    }
}

#[cfg(test)]
mod tests {
    use super::*;

    fn address(text: &str) -> IpAddr {
        text.parse().unwrap()
    }

    #[test]
    fn the_oldest_of_one_network_goes_and_not_the_newest() {
        let (mut strangers, now) = (Strangers::default(), Instant::now());
        assert_eq!(strangers.add(1000, Some(address("10.0.0.2")), now), None);
        for connection in 0..64 {
            assert_eq!(strangers.add(connection, Some(address("2001:db8::1")), now), None);
        }
        assert_eq!(
            strangers.add(64, Some(address("2001:db8::ffff")), now),
            Some(0),
            "the same /64"
        );
        strangers.remove(0);
        assert_eq!(strangers.add(65, Some(address("2001:db8:0:1::1")), now), None, "another /64");
        assert_eq!(strangers.add(66, Some(address("10.0.0.2")), now), None);
        strangers.is_known(1, Identity::everybody());
        assert_eq!(strangers.add(67, Some(address("2001:db8::1")), now), None);
        assert!(strangers.has(67) && !strangers.has(0) && !strangers.has(1));
    }

    #[test]
    fn the_oldest_of_all_goes_if_there_are_too_many() {
        let (mut strangers, now) = (Strangers::default(), Instant::now());
        for connection in 0..128u64 {
            let from = format!("10.0.{connection}.1");
            assert_eq!(strangers.add(connection, Some(address(&from)), now), None);
        }
        assert_eq!(strangers.add(128, Some(address("10.1.0.1")), now), Some(0));
    }

    #[test]
    fn who_takes_too_long_goes() {
        let (mut strangers, now) = (Strangers::default(), Instant::now());
        strangers.add(1, None, now);
        strangers.add(2, None, now + PATIENCE / 2);
        assert_eq!(strangers.late(now + PATIENCE / 2).count(), 0);
        assert_eq!(strangers.late(now + PATIENCE).collect::<Vec<_>>(), [1]);
        assert_eq!(strangers.late(now + 2 * PATIENCE).collect::<Vec<_>>(), [1, 2]);
    }

    #[test]
    fn an_identity_has_four_connections_for_each_number_and_its_oldest_goes() {
        let (mut strangers, three) = (Strangers::default(), "3".parse::<Identity>().unwrap());
        let four = "4".parse::<Identity>().unwrap();
        for connection in 0..4 {
            assert_eq!(strangers.is_known(connection, three), None);
        }
        assert_eq!(strangers.is_known(4, four), None);
        assert_eq!(strangers.is_known(5, three), Some(0));
        strangers.remove(0);
        strangers.remove(2);
        assert_eq!(strangers.is_known(6, three), None);
        assert_eq!(strangers.is_known(7, three), Some(1));
    }
}
