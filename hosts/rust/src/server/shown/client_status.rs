//! What an operator sees of each client.
use crate::lease::terms::LeaseLeft;
use crate::model::client_number::{ClientNumber, PerClient};
use crate::net::stream::PeerAddress;
use std::time::{Duration, Instant};

/// A client that is registered and has not left, at one moment.
#[derive(Clone, Debug, PartialEq, Eq)]
#[cfg_attr(feature = "serde", derive(serde::Serialize))]
#[non_exhaustive]
pub struct ClientStatus {
    /// Its number.
    pub client: u8,
    /// Its connection, if it has one.
    pub connection: Option<ClientConnection>,
    /// How long ago something last came from it; none if nothing has come since the server started.
    pub silent_for: Option<Duration>,
    /// How long its lease still runs.
    pub lease: LeaseLeft,
}

/// The connection of a client.
#[derive(Clone, Copy, Debug, PartialEq, Eq)]
#[cfg_attr(feature = "serde", derive(serde::Serialize))]
#[non_exhaustive]
pub struct ClientConnection {
    /// Who is at the other end.
    pub peer: PeerAddress,
    /// How long it has been open.
    pub open_for: Duration,
}

impl ClientStatus {
    /// A client without a connection from which nothing ever came, with this much of its lease, for
    /// tests of what shows clients.
    #[must_use]
    pub fn new(client: u8, lease: LeaseLeft) -> ClientStatus {
        ClientStatus { client, connection: None, silent_for: None, lease }
    }
}

impl ClientConnection {
    /// A connection to this peer that has been open for this long, for tests of what shows clients.
    #[must_use]
    pub fn new(peer: PeerAddress, open_for: Duration) -> ClientConnection {
        ClientConnection { peer, open_for }
    }
}

/// When something last came from each client.
#[derive(Debug)]
pub(crate) struct LastReceived(PerClient<Option<Instant>>);

impl LastReceived {
    pub fn new() -> LastReceived {
        LastReceived([None; ClientNumber::COUNT as usize])
    }

    /// Something came from the client at this moment, and nothing later.
    pub fn note(&mut self, client: u8, at: Instant) {
        if let Some(last) = self.0.get_mut(usize::from(client)) {
            *last = Some(at);
        }
    }

    /// How long the client has been silent, if anything ever came from it.
    pub fn silent_for(&self, client: u8, now: Instant) -> Option<Duration> {
        let last = self.0.get(usize::from(client)).copied().flatten();
        last.map(|last| now.saturating_duration_since(last))
    }
}

#[cfg(test)]
mod tests {
    use super::*;

    #[test]
    fn silence_begins_with_the_last_frame() {
        let (mut last, start) = (LastReceived::new(), Instant::now());
        let after = |seconds| start + Duration::from_secs(seconds);
        last.note(3, start);
        last.note(3, after(2));
        assert_eq!(last.silent_for(3, after(7)), Some(Duration::from_secs(5)));
        assert_eq!(last.silent_for(3, start), Some(Duration::ZERO));
        assert_eq!(last.silent_for(4, after(7)), None);
    }
}
