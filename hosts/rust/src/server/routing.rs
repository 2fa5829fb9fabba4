//! To which connection a client's messages go.
use crate::model::change::Record;
use crate::model::client_number::{ClientNumber, PerClient};

/// What a message shows about its connection.
#[derive(Clone, Copy, Debug, PartialEq, Eq)]
pub(crate) enum Sender {
    /// It comes from the client that the server knows under this number: the connection is the
    /// client's.
    Registered,
    /// It comes from that client, which has left. Nothing more goes to it but the frame of no
    /// bytes.
    Left,
    /// It comes from another incarnation, or from one that never sent Hello. Its sender gets
    /// nothing: otherwise an evicted process that still runs would take its successor's messages.
    Stranger,
}

/// Who has sent a message, by the server's record of its client after the message was taken.
pub(crate) fn sender(record: Option<&Record>, incarnation: u64) -> Sender {
    match record {
        Some(record) if record.incarnation != incarnation => Sender::Stranger,
        Some(Record { left: true, .. }) => Sender::Left,
        Some(_) => Sender::Registered,
        None => Sender::Stranger,
    }
}

/// The connection on which each client was active last.
#[derive(Debug)]
pub(crate) struct Routes(PerClient<Option<u64>>);

impl Default for Routes {
    fn default() -> Routes {
        Routes([None; ClientNumber::COUNT as usize])
    }
}

impl Routes {
    /// From now on the client's messages go to this connection.
    pub fn set(&mut self, client: u8, connection: u64) {
        if let Some(route) = self.0.get_mut(usize::from(client)) {
            *route = Some(connection);
        }
    }

    /// Nothing more goes to this connection.
    pub fn close(&mut self, connection: u64) {
        self.0.iter_mut().for_each(|route| *route = route.filter(|to| *to != connection));
    }

    /// Where the client's messages go, if it is connected.
    pub fn of(&self, client: u8) -> Option<u64> {
        *self.0.get(usize::from(client))?
    }

    /// A client whose messages go to this connection, if there is one.
    pub fn client_of(&self, connection: u64) -> Option<u8> {
        let mut routes = ClientNumber::all().zip(&self.0);
        routes.find(|(_, to)| **to == Some(connection)).map(|(client, _)| client)
    }

    /// The clients that are connected, by number.
    pub fn clients(&self) -> Vec<u8> {
        let routes = ClientNumber::all().zip(&self.0);
        routes.filter(|(_, to)| to.is_some()).map(|(client, _)| client).collect()
    }
}

#[cfg(test)]
mod tests {
    use super::*;

    fn record(incarnation: u64, left: bool) -> Record {
        Record { client: 3, incarnation, last: None, left }
    }

    #[test]
    fn only_the_registered_incarnation_is_the_client() {
        assert_eq!(sender(Some(&record(7, false)), 7), Sender::Registered);
        assert_eq!(sender(Some(&record(7, true)), 7), Sender::Left);
        assert_eq!(sender(None, 7), Sender::Stranger);
        for incarnation in [0, 1, 6, 8, u64::MAX] {
            assert_eq!(sender(Some(&record(7, false)), incarnation), Sender::Stranger);
            assert_eq!(sender(Some(&record(7, true)), incarnation), Sender::Stranger);
        }
    }

    #[test]
    fn a_client_has_the_last_connection() {
        let mut routes = Routes::default();
        routes.set(9, 1);
        routes.set(3, 1);
        routes.set(3, 2);
        assert_eq!((routes.of(3), routes.of(9), routes.of(4)), (Some(2), Some(1), None));
        assert_eq!(routes.clients(), [3, 9]);
        assert_eq!([1, 2, 3].map(|it| routes.client_of(it)), [Some(9), Some(3), None]);
        routes.close(1);
        assert_eq!((routes.of(3), routes.of(9)), (Some(2), None));
    }
}
