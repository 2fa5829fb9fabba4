//! Long frames: a report is the only one, and each client may have one on its way.
use super::Connections;
use crate::server::close_reason::CloseReason;

impl Connections {
    /// The long report of this client may come whole on the connection. Another connection on which
    /// one of the same client comes is closed: its peer has connected again.
    pub fn admit_long(&mut self, number: u64, client: u8) {
        let is_other = |(other, peer): &(&u64, &super::Peer)| {
            **other != number && peer.connection.reporter() == Some(client)
        };
        let other = self.open.iter().find(is_other).map(|(other, _)| *other);
        self.close_one(other, CloseReason::ReportsElsewhere);
        if let Some(peer) = self.open.get_mut(&number) {
            peer.connection.admit_long(client);
            self.line_up(number);
        }
    }
}
