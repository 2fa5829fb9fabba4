//! Connections that come: who is at the other end, whether there is a place for it, and which one
//! makes room for another.
use super::{Connections, MAX_READERS, Peer};
use crate::access::Entry;
use crate::identity::Identity;
use crate::log::event_log;
use crate::log::event_log::At;
use crate::net::stream::PeerAddress;
use crate::server::close_reason::CloseReason;
use crate::server::connection::Connection;

impl Connections {
    /// Takes a new connection, and returns its number. If there are too many strangers, the oldest
    /// is closed.
    pub fn enter(&mut self, entry: Entry, address: PeerAddress) -> u64 {
        let (number, now) = (self.next, self.now.monotonic);
        self.next += 1;
        event_log::opened(&At { connection: number, peer: address });
        let connection = Connection::new(entry, self.longest, now);
        let (process, is_in_ready, is_in_sending) = (None, false, false);
        let peer = Peer { connection, address, process, opened: now, is_in_ready, is_in_sending };
        self.open.insert(number, peer);
        let gone = self.strangers.add(number, address.machine(), now);
        self.close_one(gone, CloseReason::StrangerCrowded);
        number
    }

    /// Sees whether a stranger has shown whose it is. If its identity has too many connections, the
    /// oldest of them is closed. One for which there is no place stays a stranger.
    pub(super) fn meet(&mut self, number: u64) {
        if self.is_full() || !self.strangers.has(number) {
            return;
        }
        let known = self.open.get(&number).and_then(|peer| peer.connection.known());
        if let Some(identity) = known {
            let gone = self.strangers.is_known(number, identity);
            self.close_one(gone, CloseReason::IdentityCrowded);
        }
    }

    /// Whether as many connections are open that have shown whose they are as there may be.
    fn is_full(&self) -> bool {
        self.strangers.count_known() >= self.most
    }

    /// If there is no place for this connection: the most for which there is one.
    pub fn lacks_place(&self, number: u64) -> Option<usize> {
        (self.is_full() && self.strangers.has(number)).then_some(self.most)
    }

    /// Takes the connection for that of a reader, which speaks for no client, and needs no place of
    /// those that do. Returns whether there is a place for one more.
    pub fn enter_reader(&mut self, number: u64) -> bool {
        if self.readers.len() >= MAX_READERS {
            return false;
        }
        self.strangers.remove(number);
        self.readers.insert(number)
    }

    /// Whether it is the connection of a reader.
    pub fn is_reader(&self, number: u64) -> bool {
        self.readers.contains(&number)
    }

    pub(super) fn close_one(&mut self, number: Option<u64>, reason: CloseReason) {
        if let Some(number) = number {
            self.close(number, reason);
        }
    }

    /// Who is at the other end of the connection.
    pub fn identity(&self, number: u64) -> Identity {
        let peer = self.open.get(&number);
        peer.map_or(Identity::nobody(), |peer| peer.connection.identity())
    }
}
