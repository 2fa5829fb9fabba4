//! The Hello of a client's host, and what follows if the store lacks what that host has seen, or is
//! another one.
use super::{EventLoop, LAST_TURNS};
use crate::identity::Identity;
use crate::lease::clocks::Now;
use crate::model::history::{Comparison, Mark, Seen};
use crate::model::refusal::{Refusal, STREAM_VERSION};
use crate::server::close_reason::CloseReason;
use crate::server::error::ServeError;
use crate::wire::host_frame::FromServer;

/// A connection whose client has seen what the store lacks: so the store is an older copy, or
/// another server has it.
#[derive(Clone, Copy, Debug, PartialEq, Eq)]
pub(super) struct Doubt {
    connection: u64,
    lacked: Mark,
}

impl EventLoop {
    /// Answers the Hello of a client's host, which has seen this much of a store.
    pub(super) fn greet(&mut self, connection: u64, seen: Option<Seen>) {
        match seen.map(|seen| (seen.mark, self.compare_store(seen))) {
            None | Some((_, Comparison::HasAll)) => self.greet_back(connection),
            Some((_, Comparison::OtherStore)) => self.refuse_other_store(connection),
            Some((lacked, Comparison::Lacks)) => self.doubt(connection, lacked),
        }
    }

    fn greet_back(&mut self, connection: u64) {
        self.connections.greet(connection, FromServer::Hello { answers_signs: true });
    }

    /// Refuses a client whose host is of another version of the stream, or has sent a message and no
    /// Hello that would name one. Nothing of it is judged: it might take no long grant, and ask for
    /// it again and again.
    pub(super) fn refuse_other_version(&mut self, connection: u64) {
        self.log.other_version(&self.connections.at(connection));
        let refusal = Refusal::Version { read: STREAM_VERSION };
        self.connections.greet(connection, FromServer::Refused(refusal));
        self.connections.end(connection, CloseReason::OtherVersion);
    }

    /// Refuses a connection for which there is no place: there are this many. Nothing of it is
    /// judged.
    pub(super) fn refuse_full(&mut self, connection: u64, most: usize) {
        let refusal = Refusal::Full { connections: most as u64 };
        self.connections.greet(connection, FromServer::Refused(refusal));
        self.connections.end(connection, CloseReason::Full);
    }

    /// Refuses a client that has seen another store: its address is wrong, or a new store has
    /// replaced that one. Nothing is wrong with this server's store, so the server continues.
    /// Nothing more is taken from the connection: what the client knows is of another table.
    fn refuse_other_store(&mut self, connection: u64) {
        self.log.other_store(&self.connections.at(connection));
        self.connections.greet(connection, FromServer::Refused(Refusal::OtherStore));
        self.connections.end(connection, CloseReason::OtherStore);
    }

    /// The store lacks what the client has seen, and is asked whether it is still this server's: a
    /// server after which another one has started lacks it too, and ends then. The commit that
    /// begins next asks it, once for all clients that report it by then. Nothing more is taken from
    /// the connection: its client knows what is not so, and what it sends is lost as if it had
    /// crashed.
    fn doubt(&mut self, connection: u64, lacked: Mark) {
        self.gathered.doubts.push(Doubt { connection, lacked });
        self.connections.end(connection, CloseReason::OlderStore);
    }

    /// The store is this server's, and an older copy. It is logged too. Then the server ends,
    /// unless the claim may be a stranger's.
    pub(super) fn alarm_older_store(&mut self, doubt: &Doubt, now: Now) {
        let Doubt { connection, lacked } = *doubt;
        self.status.store_alarms += 1;
        self.log.store_alarm(&self.connections.at(connection), lacked);
        let identity = self.connections.identity(connection);
        self.connections.greet(connection, FromServer::WentBack);
        if ends_by_the_word_of(&identity) {
            self.end_in_order(ServeError::OlderStore { identity, seen: lacked }, now);
        }
    }

    /// Compares the store with what the client has seen. A store without a history lacks every
    /// mark: it has sent none.
    fn compare_store(&self, seen: Seen) -> Comparison {
        self.history.as_ref().map_or(Comparison::Lacks, |history| history.compare(seen))
    }

    /// Ends as a server that is asked to stop, with the first such error.
    fn end_in_order(&mut self, error: ServeError, now: Now) {
        self.until.get_or_insert(now.monotonic + LAST_TURNS);
        self.failure.get_or_insert(error);
    }
}

/// Whether a server ends if one of this identity has seen what the store lacks: if it may speak for
/// some clients. An identity that may speak for all clients has shown nothing, as one that connects
/// by plain TCP. A Hello names no client, so an operator's is about none.
fn ends_by_the_word_of(identity: &Identity) -> bool {
    *identity != Identity::everybody() && identity.is_of_clients()
}

#[cfg(test)]
mod tests {
    use super::*;

    #[test]
    fn a_server_ends_by_the_word_of_a_client_that_has_shown_who_it_is() {
        for identity in ["3", "0,63", "3,operator"] {
            assert!(ends_by_the_word_of(&identity.parse().unwrap()), "{identity}");
        }
        for stranger in [Identity::everybody(), Identity::nobody(), "operator".parse().unwrap()] {
            assert!(!ends_by_the_word_of(&stranger), "{stranger}");
        }
    }
}
