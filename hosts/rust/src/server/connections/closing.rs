//! What is counted and logged of connections that are closed.
use super::Connections;
use crate::log::event_log::{self, At};
use crate::log::rate_limit::RateLimit;
use crate::net::stream::PeerAddress;
use crate::server::close_reason::{CloseReason, ClosedConnections};
use std::fmt;
use std::time::Instant;

/// What was counted and logged of connections that are closed.
#[derive(Debug, Default)]
pub(super) struct Closings {
    pub counts: ClosedConnections,
    limits: [RateLimit; CloseReason::COUNT],
}

impl Closings {
    /// A connection is closed. `why` describes the reason.
    pub fn closed(&mut self, at: &At, reason: CloseReason, why: &dyn fmt::Display, now: Instant) {
        self.counts.count(reason);
        event_log::closed(at, reason.word());
        if let Some(news) = reason.news() {
            let limit = &mut self.limits[reason as usize];
            if let Some(passed_over) = limit.admits(now) {
                event_log::closed_by_server(at, news, why, passed_over);
            }
        }
    }
}

impl Connections {
    /// The connection, as the log names it.
    pub fn at(&self, connection: u64) -> At {
        let peer = self.open.get(&connection).map_or(PeerAddress::Gone, |peer| peer.address);
        At { connection, peer }
    }

    /// Where the client's messages go, as the log names it.
    pub fn at_of(&self, client: u8) -> Option<At> {
        self.routes.of(client).map(|number| self.at(number))
    }

    /// How many connections were closed for each reason.
    pub fn closed(&self) -> &ClosedConnections {
        &self.closings.counts
    }
}
