//! What a connection sends that operators have to know of.
use super::EventLoop;
use crate::model::refusal::Refusal;
use crate::server::close_reason::CloseReason;
use crate::wire::host_frame::{FromClient, FromServer};
use crate::wire::incoming::Incoming;
use crate::wire::message::Message;

impl EventLoop {
    /// Ends a connection that has sent what its identity may not send. It is logged, and the peer's
    /// host learns it; the library does not.
    pub(super) fn deny(&mut self, connection: u64, frame: &Incoming<'_>) {
        self.status.denied += 1;
        self.log.denied(
            &self.connections.at(connection),
            &self.connections.identity(connection),
            frame.client(),
        );
        if let Incoming::Host(Some(FromClient::Hello(_) | FromClient::ReaderHello(_))) = frame {
            self.connections.greet(connection, FromServer::Hello { answers_signs: true });
        }
        self.connections.refuse(connection, Refusal::Denied);
        self.connections.end(connection, CloseReason::Denied);
    }

    /// A report contradicts what the server knows.
    pub(super) fn alarm(&mut self, message: Message<'_>) {
        self.status.alarms_raised += 1;
        self.log.alarm(message.client());
        // A client repeats its report.
        let known = &mut self.status.alarms;
        known.extend(message.client().filter(|client| !known.contains(client)));
    }
}
