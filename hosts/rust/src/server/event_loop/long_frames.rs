//! Which long frames a server admits.
use super::EventLoop;
use crate::identity::Identity;
use crate::model::change::Record;
use crate::server::close_reason::CloseReason;
use crate::server::error::ServeError;
use crate::server::routing::{Sender, sender};
use crate::wire::frames::HEAD;
use crate::wire::incoming::Incoming;
use crate::wire::message::Message;

impl EventLoop {
    /// A connection begins a frame that is long, with this head. Only the report of a registered
    /// client may be so: any other connection ends, before more than the head is kept, and its host
    /// learns why, if that is known.
    pub(super) fn judge_long(
        &mut self,
        connection: u64,
        head: &[u8; HEAD],
    ) -> Result<(), ServeError> {
        let (identity, frame) = (self.connections.identity(connection), Incoming::read(head));
        if !self.may_send(connection, &frame) {
            self.deny(connection, &frame);
            return Ok(());
        }
        let Some((client, incarnation)) = Message::read(head).reporter() else {
            self.break_off(connection);
            return Ok(());
        };
        let record = self.server.record(client).map_err(ServeError::Refused)?;
        if may_be_long(client, incarnation, &identity, record.as_ref()) {
            self.connections.admit_long(connection, client);
            return Ok(());
        }
        if let Some(refusal) = self.refusal(record.as_ref(), incarnation) {
            self.connections.refuse(connection, refusal);
        }
        self.break_off(connection);
        Ok(())
    }

    fn break_off(&mut self, connection: u64) {
        self.status.refused += 1;
        self.connections.end(connection, CloseReason::FrameTooLong);
    }
}

/// Whether a report may be long: if this identity may speak for the client, and the client is
/// registered so and has not left. A client repeats its report until it learns of the new epoch: so
/// the server may have taken it already.
fn may_be_long(client: u8, incarnation: u64, identity: &Identity, record: Option<&Record>) -> bool {
    identity.is_client(client) && sender(record, incarnation) == Sender::Registered
}

#[cfg(test)]
mod tests {
    use super::*;

    #[test]
    fn only_the_report_of_a_registered_client_may_be_long() {
        let record = Record { client: 3, incarnation: 7, last: None, left: false };
        let (three, four) = ("3".parse().unwrap(), "4,operator".parse().unwrap());
        let may_be = |incarnation, identity: &Identity, record: Option<&Record>| {
            may_be_long(3, incarnation, identity, record)
        };
        assert!(may_be(7, &three, Some(&record)));
        assert!(!may_be(7, &four, Some(&record)), "an operator has no report");
        assert!(!may_be(8, &three, Some(&record)), "another incarnation");
        assert!(!may_be(7, &three, None));
        assert!(!may_be(7, &three, Some(&Record { left: true, ..record })));
    }
}
