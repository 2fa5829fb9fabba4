//! Why a reader has no answer, and when it gives up.
use crate::call::error::{ErrorKind, JoinErrorKind};
use crate::client::not_joined::why_not_joined;
use crate::client::refused_connects::RefusedConnects;
use crate::client::standing::Standing;
use crate::model::refusal::Refusal;
use crate::net::connect_fault::{NoServer, NothingListens, Rejection, Rejections};
use crate::net::servers::Servers;
use std::io;
use std::time::{Duration, Instant};

/// This many connections in a row have to be answered by another program before a reader gives up
/// that no server has answered yet.
const STRANGERS: u32 = 2;

/// How the connections of a reader of one server ended since it had an answer.
#[derive(Debug, Default)]
pub(super) struct Faults {
    /// A server has answered once: from then on the reader waits for it to come back.
    has_answer: bool,
    rejections: Rejections,
    refused_connects: RefusedConnects,
    /// How many of the last connections in a row another program has answered.
    strangers: u32,
    /// The last reason of a server not to serve the reader.
    refusal: Option<Refusal>,
    /// How the last connection ended, or why none was made.
    last: Option<io::Error>,
}

impl Faults {
    /// The server has answered a question.
    pub fn answered(&mut self) {
        self.rejections.accept();
        let rejections = std::mem::take(&mut self.rejections);
        *self = Faults { has_answer: true, rejections, ..Faults::default() };
    }

    /// A server does not serve the reader, for this reason.
    pub fn note_refusal(&mut self, refusal: Refusal, now: Instant) {
        self.note(None, now);
        self.refusal = Some(refusal);
    }

    /// A connection has ended for this reason, or was not made.
    pub fn note_end(&mut self, end: io::Error, now: Instant) {
        self.note(Some(end), now);
    }

    fn note(&mut self, end: Option<io::Error>, now: Instant) {
        let end_is = |is_so: fn(&io::Error) -> bool| end.as_ref().is_some_and(is_so);
        self.rejections.note(end.as_ref().and_then(Rejection::carried_by));
        self.refused_connects.note(end_is(NothingListens::is_carried_by), now);
        let is_stranger = end_is(|end| NoServer::carried_by(end).is_some());
        self.strangers = if is_stranger { self.strangers + 1 } else { 0 };
        self.last = end;
    }

    /// Whether a server has answered once.
    pub fn have_answer(&self) -> bool {
        self.has_answer
    }

    /// Whether another attempt at an only server would end in the same way. By a map that is followed
    /// the server may be about to start, or to be of another shard.
    pub fn are_final(&self, standing: Standing) -> bool {
        let is_of_shard = matches!(self.rejections.last(), Some(Rejection::OtherShard(_)));
        let is_away = self.refused_connects.are_final() || self.strangers >= STRANGERS;
        let is_rejected = self.rejections.are_final();
        match standing {
            Standing::Fixed => is_rejected || is_away && !self.has_answer,
            Standing::Here | Standing::Elsewhere => is_rejected && !is_of_shard,
        }
    }

    /// This pause before the next attempt, or a shorter one, so that the last attempt comes when the
    /// reader gives up.
    pub fn shorten(&self, pause: Duration, now: Instant) -> Duration {
        if self.has_answer { pause } else { self.refused_connects.shorten(pause, now) }
    }

    /// Why a call has no answer.
    pub fn why_unserved(&self) -> ErrorKind {
        match (self.rejections.last(), self.refusal) {
            (Some(Rejection::NotTaken(_)), _) => ErrorKind::TurnedAway,
            (Some(Rejection::OtherShard(other)), _) => ErrorKind::OtherShard(*other),
            (Some(Rejection::OtherVersion(read)), _) => {
                ErrorKind::Unserved(Refusal::Version { read: *read })
            }
            (None, Some(refusal)) => ErrorKind::Unserved(refusal),
            (None, None) => ErrorKind::TimedOut,
        }
    }

    /// Why the reader is not connected to these servers, if its first call ended so.
    pub fn why_not_connected(&mut self, servers: &Servers, kind: ErrorKind) -> JoinErrorKind {
        let nothing_listens = self.refused_connects.are_final() && !servers.are_several();
        match self.last.take() {
            Some(fault) if nothing_listens => {
                JoinErrorKind::NothingListens { servers: Box::new(servers.clone()), fault }
            }
            fault => why_not_joined(servers, kind, fault, self.rejections.last()),
        }
    }
}
