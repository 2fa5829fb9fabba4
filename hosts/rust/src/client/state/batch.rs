//! Several writes of one job. A client has one write on its way at most: so the next one is sent as
//! soon as the one before it is judged, in the same step, and only the last answer wakes the
//! caller.
use super::bound::{Bond, Wanted};
use super::{Asked, Job, Reply, State};
use crate::call::error::ErrorKind;
use crate::call::mutation::{Judged, Mutation};
use crate::model::change::{Outcome, Write};
use std::collections::VecDeque;

/// Where it goes how a write was judged.
pub(super) enum Report {
    /// To the caller.
    Once(Reply<Outcome>),
    /// To the caller with the outcomes of other writes.
    Together(Box<Batch>),
}

/// Writes of which the first one that is not judged is on its way, or waits for its locks.
pub(super) struct Batch {
    outcomes: Vec<Outcome>,
    /// That one, and those after it.
    left: VecDeque<Mutation>,
    reply: Reply<Judged>,
}

impl Report {
    /// The write was not judged, for this reason, and none after it is made.
    pub fn refuse(self, why: ErrorKind) {
        match self {
            Report::Once(reply) => reply.end(Err(why)),
            Report::Together(batch) => batch.end(Some(why)),
        }
    }
}

impl Batch {
    fn end(self, ended: Option<ErrorKind>) {
        self.reply.end(Ok(Judged { outcomes: self.outcomes, ended }));
    }

    /// The write was judged so. Returns what is to be written next.
    fn next_after(&mut self, write: &Write, outcome: Outcome) -> Option<Next> {
        if let Some(Mutation::Set(_)) = self.left.front()
            && let Some(other) = after(*write, outcome)
        {
            return Some(Next::Same(other));
        }
        self.left.pop_front();
        self.outcomes.push(outcome);
        self.left.front().copied().map(Next::Other)
    }
}

/// The write that follows one of a set with this outcome, or none if the key has its value, or the
/// index is full. Other clients may make and delete the row in between: then it continues by turns.
fn after(write: Write, outcome: Outcome) -> Option<Write> {
    match (write, outcome) {
        (Write::Put(row), Outcome::Absent) => Some(Write::Insert(row)),
        (Write::Insert(row), Outcome::Exists) => Some(Write::Put(row)),
        _ => None,
    }
}

/// What a batch writes next.
enum Next {
    /// The other write by which a set is made.
    Same(Write),
    Other(Mutation),
}

impl State {
    /// Writes that are made one after the other, of which there is at least one.
    pub fn write_all(&mut self, writes: Vec<Mutation>) -> Asked<Judged> {
        self.write_all_bound(Bond::Free, writes)
    }

    /// The same, each of which is made while the pin holds, or never.
    pub fn write_all_under(&mut self, pin: u64, writes: Vec<Mutation>) -> Asked<Judged> {
        self.end_lease_if_over();
        let bond = Bond::Pin(pin);
        if self.may_ask_to_write(bond) {
            self.write_all_bound(bond, writes)
        } else {
            self.answer_at_once(Ok(Judged::nothing(ErrorKind::PinIsVoid)))
        }
    }

    fn write_all_bound(&mut self, bond: Bond, writes: Vec<Mutation>) -> Asked<Judged> {
        let Some(first) = writes.first().copied() else {
            return self.answer_at_once(Ok(Judged { outcomes: Vec::new(), ended: None }));
        };
        let wanted = Wanted::new(self.first_write_of(first), bond);
        self.add(|reply| {
            let outcomes = Vec::with_capacity(writes.len());
            let batch = Batch { outcomes, left: writes.into(), reply };
            Job::Write(wanted, Report::Together(Box::new(batch)))
        })
    }

    /// The write of a job was judged so. Returns what the job writes next.
    pub(super) fn next_write(
        &mut self,
        wanted: &Wanted,
        outcome: Outcome,
        report: Report,
    ) -> Option<(Wanted, Report)> {
        let mut batch = match report {
            Report::Once(reply) => {
                reply.end(Ok(outcome));
                return None;
            }
            Report::Together(batch) => batch,
        };
        let write = match batch.next_after(&wanted.write, outcome) {
            None => {
                batch.end(None);
                return None;
            }
            Some(Next::Same(write)) => write,
            Some(Next::Other(mutation)) => self.first_write_of(mutation),
        };
        Some((Wanted::new(write, wanted.bond), Report::Together(batch)))
    }

    /// The write that is made first. A set of a key that the client knows to have no row is an
    /// insert: a put would ask the server in vain.
    fn first_write_of(&mut self, mutation: Mutation) -> Write {
        match mutation {
            Mutation::Insert(row) => Write::Insert(row),
            Mutation::Set(row) if self.is_empty_at(row.key) => Write::Insert(row),
            Mutation::Put(row) | Mutation::Set(row) => Write::Put(row),
            Mutation::Delete(key) => Write::Delete(key),
        }
    }
}

#[cfg(test)]
mod tests;
