//! Several writes of one call, and how far they came.
use crate::call::error::{Error, ErrorKind};
use crate::model::change::{Outcome, Write};
use crate::model::row::Row;
use std::fmt;

/// One of the writes of a [`Client::write_all`](crate::Client::write_all).
#[derive(Clone, Copy, Debug, PartialEq, Eq)]
#[non_exhaustive]
pub enum Mutation {
    /// A new row: the outcome is `Applied`, `Exists` or `Full`.
    Insert(Row),
    /// Another value for the row of that key: the outcome is `Applied` or `Absent`.
    Put(Row),
    /// That value for the key, whether or not it has a row: the outcome is `Applied` or `Full`.
    Set(Row),
    /// The row of that key is deleted: the outcome is `Applied` or `Absent`.
    Delete(u64),
}

/// What became of one of several writes.
#[derive(Clone, Copy, Debug, PartialEq, Eq)]
pub enum Fate {
    /// It was judged, and changes the table if the outcome is `Applied`.
    Judged(Outcome),
    /// The table may have changed or may still change: a read of the key shows it. At most one write
    /// at each server has this fate.
    Unknown,
    /// It was not made, and changes nothing.
    NotMade,
}

/// Why several writes were not all judged, and what became of each.
#[derive(Clone, Debug, PartialEq, Eq)]
#[non_exhaustive]
pub struct BatchError {
    /// What became of each write, in the order in which they were given.
    pub fates: Vec<Fate>,
    /// Why the first write that was not judged was not.
    pub error: Error,
}

/// How the first writes of a batch were judged, and why the next one was not, if there is one.
#[derive(Clone, Debug, PartialEq, Eq)]
pub(crate) struct Judged {
    pub outcomes: Vec<Outcome>,
    pub ended: Option<ErrorKind>,
}

impl Mutation {
    /// The key that the write is about.
    #[must_use]
    pub fn key(&self) -> u64 {
        match self {
            Mutation::Insert(row) | Mutation::Put(row) | Mutation::Set(row) => row.key,
            Mutation::Delete(key) => *key,
        }
    }
}

impl From<Write> for Mutation {
    fn from(write: Write) -> Mutation {
        match write {
            Write::Insert(row) => Mutation::Insert(row),
            Write::Put(row) => Mutation::Put(row),
            Write::Delete(key) => Mutation::Delete(key),
        }
    }
}

impl Fate {
    /// The outcome of a write that was judged.
    pub(crate) fn outcome(self) -> Option<Outcome> {
        match self {
            Fate::Judged(outcome) => Some(outcome),
            Fate::Unknown | Fate::NotMade => None,
        }
    }
}

impl Judged {
    /// One of which nothing was judged.
    pub fn nothing(why: ErrorKind) -> Judged {
        Judged { outcomes: Vec::new(), ended: Some(why) }
    }

    /// What became of each of `count` writes: the one after those that were judged was the only one
    /// on its way, and those after it were never sent.
    pub fn fates(&self, count: usize) -> Vec<Fate> {
        let mut fates: Vec<_> = self.outcomes.iter().copied().map(Fate::Judged).collect();
        if self.ended.is_some_and(|why| why.is_unknown_outcome()) && fates.len() < count {
            fates.push(Fate::Unknown);
        }
        fates.resize(count, Fate::NotMade);
        fates
    }

    /// The outcome of the only write.
    pub fn only(self) -> Result<Outcome, ErrorKind> {
        let outcome = self.outcomes.first().copied();
        outcome.ok_or(self.ended.unwrap_or(ErrorKind::Stopped))
    }
}

impl BatchError {
    /// An error with what became of each write, and why the first one that was not judged was not.
    #[must_use]
    pub fn new(fates: Vec<Fate>, error: Error) -> BatchError {
        BatchError { fates, error }
    }

    /// The places of the writes that were applied.
    pub fn applied(&self) -> impl Iterator<Item = usize> {
        self.places(Fate::Judged(Outcome::Applied))
    }

    /// The places of the writes whose outcome is unknown.
    pub fn unknown(&self) -> impl Iterator<Item = usize> {
        self.places(Fate::Unknown)
    }

    /// The places of the writes that were not made.
    pub fn not_made(&self) -> impl Iterator<Item = usize> {
        self.places(Fate::NotMade)
    }

    fn places(&self, wanted: Fate) -> impl Iterator<Item = usize> {
        let places = self.fates.iter().enumerate();
        places.filter(move |(_, fate)| **fate == wanted).map(|(place, _)| place)
    }
}

impl fmt::Display for BatchError {
    fn fmt(&self, f: &mut fmt::Formatter<'_>) -> fmt::Result {
        let is_judged = |fate: &&Fate| matches!(fate, Fate::Judged(_));
        let judged = self.fates.iter().filter(is_judged).count();
        write!(f, "{judged} of {} writes were judged: {}", self.fates.len(), self.error)
    }
}

impl std::error::Error for BatchError {
    fn source(&self) -> Option<&(dyn std::error::Error + 'static)> {
        Some(&self.error)
    }
}

#[cfg(test)]
mod tests {
    use super::*;
    use crate::call::error::Unsent;
    use Fate::{NotMade, Unknown};
    use Outcome::{Applied, Exists};

    #[test]
    fn the_write_after_those_that_were_judged_is_unknown_if_it_may_have_been_applied() {
        let ended = |why| Judged { outcomes: vec![Applied, Exists], ended: Some(why) };
        let judged = [Fate::Judged(Applied), Fate::Judged(Exists)];
        for why in [
            ErrorKind::TimedOut,
            ErrorKind::LeaseEnded,
            ErrorKind::StoreWentBack,
            ErrorKind::Stopped,
        ] {
            assert_eq!(ended(why).fates(4), [&judged[..], &[Unknown, NotMade]].concat());
        }
        for why in [
            ErrorKind::NotSent(Unsent::TimedOut),
            ErrorKind::PinIsVoid,
            ErrorKind::TurnedAway,
            ErrorKind::OutOfMemory,
        ] {
            assert_eq!(ended(why).fates(4), [&judged[..], &[NotMade, NotMade]].concat());
        }
        let whole = Judged { outcomes: vec![Applied, Exists], ended: None };
        assert_eq!(whole.fates(2), judged);
    }

    #[test]
    fn a_batch_of_one_write_has_its_outcome_or_why_there_is_none() {
        assert_eq!(Judged { outcomes: vec![Exists], ended: None }.only(), Ok(Exists));
        assert_eq!(Judged::nothing(ErrorKind::TimedOut).only(), Err(ErrorKind::TimedOut));
    }

    #[test]
    fn an_error_names_the_places_of_its_writes() {
        let judged = Judged { outcomes: vec![Applied, Exists], ended: Some(ErrorKind::TimedOut) };
        let error = BatchError::new(judged.fates(4), ErrorKind::TimedOut.into());
        assert_eq!(error.applied().collect::<Vec<_>>(), [0]);
        assert_eq!(error.unknown().collect::<Vec<_>>(), [2]);
        assert_eq!(error.not_made().collect::<Vec<_>>(), [3]);
        let expected = format!("2 of 4 writes were judged: {}", ErrorKind::TimedOut);
        assert_eq!(error.to_string(), expected);
    }
}
