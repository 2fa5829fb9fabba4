//! The last lock that a client has asked for. A client has one request on its way at most.
use super::{JobId, State};
use std::ops::Range;

/// A request for a lock.
#[derive(Debug)]
pub(super) struct Request {
    pub by: JobId,
    pub points: Range<u64>,
    /// What was given back just before it.
    pub yielded: Option<Range<u64>>,
}

/// Whether a job may ask for a lock just now.
///
/// While messages that came are still unread it may not: a callback among them would be obeyed too
/// late. The release would mean that the client has not seen the grant that it has just asked for,
/// and the server passes over such a release.
#[derive(Clone, Copy, Debug, PartialEq, Eq)]
pub(crate) enum Asking {
    Allowed,
    Later,
}

impl Request {
    /// Whether another job than this one asks for something below this point.
    pub fn is_of_another_below(&self, id: JobId, end: u64) -> bool {
        self.by != id && self.points.start < end
    }
}

impl State {
    /// Whether the last lock was asked for by this job.
    pub(super) fn has_asked(&self, id: JobId) -> bool {
        self.held.request.as_ref().is_some_and(|request| request.by == id)
    }
}
