//! The jobs that take slot after slot and keep what they have, and in which order the jobs of a
//! client may ask meanwhile.
//!
//! Slots are taken in ascending order, so no two clients wait for one another, as long as none
//! waits for a point below one that it keeps. A client has one request on its way, for one of its
//! jobs. So a job waits that would ask below what another one keeps; and none keeps what lies above
//! a request of another one.
use crate::client::state::{Asking, JobId, State};
use std::ops::Range;

/// The jobs that take several slots.
#[derive(Debug, Default)]
pub struct Takings {
    begun: Vec<Taken>,
}

#[derive(Debug)]
struct Taken {
    id: JobId,
    /// The end of what it takes.
    end: u64,
    /// The end of what it keeps by now, if it keeps anything.
    kept: Option<u64>,
}

impl Takings {
    /// The job takes slots below this point.
    pub fn begins(&mut self, id: JobId, end: u64) {
        if self.begun.iter().all(|taken| taken.id != id) {
            self.begun.push(Taken { id, end, kept: None });
        }
    }

    /// The job keeps these points.
    pub fn keeps(&mut self, id: JobId, points: &Range<u64>) {
        self.begins(id, points.end);
        for taken in self.begun.iter_mut().filter(|taken| taken.id == id) {
            taken.kept = Some(points.end);
        }
    }

    /// The job has ended, or keeps nothing more.
    pub fn ends(&mut self, id: JobId) {
        self.begun.retain(|taken| taken.id != id);
    }

    /// Whether the job may ask for a lock from this point on. Of those that keep something, the one
    /// that has come farthest may; and if none does, the oldest one. So some job may always ask,
    /// and none waits for ever after younger ones.
    pub fn may_ask(&self, id: JobId, point: u64) -> bool {
        let keeps_something = self.begun.iter().any(|it| it.id == id && it.kept.is_some());
        self.begun.iter().filter(|other| other.id != id).all(|other| {
            let is_below_kept = other.kept.is_some_and(|end| point < end);
            let is_below_older = !keeps_something && other.id < id && point < other.end;
            !is_below_kept && !is_below_older
        })
    }
}

#[cfg(test)]
impl Takings {
    /// How many jobs take several slots.
    pub fn count(&self) -> usize {
        self.begun.len()
    }
}

impl State {
    /// Whether the job may ask for a lock from this point on, just now.
    pub(in crate::client::state) fn may_ask(&self, id: JobId, point: u64) -> bool {
        self.asking == Asking::Allowed
            && !self.shows(|shown| shown.is_waiting)
            && self.held.takings.may_ask(id, point)
    }

    /// Whether a job may keep points below this one while it waits for more: not if the request of
    /// another job waits for one of them, or below.
    pub(in crate::client::state) fn may_keep(&self, id: JobId, end: u64) -> bool {
        let request = self.held.request.as_ref();
        let is_below = request.is_some_and(|request| request.is_of_another_below(id, end));
        !is_below || !self.shows(|shown| shown.is_waiting)
    }
}

#[cfg(test)]
mod tests {
    use super::*;

    #[test]
    fn nobody_asks_below_what_another_job_keeps() {
        let mut takings = Takings::default();
        takings.keeps(7, &(10..20));
        assert!(takings.may_ask(7, 20));
        assert!(!takings.may_ask(3, 19) && !takings.may_ask(9, 5));
        assert!(takings.may_ask(3, 20) && takings.may_ask(9, 20));
        takings.keeps(8, &(30..40));
        assert!(!takings.may_ask(7, 20) && takings.may_ask(8, 40), "the farthest one goes on");
        takings.ends(8);
        assert!(takings.may_ask(7, 20));
        takings.ends(7);
        assert!(takings.may_ask(3, 5));
    }

    #[test]
    fn a_younger_job_passes_no_older_one_that_keeps_nothing_yet() {
        let mut takings = Takings::default();
        takings.begins(7, 20);
        assert!(takings.may_ask(7, 0) && takings.may_ask(3, 5));
        assert!(!takings.may_ask(9, 19) && takings.may_ask(9, 20));
        // One that keeps something has to continue, or both would wait.
        takings.keeps(9, &(3..10));
        assert!(takings.may_ask(9, 10) && !takings.may_ask(7, 0));
    }
}
