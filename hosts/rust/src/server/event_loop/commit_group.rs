//! Whether a commit waits for writers that are about to write again.
//!
//! A client that writes without a pause sends its next write as soon as the last one is answered.
//! If several do so, the first of them would find the server idle, and have a commit of its own:
//! the others would wait for the end of that one, and then for their own. So such a commit waits
//! for those that wrote with it just before, for a small part of the time that a commit takes.
use crate::model::change::Change;
use crate::model::client_set::ClientSet;
use std::time::Duration;

/// A commit waits for this part of its own time at most.
const PART: u32 = 2;

/// After this many commits the time that they are expected to take has followed one that takes
/// longer.
const FOLLOWS_IN: u32 = 16;

/// The last commits, and how long they took.
#[derive(Debug, Default)]
pub(super) struct CommitGroup {
    last: ClientSet,
    before: ClientSet,
    /// About the shortest time of the last commits: one that the disk held up makes nobody wait.
    time: Duration,
}

impl CommitGroup {
    /// These changes were committed, and the commit took this long.
    pub fn committed(&mut self, changes: &[Change], took: Duration) {
        self.before = self.last;
        self.last = writers(changes);
        self.time = took.min(self.time + took.saturating_sub(self.time) / FOLLOWS_IN);
    }

    /// How long the commit of these changes waits for more at most: for a client that has written
    /// by one of the last two commits, if one of these had several writers. So a client that is the
    /// only writer never waits, nor do several that write now and then.
    pub fn patience(&self, changes: &[Change]) -> Duration {
        let (writers, expected) = (writers(changes), self.last.or(self.before));
        let had_several = self.last.count() > 1 || self.before.count() > 1;
        let is_complete = expected.or(writers) == writers;
        let waits = had_several && !is_complete && writers.count() > 0;
        if waits { self.time / PART } else { Duration::ZERO }
    }
}

/// The clients whose writes are among these changes.
fn writers(changes: &[Change]) -> ClientSet {
    let writer = |change: &Change| match change {
        Change::Judged { client, .. } => Some(*client),
        _ => None,
    };
    changes.iter().filter_map(writer).collect()
}

#[cfg(test)]
mod tests {
    use super::*;
    use crate::model::change::{Outcome, Write};

    const US: Duration = Duration::from_micros(1);

    fn writes(clients: &[u8]) -> Vec<Change> {
        let (number, write, outcome) = (1, Write::Delete(1), Outcome::Applied);
        let judged = |client: &u8| Change::Judged { client: *client, number, write, outcome };
        clients.iter().map(judged).collect()
    }

    /// After commits of these clients' writes, each of which took 100 microseconds.
    fn after(commits: &[&[u8]]) -> CommitGroup {
        let mut group = CommitGroup::default();
        for _ in 0..100 {
            group.committed(&writes(&[60]), 100 * US);
        }
        for clients in commits {
            group.committed(&writes(clients), 100 * US);
        }
        group
    }

    #[test]
    fn a_commit_waits_for_those_that_wrote_with_others_just_before() {
        let group = after(&[&[1, 2, 3], &[4]]);
        let waits = |changes: &[Change]| !group.patience(changes).is_zero();
        assert!(waits(&writes(&[1])) && waits(&writes(&[1, 2, 3])));
        assert!(!waits(&writes(&[1, 2, 3, 4])), "all have written");
        assert!(!waits(&writes(&[4, 3, 2, 1, 9])), "and one more");
        assert!(!waits(&[]), "there is nothing to commit");
        assert!(!waits(&[Change::Left { client: 1 }]));
    }

    #[test]
    fn a_commit_waits_for_half_of_its_time_at_most() {
        let mut group = after(&[&[1, 2], &[3]]);
        let patience = group.patience(&writes(&[1]));
        assert!((45 * US..51 * US).contains(&patience), "{patience:?}");
        // A commit that the disk held up is not a measure.
        group.committed(&writes(&[1, 2]), 50_000 * US);
        assert!(group.patience(&writes(&[1])) < 2_000 * US);
    }

    #[test]
    fn one_writer_and_several_that_write_now_and_then_never_wait() {
        for commits in [&[&[1][..], &[1]][..], &[&[1], &[2]], &[&[1, 2], &[1], &[1]]] {
            assert!(after(commits).patience(&writes(&[1])).is_zero(), "{commits:?}");
        }
    }
}
