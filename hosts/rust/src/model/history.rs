//! Whether a store has what a client has seen of one, is an earlier copy, or is another store.
use std::fmt;

/// How far a store had come at one moment.
#[derive(Clone, Copy, PartialEq, Eq)]
pub struct Mark {
    /// The last start of a server by then, as 128 random bits: no two starts have the same.
    pub start: u128,
    /// How many batches were committed since, that of the start among them.
    pub commits: u64,
}

/// How much a client has seen of a store.
#[derive(Clone, Copy, Debug, PartialEq, Eq)]
pub(crate) struct Seen {
    /// How far the store had come.
    pub mark: Mark,
    /// The bits of the store's first start, which all copies of it share. A host of an earlier
    /// release does not send them.
    pub first_start: Option<u128>,
}

/// What a store is to a client that has seen this much of one.
#[derive(Clone, Copy, Debug, PartialEq, Eq)]
pub(crate) enum Comparison {
    /// It has all of that.
    HasAll,
    /// It lacks some of that: it is an older copy. If the first start of one of them is not known, it
    /// may also be another store.
    Lacks,
    /// It is another store.
    OtherStore,
}

/// The past of a store: each start of a server on it, in order, and how many batches were committed
/// before the next one, that of the start among them.
#[derive(Clone, Debug, PartialEq, Eq)]
pub struct History {
    starts: Vec<Mark>,
}

impl History {
    /// The history of these starts, unless there are none.
    #[must_use]
    pub fn new(starts: Vec<Mark>) -> Option<History> {
        if starts.is_empty() { None } else { Some(History { starts }) }
    }

    /// How far the store has come.
    #[must_use]
    pub fn mark(&self) -> Option<Mark> {
        self.starts.last().copied()
    }

    /// The bits of the store's first start.
    #[must_use]
    pub fn first_start(&self) -> Option<u128> {
        self.starts.first().map(|first| first.start)
    }

    /// What a client sees of the store now.
    pub(crate) fn seen(&self) -> Option<Seen> {
        self.mark().map(|mark| Seen { mark, first_start: self.first_start() })
    }

    /// Compares the store with what a client has seen of one. Whether a server serves the client,
    /// refuses it, or ends rests on this only.
    pub(crate) fn compare(&self, seen: Seen) -> Comparison {
        if self.has(seen.mark) {
            return Comparison::HasAll;
        }
        match (self.first_start(), seen.first_start) {
            (Some(own), Some(other)) if own != other => Comparison::OtherStore,
            _ => Comparison::Lacks,
        }
    }

    /// One more batch is committed.
    pub(crate) fn commit(&mut self) {
        if let Some(last) = self.starts.last_mut() {
            last.commits += 1;
        }
    }

    /// Whether the store has all that was committed by then. An earlier copy has not: it lacks that
    /// start, or some of its commits, however many of its own it has made since.
    #[must_use]
    pub fn has(&self, mark: Mark) -> bool {
        let mut starts = self.starts.iter();
        starts.any(|start| start.start == mark.start && mark.commits <= start.commits)
    }
}

impl fmt::Debug for Mark {
    fn fmt(&self, f: &mut fmt::Formatter<'_>) -> fmt::Result {
        write!(f, "{} commits since start {:032x}", self.commits, self.start)
    }
}

#[cfg(test)]
mod tests {
    use super::*;

    fn mark(start: u128, commits: u64) -> Mark {
        Mark { start, commits }
    }

    #[test]
    fn a_store_has_what_it_committed() {
        let mut history = History::new(vec![mark(7, 5), mark(3, 2), mark(9, 4)]).unwrap();
        for seen in [mark(7, 1), mark(7, 5), mark(3, 2), mark(9, 1), mark(9, 4)] {
            assert!(history.has(seen), "{seen:?}");
        }
        assert_eq!(history.mark(), Some(mark(9, 4)));
        assert!(!history.has(mark(9, 5)));
        history.commit();
        assert!(history.has(mark(9, 5)));
        assert_eq!(history.mark(), Some(mark(9, 5)));
    }

    #[test]
    fn a_copy_from_before_lacks_what_came_after() {
        // The store was copied at this mark, and has advanced by two batches and two starts.
        let seen = [mark(3, 3), mark(3, 4), mark(9, 1), mark(11, 1)];
        let mut copy = History::new(vec![mark(7, 5), mark(3, 2)]).unwrap();
        assert!(copy.has(mark(3, 2)) && copy.has(mark(7, 5)));
        assert!(seen.iter().all(|seen| !copy.has(*seen)));
        // A server starts on the copy, and goes far.
        copy.starts.push(mark(20, 1000));
        assert!(seen.iter().all(|seen| !copy.has(*seen)));
        assert!(copy.has(mark(3, 2)), "who has seen no more than the copy has missed nothing");
    }

    #[test]
    fn another_store_has_nothing_of_it() {
        assert_eq!(History::new(Vec::new()), None);
        let other = History::new(vec![mark(1, 100)]).unwrap();
        assert!(!other.has(mark(2, 1)) && !other.has(mark(0, 0)));
    }

    #[test]
    fn the_first_start_distinguishes_another_store_from_an_older_copy() {
        let seen = |start, commits, first_start| Seen { mark: mark(start, commits), first_start };
        let store = History::new(vec![mark(7, 5), mark(3, 2)]).unwrap();
        assert_eq!(store.seen(), Some(seen(3, 2, Some(7))));
        for (what, expected) in [
            (seen(3, 2, Some(7)), Comparison::HasAll),
            (seen(7, 1, Some(7)), Comparison::HasAll),
            (seen(3, 3, Some(7)), Comparison::Lacks),
            (seen(9, 1, Some(7)), Comparison::Lacks),
            (seen(9, 1, Some(9)), Comparison::OtherStore),
            (seen(9, 1, Some(3)), Comparison::OtherStore),
            (seen(3, 2, None), Comparison::HasAll),
            (seen(9, 1, None), Comparison::Lacks),
        ] {
            assert_eq!(store.compare(what), expected, "{what:?}");
        }
    }

    #[test]
    fn a_restored_store_is_an_older_copy_of_the_one_that_was_backed_up() {
        let seen = |start, commits| Seen { mark: mark(start, commits), first_start: Some(7) };
        let restored = History::new(vec![mark(7, 0), mark(20, 4)]).unwrap();
        for later in [seen(7, 1), seen(3, 9)] {
            assert_eq!(restored.compare(later), Comparison::Lacks);
        }
        assert_eq!(restored.compare(seen(20, 4)), Comparison::HasAll);
    }
}
