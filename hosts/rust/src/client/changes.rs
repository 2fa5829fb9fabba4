//! The states of a range, one after the other.
use crate::call::error::{Error, ErrorKind};
use crate::client::timeout::MAX_WAIT;
use crate::client::waiting::Waited;
use crate::model::row::Row;
use std::fmt;
use std::time::{Duration, Instant};

/// The states of a range, one after the other, from [`Client::changes`]. Over several shards each
/// is that of all of them together at one moment.
///
/// **The first item** is the rows of the range as they are at some moment of the first call. **Each
/// later item** is the rows at a later moment, and they differ from those of the item before. What
/// is kept is the latest state and not each one: an iterator that is asked slowly, or a range that
/// changes quickly, misses states in between, and a change that is taken back at once may be missed
/// altogether. After the last change of a range the iterator returns its last state, however many
/// it has missed.
///
/// **An error** ends nothing: the next call continues where the last one was, since a client whose
/// server is down, or that has dropped its cache, joins again. The iterator ends when the client
/// has left.
///
/// While it waits it sends nothing. Each item costs a read: the writer of the change has the range
/// called back, as for any reader.
///
/// [`Client::changes`]: crate::Client::changes
#[must_use = "it reads nothing before it is asked"]
pub struct Changes {
    range: Box<dyn WatchedRange + Send + Sync>,
    last: Option<Vec<Row>>,
}

/// A range that is read again and again.
pub(crate) trait WatchedRange {
    fn read(&self) -> Result<Vec<Row>, Error>;

    /// Waits until the client no longer knows that the range has these rows.
    fn wait_for_change(&self, rows: &[Row], timeout: Duration) -> Result<Waited, Error>;
}

impl Changes {
    pub(crate) fn of(range: impl WatchedRange + Send + Sync + 'static) -> Changes {
        Changes { range: Box::new(range), last: None }
    }

    /// The next state, if it comes within this time, a year at most; or `None` if the range has not
    /// changed. A read that it needs waits for its client's timeout all the same. A client that has
    /// left is an error here.
    ///
    /// # Errors
    ///
    /// Those of [`Client::read`](crate::Client::read).
    pub fn next_within(&mut self, timeout: Duration) -> Result<Option<Vec<Row>>, Error> {
        let end = Instant::now() + timeout.min(MAX_WAIT);
        loop {
            let left = end.saturating_duration_since(Instant::now());
            if let Some(rows) = &self.last
                && self.waits_in_vain(rows, left)
            {
                return Ok(None);
            }
            let rows = self.range.read()?;
            if self.last.as_ref() != Some(&rows) {
                self.last = Some(rows.clone());
                return Ok(Some(rows));
            }
            if left.is_zero() {
                return Ok(None);
            }
        }
    }

    /// Whether the range has these rows until the time is over. Why a wait failed shows in the read
    /// that follows.
    fn waits_in_vain(&self, rows: &[Row], left: Duration) -> bool {
        matches!(self.range.wait_for_change(rows, left), Ok(Waited::Unchanged))
    }
}

impl Iterator for Changes {
    type Item = Result<Vec<Row>, Error>;

    /// Waits for the next state, for ever if the range does not change.
    fn next(&mut self) -> Option<Result<Vec<Row>, Error>> {
        loop {
            match self.next_within(MAX_WAIT) {
                Ok(Some(rows)) => return Some(Ok(rows)),
                Ok(None) => {}
                Err(error) if error.kind == ErrorKind::Left => return None,
                Err(error) => return Some(Err(error)),
            }
        }
    }
}

impl fmt::Debug for Changes {
    fn fmt(&self, f: &mut fmt::Formatter<'_>) -> fmt::Result {
        f.debug_struct("Changes").field("last", &self.last).finish_non_exhaustive()
    }
}

#[cfg(test)]
mod tests {
    use super::*;
    use crate::model::row::Value;
    use std::collections::VecDeque;
    use std::sync::Mutex;

    /// A range whose reads and waits are answered by a script.
    #[derive(Default)]
    struct Scripted {
        reads: Mutex<VecDeque<Result<Vec<Row>, Error>>>,
        waits: Mutex<VecDeque<Result<Waited, Error>>>,
    }

    impl WatchedRange for Scripted {
        fn read(&self) -> Result<Vec<Row>, Error> {
            self.reads.lock().unwrap().pop_front().expect("one read too many")
        }

        fn wait_for_change(&self, _: &[Row], _: Duration) -> Result<Waited, Error> {
            self.waits.lock().unwrap().pop_front().expect("one wait too many")
        }
    }

    fn rows(number: u64) -> Vec<Row> {
        vec![Row { key: 5, value: Value::from(number) }]
    }

    fn changes(
        reads: impl Into<VecDeque<Result<Vec<Row>, Error>>>,
        waits: impl Into<VecDeque<Result<Waited, Error>>>,
    ) -> Changes {
        let (reads, waits) = (Mutex::new(reads.into()), Mutex::new(waits.into()));
        Changes::of(Scripted { reads, waits })
    }

    const CHANGED: Result<Waited, Error> = Ok(Waited::Changed);
    const UNCHANGED: Result<Waited, Error> = Ok(Waited::Unchanged);

    #[test]
    fn each_state_differs_from_the_one_before() {
        let reads = [Ok(rows(1)), Ok(rows(1)), Ok(rows(2)), Ok(rows(1))];
        let mut states = changes(reads, [CHANGED, CHANGED, UNCHANGED, CHANGED]);
        assert_eq!(states.next(), Some(Ok(rows(1))));
        assert_eq!(states.next(), Some(Ok(rows(2))), "rows that were called back and not changed");
        assert_eq!(states.next(), Some(Ok(rows(1))), "a wait that is over goes on");
    }

    #[test]
    fn an_error_loses_no_state_and_a_client_that_has_left_ends_it() {
        let gone = Err(ErrorKind::Left.into());
        let reads = [Ok(rows(1)), Err(ErrorKind::TimedOut.into()), Ok(rows(2)), gone];
        let stopped = Err(ErrorKind::Stopped.into());
        let mut states = changes(reads, [CHANGED, CHANGED, stopped]);
        assert_eq!(states.next(), Some(Ok(rows(1))));
        assert_eq!(states.next(), Some(Err(ErrorKind::TimedOut.into())));
        assert_eq!(states.next(), Some(Ok(rows(2))));
        assert_eq!(states.next(), None);
    }

    #[test]
    fn a_range_that_does_not_change_is_reported_in_time() {
        let mut states = changes([Ok(rows(1)), Ok(rows(1))], [UNCHANGED, CHANGED]);
        assert_eq!(states.next_within(Duration::ZERO), Ok(Some(rows(1))));
        assert_eq!(states.next_within(Duration::ZERO), Ok(None));
        assert_eq!(states.next_within(Duration::ZERO), Ok(None), "called back, and the same rows");
    }
}
