//! What other threads ask of a server's loop.
use crate::model::shard_bounds::ShardBounds;
use crate::model::snapshot::Snapshot;
use crate::server::lock_search::{Page, Search};
use crate::store::StoreError;
use mio::Waker;
use std::sync::Arc;
use std::sync::mpsc::{Receiver, RecvTimeoutError, SyncSender, TrySendError, sync_channel};
use std::time::Duration;

/// The most questions that wait. One more is refused.
const MAX_WAITING: usize = 256;

/// The report on a server whose loop does not answer.
pub(crate) const BUSY: &str = "the server's loop did not answer in time: it is busy, or hangs";

/// What another thread asks.
pub(crate) enum Question {
    /// All that the store has.
    Snapshot(SyncSender<Result<Snapshot, StoreError>>),
    /// Who holds what.
    Locks(Search, SyncSender<Page>),
    /// The shard is another one by the next map, which has this one in its place; or not any more.
    GiveWay(Option<ShardBounds>),
    /// The server is to end.
    Stop,
}

/// Why a question has no answer.
#[derive(Clone, Copy, Debug, PartialEq, Eq)]
pub(crate) enum Unanswered {
    /// The loop has ended, or ends before it takes the question.
    Ended,
    /// The loop did not come to it in time.
    Busy,
}

/// Where other threads ask. Each question wakes the loop.
#[derive(Clone)]
pub(crate) struct Questions {
    waiting: SyncSender<Question>,
    waker: Arc<Waker>,
}

impl Questions {
    pub fn new(waker: Arc<Waker>) -> (Questions, Receiver<Question>) {
        let (waiting, asked) = sync_channel(MAX_WAITING);
        (Questions { waiting, waker }, asked)
    }

    /// Asks, and wakes the loop.
    pub fn ask(&self, question: Question) -> Result<(), Unanswered> {
        self.waiting.try_send(question).map_err(|error| match error {
            TrySendError::Full(_) => Unanswered::Busy,
            TrySendError::Disconnected(_) => Unanswered::Ended,
        })?;
        // A loop that is not woken looks by itself a little later.
        let _ = self.waker.wake();
        Ok(())
    }

    /// Asks, and waits for the answer, but not longer than this.
    pub fn answer<T>(
        &self,
        question: impl FnOnce(SyncSender<T>) -> Question,
        longest: Duration,
    ) -> Result<T, Unanswered> {
        let (reply, answer) = sync_channel(1);
        self.ask(question(reply))?;
        answer.recv_timeout(longest).map_err(|error| match error {
            RecvTimeoutError::Timeout => Unanswered::Busy,
            RecvTimeoutError::Disconnected => Unanswered::Ended,
        })
    }

    /// Has the loop end. It waits until the loop takes that, if it is busy.
    pub fn stop(&self) {
        // One that does not take it has ended already.
        let _ = self.waiting.send(Question::Stop);
        let _ = self.waker.wake();
    }
}

#[cfg(test)]
mod tests {
    use super::*;
    use mio::{Poll, Token};

    #[test]
    fn nobody_waits_for_a_loop_that_does_not_answer() {
        const SHORT: Duration = Duration::from_millis(20);
        let poll = Poll::new().unwrap();
        let waker = Arc::new(Waker::new(poll.registry(), Token(0)).unwrap());
        let (questions, asked) = Questions::new(waker);
        let answer = || questions.answer(Question::Snapshot, SHORT).map(drop);
        assert_eq!(answer(), Err(Unanswered::Busy), "it does not come to it");
        for _ in 1..MAX_WAITING {
            let (reply, _) = sync_channel(1);
            questions.ask(Question::Snapshot(reply)).unwrap();
        }
        assert_eq!(questions.ask(Question::Stop), Err(Unanswered::Busy), "too many wait");
        drop(asked);
        assert_eq!(answer(), Err(Unanswered::Ended));
    }
}
