//! Where the answer to a job comes: a caller waits for it, or a task that polls it is woken.
use crate::client::wakes::Wakes;
use std::sync::mpsc::{RecvTimeoutError, TryRecvError};
use std::sync::{Arc, Condvar, Mutex, MutexGuard, PoisonError};
use std::task::{Context, Poll, Waker};
use std::time::Duration;

/// The end of whoever waits for the answer.
#[derive(Debug)]
pub(crate) struct Answer<T>(Arc<Place<T>>);

/// The end of whoever answers, once. If it is dropped without that, no answer comes any more.
#[derive(Debug)]
pub(crate) struct Answering<T>(Arc<Place<T>>);

#[derive(Debug)]
struct Place<T> {
    content: Mutex<Content<T>>,
    changed: Condvar,
    wakes: Wakes,
}

#[derive(Debug)]
struct Content<T> {
    state: State<T>,
    /// A caller waits for `changed`, or has waited for it. If none does, the system need not be
    /// asked to wake one.
    is_waited_for: bool,
}

#[derive(Debug)]
enum State<T> {
    /// There is no answer yet. This task is to be woken when there is one, or when none comes any
    /// more.
    Open(Option<Waker>),
    Answered(T),
    /// The answer was taken, or none comes any more.
    Over,
}

/// A place for one answer. A task that waits for it is woken with `wakes`.
pub(crate) fn place<T>(wakes: &Wakes) -> (Answering<T>, Answer<T>) {
    let content = Mutex::new(Content { state: State::Open(None), is_waited_for: false });
    let place = Arc::new(Place { content, changed: Condvar::new(), wakes: wakes.clone() });
    (Answering(Arc::clone(&place)), Answer(place))
}

impl<T> Answering<T> {
    /// Gives the answer, also if nobody waits for it any more.
    pub fn give(self, answer: T) {
        self.0.end(State::Answered(answer));
    }
}

impl<T> Drop for Answering<T> {
    fn drop(&mut self) {
        self.0.end(State::Over);
    }
}

impl<T> Answer<T> {
    /// The answer, if it has come.
    ///
    /// # Errors
    ///
    /// `Empty` if it has not come; `Disconnected` if it was taken, or none comes any more.
    pub fn try_recv(&self) -> Result<T, TryRecvError> {
        self.0.lock().state.take().map_err(|is_over| match is_over {
            IsOver::Yes => TryRecvError::Disconnected,
            IsOver::No => TryRecvError::Empty,
        })
    }

    /// Waits so long for the answer.
    ///
    /// # Errors
    ///
    /// `Timeout` if it has not come; `Disconnected` if it was taken, or none comes any more.
    pub fn recv_timeout(&self, timeout: Duration) -> Result<T, RecvTimeoutError> {
        let mut content = self.0.lock();
        content.is_waited_for = true;
        let is_open = |content: &mut Content<T>| matches!(content.state, State::Open(_));
        let waited = self.0.changed.wait_timeout_while(content, timeout, is_open);
        let (mut content, _) = waited.unwrap_or_else(PoisonError::into_inner);
        content.state.take().map_err(|is_over| match is_over {
            IsOver::Yes => RecvTimeoutError::Disconnected,
            IsOver::No => RecvTimeoutError::Timeout,
        })
    }

    /// The answer, or nothing if none comes any more. Until then the task is woken when it has
    /// something to see here.
    pub fn poll(&self, context: &Context<'_>) -> Poll<Option<T>> {
        let mut guard = self.0.lock();
        if let State::Open(waker) = &mut guard.state {
            let known = waker.replace(context.waker().clone());
            // It may be the last of a task, whose own calls end then.
            drop(guard);
            drop(known);
            return Poll::Pending;
        }
        Poll::Ready(guard.state.take().ok())
    }
}

/// Whether there is no answer to come.
enum IsOver {
    Yes,
    No,
}

impl<T> State<T> {
    fn take(&mut self) -> Result<T, IsOver> {
        match std::mem::replace(self, State::Over) {
            State::Answered(answer) => Ok(answer),
            State::Over => Err(IsOver::Yes),
            open @ State::Open(_) => {
                *self = open;
                Err(IsOver::No)
            }
        }
    }
}

impl<T> Place<T> {
    fn lock(&self) -> MutexGuard<'_, Content<T>> {
        self.content.lock().unwrap_or_else(PoisonError::into_inner)
    }

    /// Ends in this state, if it has not ended before.
    fn end(&self, end: State<T>) {
        let mut content = self.lock();
        let State::Open(waker) = &mut content.state else { return };
        let waker = waker.take();
        content.state = end;
        let is_waited_for = content.is_waited_for;
        drop(content);
        if is_waited_for {
            self.changed.notify_all();
        }
        if let Some(task) = waker {
            self.wakes.add(task);
        }
    }
}

#[cfg(test)]
mod tests {
    use super::*;
    use krl_testing::wake_count::WakeCount;

    const LONG: Duration = Duration::from_secs(30);

    #[test]
    fn an_answer_is_taken_once() {
        let (answering, answer) = place(&Wakes::default());
        assert_eq!(answer.try_recv(), Err(TryRecvError::Empty));
        answering.give(7);
        assert_eq!(answer.recv_timeout(LONG), Ok(7));
        assert_eq!(answer.try_recv(), Err(TryRecvError::Disconnected));
    }

    #[test]
    fn one_who_waits_learns_that_no_answer_comes() {
        let (answering, answer) = place::<u8>(&Wakes::default());
        let waiting = std::thread::spawn(move || answer.recv_timeout(LONG));
        drop(answering);
        assert_eq!(waiting.join().unwrap(), Err(RecvTimeoutError::Disconnected));
    }

    #[test]
    fn a_task_is_woken_once_by_an_answer_and_by_its_absence() {
        for gives in [true, false] {
            let (count, wakes) = (WakeCount::new(), Wakes::default());
            let (answering, answer) = place(&wakes);
            let task = count.waker();
            assert!(answer.poll(&Context::from_waker(&task)).is_pending());
            assert!(answer.poll(&Context::from_waker(&task)).is_pending());
            if gives {
                answering.give(7);
            } else {
                drop(answering);
            }
            assert_eq!(count.get(), 0, "the client may be locked still");
            wakes.wake_all();
            wakes.wake_all();
            assert_eq!(count.get(), 1);
            let found = answer.poll(&Context::from_waker(&task));
            assert_eq!(found, Poll::Ready(gives.then_some(7)));
        }
    }
}
