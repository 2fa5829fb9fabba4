//! Waits of calls that end at their deadlines, in tasks too.
use crate::client::deadlines::Deadlines;
use crate::client::waiting::Waiting;
use std::future::poll_fn;
use std::sync::atomic::{AtomicU64, Ordering};
use std::sync::{Arc, Mutex, MutexGuard, PoisonError};
use std::task::{Context, Poll, Waker};
use std::thread;
use std::time::Instant;

/// Wakes calls that wait: all of them when something has changed, and tasks at their deadlines. A
/// thread looks at these, as long as there are any. A caller that waits on its thread needs none.
#[derive(Debug, Default)]
pub(crate) struct Alarm {
    deadlines: Deadlines,
    /// How many waits have begun.
    waits: AtomicU64,
    /// Whether the thread runs.
    is_watched: Mutex<bool>,
}

/// A call that waits, until this is dropped.
struct Wait<'a> {
    alarm: &'a Arc<Alarm>,
    end: Instant,
    number: u64,
    waiting: Waiting,
}

impl Alarm {
    /// Polls until there is a value, or until the deadline: then there is none.
    pub async fn until<T>(
        self: &Arc<Alarm>,
        end: Instant,
        waiting: Waiting,
        mut poll: impl FnMut(&Context<'_>) -> Poll<T>,
    ) -> Option<T> {
        let number = self.waits.fetch_add(1, Ordering::Relaxed);
        let wait = Wait { alarm: self, end, number, waiting };
        poll_fn(|context| {
            // It is put before the look, so that who wakes it finds it in any case.
            wait.put(context.waker());
            match poll(context) {
                Poll::Ready(value) => Poll::Ready(Some(value)),
                Poll::Pending if Instant::now() >= end => Poll::Ready(None),
                Poll::Pending => Poll::Pending,
            }
        })
        .await
    }

    /// Has each call that waits look again.
    pub fn wake_all(&self) {
        self.deadlines.wake_all();
    }

    /// Looks at the deadlines until there are none.
    fn run(&self) {
        while self.has_deadlines() {
            thread::sleep(self.deadlines.next_in(Instant::now()));
            self.deadlines.wake_due(Instant::now());
        }
    }

    /// Whether there are any. If there are none the thread ends: the next one that is put starts
    /// another.
    fn has_deadlines(&self) -> bool {
        let mut is_watched = self.is_watched();
        *is_watched = !self.deadlines.are_none();
        *is_watched
    }

    fn is_watched(&self) -> MutexGuard<'_, bool> {
        self.is_watched.lock().unwrap_or_else(PoisonError::into_inner)
    }
}

impl Wait<'_> {
    /// The call is woken with the others, and a task at its deadline too.
    fn put(&self, waker: &Waker) {
        self.alarm.deadlines.put(self.end, self.number, waker);
        if self.waiting == Waiting::InTask && !self.is_watched() {
            // It looks again at once, and so at its deadline.
            waker.wake_by_ref();
        }
    }

    /// Whether a thread looks at the deadlines. It is started if it does not run.
    fn is_watched(&self) -> bool {
        let mut is_watched = self.alarm.is_watched();
        if !*is_watched {
            let alarm = Arc::clone(self.alarm);
            let thread = thread::Builder::new().name("krl-deadlines".into());
            *is_watched = thread.spawn(move || alarm.run()).is_ok();
        }
        *is_watched
    }
}

impl Drop for Wait<'_> {
    fn drop(&mut self) {
        self.alarm.deadlines.remove(self.end, self.number);
    }
}

#[cfg(test)]
mod tests {
    use super::*;
    use krl_testing::wake_count::WakeCount;
    use std::pin::pin;
    use std::time::Duration;

    const LONG: Duration = Duration::from_secs(60);

    fn wait_until(is_so: impl Fn() -> bool) {
        let end = Instant::now() + LONG;
        while !is_so() {
            assert!(Instant::now() < end);
            thread::sleep(Duration::from_millis(1));
        }
    }

    #[test]
    fn a_task_is_woken_at_its_deadline_next_to_one_that_waits_longer() {
        let alarm = Arc::new(Alarm::default());
        let (count, other) = (WakeCount::new(), WakeCount::new());
        let wait = |end| alarm.until(end, Waiting::InTask, |_| Poll::<u8>::Pending);
        {
            let mut longer = pin!(wait(Instant::now() + LONG));
            assert!(longer.as_mut().poll(&mut Context::from_waker(&other.waker())).is_pending());
            let mut waits = pin!(wait(Instant::now() + Duration::from_millis(300)));
            let mut poll = || waits.as_mut().poll(&mut Context::from_waker(&count.waker()));
            assert!(poll().is_pending());
            wait_until(|| count.get() == 1);
            assert_eq!(poll(), Poll::Ready(None));
            assert_eq!(other.get(), 0);
            alarm.wake_all();
            assert_eq!(other.get(), 1);
        }
        wait_until(|| !*alarm.is_watched());
    }

    #[test]
    fn what_is_ready_ends_the_wait_also_at_its_deadline() {
        let alarm = Arc::new(Alarm::default());
        let mut ready = pin!(alarm.until(Instant::now(), Waiting::InTask, |_| Poll::Ready(7)));
        let polled = ready.as_mut().poll(&mut Context::from_waker(Waker::noop()));
        assert_eq!(polled, Poll::Ready(Some(7)));
    }
}
