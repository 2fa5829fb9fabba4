//! When tasks that wait for answers give up: none of them has a thread that could wait for that.
use std::collections::BTreeMap;
use std::mem;
use std::sync::{Mutex, MutexGuard, PoisonError};
use std::task::Waker;
use std::time::{Duration, Instant};

/// A thread looks at the deadlines this often, or when the next one comes.
const DEADLINE_CHECK_INTERVAL: Duration = Duration::from_millis(250);

/// The tasks that wait for answers, by when they give up.
///
/// What is known of a task is dropped when nothing is locked any more: it may be the last of the
/// task, whose own calls end then.
#[derive(Debug, Default)]
pub(crate) struct Deadlines {
    waiting: Mutex<BTreeMap<(Instant, u64), Waker>>,
}

impl Deadlines {
    /// The task that waits for what has this number is woken at its deadline.
    pub fn put(&self, end: Instant, number: u64, waker: &Waker) {
        let known = self.lock().insert((end, number), waker.clone());
        drop(known);
    }

    /// It has ended.
    pub fn remove(&self, end: Instant, number: u64) {
        let known = self.lock().remove(&(end, number));
        drop(known);
    }

    /// Whether no task waits.
    pub fn are_none(&self) -> bool {
        self.lock().is_empty()
    }

    /// How soon to look again. A deadline that is put later may be earlier than all others.
    pub fn next_in(&self, now: Instant) -> Duration {
        let waiting = self.lock();
        let next = waiting.first_key_value().map(|((end, _), _)| *end);
        next.map_or(DEADLINE_CHECK_INTERVAL, |end| {
            end.saturating_duration_since(now).min(DEADLINE_CHECK_INTERVAL)
        })
    }

    /// Wakes all tasks, each once.
    pub fn wake_all(&self) {
        let all = mem::take(&mut *self.lock());
        all.into_values().for_each(Waker::wake);
    }

    /// Wakes the tasks whose deadline has come, each once.
    pub fn wake_due(&self, now: Instant) {
        let mut due = Vec::new();
        let mut waiting = self.lock();
        while let Some(first) = waiting.first_entry().filter(|first| first.key().0 <= now) {
            due.push(first.remove());
        }
        drop(waiting);
        due.into_iter().for_each(Waker::wake);
    }

    fn lock(&self) -> MutexGuard<'_, BTreeMap<(Instant, u64), Waker>> {
        self.waiting.lock().unwrap_or_else(PoisonError::into_inner)
    }
}

#[cfg(test)]
mod tests {
    use super::*;
    use krl_testing::wake_count::WakeCount;

    #[test]
    fn a_task_is_woken_once_at_its_deadline_unless_it_has_ended() {
        let (count, now) = (WakeCount::new(), Instant::now());
        let (waker, second) = (count.waker(), Duration::from_secs(1));
        let deadlines = Deadlines::default();
        assert_eq!(deadlines.next_in(now), DEADLINE_CHECK_INTERVAL);
        for (end, number) in [(now + second, 1), (now, 2), (now, 3)] {
            deadlines.put(end, number, &waker);
        }
        assert_eq!(deadlines.next_in(now), Duration::ZERO);
        deadlines.remove(now, 3);
        deadlines.wake_due(now);
        deadlines.wake_due(now);
        assert_eq!(count.get(), 1);
        deadlines.wake_due(now + second);
        assert_eq!(count.get(), 2);
    }
}
