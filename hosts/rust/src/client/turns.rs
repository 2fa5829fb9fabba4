//! What callers use one after another.
use std::collections::VecDeque;
use std::sync::{Condvar, Mutex, MutexGuard, PoisonError};
use std::time::Instant;

/// A value that callers use one after another, in the order in which they ask for it.
#[derive(Debug)]
pub(crate) struct Turns<T> {
    queue: Mutex<Queue<T>>,
    changed: Condvar,
}

#[derive(Debug)]
struct Queue<T> {
    /// None while a caller has it.
    value: Option<T>,
    /// The callers that wait, the first one first.
    waiting: VecDeque<u64>,
    /// How many have asked.
    asked: u64,
}

/// A caller that has the value, until this is dropped.
struct Turn<'t, T> {
    turns: &'t Turns<T>,
    value: Option<T>,
}

impl<T> Turns<T> {
    pub fn new(value: T) -> Turns<T> {
        let queue = Queue { value: Some(value), waiting: VecDeque::new(), asked: 0 };
        Turns { queue: Mutex::new(queue), changed: Condvar::new() }
    }

    /// Uses the value when all that asked before have ended. It does not if that is after the
    /// deadline.
    pub fn use_by<R>(&self, deadline: Instant, work: impl FnOnce(&mut T) -> R) -> Option<R> {
        let mut turn = self.take(deadline)?;
        turn.value.as_mut().map(work)
    }

    fn take(&self, deadline: Instant) -> Option<Turn<'_, T>> {
        let mut queue = self.lock();
        queue.asked += 1;
        let number = queue.asked;
        queue.waiting.push_back(number);
        let waits =
            |queue: &mut Queue<T>| queue.value.is_none() || queue.waiting.front() != Some(&number);
        let left = deadline.saturating_duration_since(Instant::now());
        let waited = self.changed.wait_timeout_while(queue, left, waits);
        let mut queue = waited.unwrap_or_else(PoisonError::into_inner).0;
        let is_mine = !waits(&mut queue) && Instant::now() < deadline;
        queue.waiting.retain(|other| *other != number);
        let value = if is_mine { queue.value.take() } else { None };
        drop(queue);
        if value.is_none() {
            // It may have been the turn of this one.
            self.changed.notify_all();
        }
        value.map(|value| Turn { turns: self, value: Some(value) })
    }

    fn lock(&self) -> MutexGuard<'_, Queue<T>> {
        self.queue.lock().unwrap_or_else(PoisonError::into_inner)
    }
}

impl<T> Drop for Turn<'_, T> {
    fn drop(&mut self) {
        self.turns.lock().value = self.value.take();
        self.turns.changed.notify_all();
    }
}

#[cfg(test)]
mod tests {
    use super::*;
    use std::panic::{AssertUnwindSafe, catch_unwind};
    use std::thread;
    use std::time::Duration;

    const LONG: Duration = Duration::from_secs(60);
    const SHORT: Duration = Duration::from_millis(50);

    fn after(time: Duration) -> Instant {
        Instant::now() + time
    }

    /// Waits until this many wait.
    fn wait_for<T>(turns: &Turns<T>, count: usize) {
        let end = after(LONG);
        while turns.lock().waiting.len() < count {
            assert!(Instant::now() < end);
            thread::sleep(Duration::from_millis(1));
        }
    }

    #[test]
    fn who_waits_beyond_the_deadline_has_no_turn_and_keeps_nobody_waiting() {
        let turns = Turns::new(7);
        thread::scope(|scope| {
            let turn = turns.take(after(LONG)).unwrap();
            let late = scope.spawn(|| turns.use_by(after(SHORT), |value| *value));
            wait_for(&turns, 1);
            let next = scope.spawn(|| turns.use_by(after(LONG), |value| *value));
            assert_eq!(late.join().unwrap(), None);
            drop(turn);
            assert_eq!(next.join().unwrap(), Some(7));
        });
        assert_eq!(turns.use_by(Instant::now(), |value| *value), None, "its time is over");
    }

    #[test]
    fn the_first_who_asks_is_the_first_who_has_it() {
        let turns = Turns::new(Vec::new());
        thread::scope(|scope| {
            let turn = turns.take(after(LONG)).unwrap();
            for number in 0..5 {
                let turns = &turns;
                scope.spawn(move || turns.use_by(after(LONG), |served| served.push(number)));
                wait_for(turns, number + 1);
            }
            drop(turn);
        });
        assert_eq!(turns.use_by(after(LONG), |served| served.clone()).unwrap(), [0, 1, 2, 3, 4]);
    }

    #[test]
    fn a_panic_ends_one_turn_only() {
        let turns = Turns::new(7);
        let panics = || turns.use_by(after(LONG), |_| panic!("expected by this test"));
        assert!(catch_unwind(AssertUnwindSafe(panics)).is_err());
        assert_eq!(turns.use_by(after(LONG), |value| *value), Some(7));
    }
}
