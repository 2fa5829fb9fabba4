//! Tasks whose answers have come, until they are woken.
use std::sync::{Arc, Mutex, MutexGuard, PoisonError};
use std::task::Waker;

/// Tasks that have something to see. An answer is given while the client is locked, and an executor
/// may poll a task within its call to wake it, and the task may call the client again: so the task is
/// kept here until nothing of the client is locked any more.
#[derive(Clone, Debug, Default)]
pub(crate) struct Wakes {
    due: Arc<Mutex<Vec<Waker>>>,
}

impl Wakes {
    /// The task is one of those that [`Wakes::wake_all`] wakes next.
    pub fn add(&self, task: Waker) {
        self.lock().push(task);
    }

    /// Wakes the tasks, each once. The caller has locked nothing of the client.
    pub fn wake_all(&self) {
        let due = std::mem::take(&mut *self.lock());
        due.into_iter().for_each(Waker::wake);
    }

    fn lock(&self) -> MutexGuard<'_, Vec<Waker>> {
        self.due.lock().unwrap_or_else(PoisonError::into_inner)
    }
}
