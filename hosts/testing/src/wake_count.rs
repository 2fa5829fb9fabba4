//! A task that counts how many times it is woken.
use std::sync::Arc;
use std::sync::atomic::{AtomicUsize, Ordering};
use std::task::{Wake, Waker};

/// How many times a task was woken that does nothing else.
#[derive(Debug, Default)]
pub struct WakeCount(AtomicUsize);

impl WakeCount {
    /// A count of 0.
    pub fn new() -> Arc<WakeCount> {
        Arc::default()
    }

    /// What counts here.
    pub fn waker(self: &Arc<WakeCount>) -> Waker {
        Waker::from(Arc::clone(self))
    }

    /// How many times it was woken.
    pub fn get(&self) -> usize {
        self.0.load(Ordering::Relaxed)
    }
}

impl Wake for WakeCount {
    fn wake(self: Arc<WakeCount>) {
        self.0.fetch_add(1, Ordering::Relaxed);
    }
}
