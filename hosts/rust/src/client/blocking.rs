//! Calls that wait on their threads.
use crate::call::error::Error;
use crate::call::mutation::{BatchError, Mutation};
use crate::client::calls::Calls;
use crate::log::span;
use crate::model::change::{Outcome, Write};
use crate::model::row::Row;
use std::future::Future;
use std::ops::Range;
use std::pin::pin;
use std::sync::{Arc, Condvar, Mutex, MutexGuard, PoisonError};
use std::task::{Context, Poll, Wake, Waker};
use std::time::Instant;

impl Calls<'_> {
    /// Waits on this thread until the future of a call is ready, which it is by the deadline. Most
    /// are ready when they are first polled, and need no waker.
    pub fn block<T>(&self, future: impl Future<Output = T>) -> T {
        let mut future = pin!(future);
        let mut no_context = Context::from_waker(Waker::noop());
        if let Poll::Ready(answer) = future.as_mut().poll(&mut no_context) {
            return answer;
        }
        let woken = Arc::new(Woken::default());
        let waker = Waker::from(Arc::clone(&woken));
        let mut context = Context::from_waker(&waker);
        loop {
            if let Poll::Ready(answer) = future.as_mut().poll(&mut context) {
                return answer;
            }
            woken.wait(self.end);
        }
    }

    pub fn block_on_write(&self, write: Write) -> Result<Outcome, Error> {
        let key = write.key();
        let _span = span::of(name_of(write), self.table.number(), &(key..key.saturating_add(1)));
        self.block(self.write(write))
    }

    pub fn block_on_set(&self, row: Row) -> Result<Outcome, Error> {
        let keys = row.key..row.key.saturating_add(1);
        let _span = span::of("set", self.table.number(), &keys);
        self.block(self.set(row))
    }

    pub fn block_on_all(&self, writes: Vec<Mutation>) -> Result<Vec<Outcome>, BatchError> {
        let _span = span::of("write_all", self.table.number(), &hull(&writes));
        self.block(self.write_all(writes))
    }
}

/// Whether a thread that waits for a future is to poll it again.
#[derive(Default)]
struct Woken {
    is_woken: Mutex<bool>,
    changed: Condvar,
}

impl Woken {
    /// Waits until it is woken, or until the deadline.
    fn wait(&self, end: Instant) {
        let left = end.saturating_duration_since(Instant::now());
        let waited = self.changed.wait_timeout_while(self.lock(), left, |is_woken| !*is_woken);
        *waited.unwrap_or_else(PoisonError::into_inner).0 = false;
    }

    fn lock(&self) -> MutexGuard<'_, bool> {
        self.is_woken.lock().unwrap_or_else(PoisonError::into_inner)
    }
}

impl Wake for Woken {
    fn wake(self: Arc<Woken>) {
        *self.lock() = true;
        self.changed.notify_one();
    }
}

fn name_of(write: Write) -> &'static str {
    match write {
        Write::Insert(_) => "insert",
        Write::Put(_) => "put",
        Write::Delete(_) => "delete",
    }
}

/// The least range that has the keys of all these writes.
fn hull(writes: &[Mutation]) -> Range<u64> {
    let keys = || writes.iter().map(Mutation::key);
    keys().min().unwrap_or(0)..keys().max().map_or(0, |last| last.saturating_add(1))
}
