//! How callers wait for answers: on their threads, or as tasks.
use super::Link;
use crate::call::error::ErrorKind;
use crate::client::state::{Asked, State};
use std::future::Future;
use std::pin::Pin;
use std::sync::Arc;
use std::task::{Context, Poll};
use std::time::Instant;

/// What a client was asked, until it is answered or its deadline comes. If it is dropped earlier,
/// nobody waits for it any more, as at its deadline.
pub(crate) struct Awaited<T> {
    link: Arc<Link>,
    end: Instant,
    /// None once it has ended.
    asked: Option<Asked<T>>,
    /// What is done with an answer that came and that nobody takes.
    undo: fn(&Link, &T),
}

impl<T> Awaited<T> {
    /// Asks for something now.
    pub fn begin(
        link: &Arc<Link>,
        end: Instant,
        ask: impl FnOnce(&mut State) -> Asked<T>,
    ) -> Awaited<T> {
        let asked = Some(link.begin(ask));
        Awaited { link: Arc::clone(link), end, asked, undo: |_, _| () }
    }

    /// The same, and this is done with an answer that came and that nobody takes.
    pub fn or_undo(mut self, undo: fn(&Link, &T)) -> Awaited<T> {
        self.undo = undo;
        self
    }

    /// Waits on this thread.
    pub fn wait(mut self) -> Result<T, ErrorKind> {
        let asked = self.asked.take();
        asked.map_or(Err(ErrorKind::Stopped), |asked| self.link.finish(asked, self.end))
    }

    /// Nobody waits any more. Returns why there was no answer, unless there is one after all.
    fn give_up(&mut self) -> Option<Result<T, ErrorKind>> {
        let asked = self.asked.take()?;
        self.link.deadlines.remove(self.end, asked.id);
        let why = self.link.with_session(|session| session.give_up(asked.id));
        // It may have come meanwhile.
        Some(asked.answer.try_recv().unwrap_or(Err(why)))
    }
}

impl<T> Future for Awaited<T> {
    type Output = Result<T, ErrorKind>;

    fn poll(mut self: Pin<&mut Self>, context: &mut Context<'_>) -> Poll<Result<T, ErrorKind>> {
        let Some(asked) = &self.asked else { return Poll::Ready(Err(ErrorKind::Stopped)) };
        // It is put before the look at the answer, so that the thread finds it in any case.
        self.link.deadlines.put(self.end, asked.id, context.waker());
        match asked.answer.poll(context) {
            Poll::Ready(answered) => {
                self.link.deadlines.remove(self.end, asked.id);
                self.asked = None;
                Poll::Ready(answered.unwrap_or(Err(ErrorKind::Stopped)))
            }
            Poll::Pending if Instant::now() >= self.end => {
                Poll::Ready(self.give_up().unwrap_or(Err(ErrorKind::Stopped)))
            }
            Poll::Pending => Poll::Pending,
        }
    }
}

impl<T> Drop for Awaited<T> {
    fn drop(&mut self) {
        if let Some(Ok(untaken)) = self.give_up() {
            (self.undo)(&self.link, &untaken);
        }
    }
}
