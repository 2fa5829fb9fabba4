//! What the server has called back from a client, and what the client decides by it later.
//!
//! Each callback is noted once, and the notes answer four questions:
//!
//! - Is another client at work here? A write asks for its lock first where something was called
//!   back within a second.
//! - Where does the slot begin of which a callback left the client only the entry? A server takes a
//!   release for a slot only if the release covers all of it. A client that reads an entry without
//!   the gap below it does not know where the slot begins: the callback that took the gap was the
//!   last message to state it.
//! - What was called back since a caller asked last? It may read that ahead.
//! - Which callbacks may have crossed a push? A server ignores a release that names an older push
//!   than its last one. So a release that is sent while a push is on its way is lost, and the
//!   server calls back again. If a client asks for the next thing as soon as the last one is
//!   answered, a push is always on its way, and others would wait for long. So it takes such a
//!   callback again as soon as it has the push, before it asks for anything else. The library sends
//!   the release again then, and this time it names that push.
use crate::client::state::State;
use crate::model::code::Code;
use crate::proved::client_handle::{ClientHandle, Shown};
use crate::wire::message::Message;
use std::collections::VecDeque;
use std::ops::Range;
use std::time::{Duration, Instant};

/// This many callbacks are noted, and the oldest one is forgotten for the next. If one is forgotten
/// too early, a write makes a trip in vain, or a request may wait until it times out.
const MAX_CALLBACKS: usize = 256;

/// How long after a callback the client assumes that another one is at work there.
pub const CONTENDED_FOR: Duration = Duration::from_secs(1);

/// The last callbacks, one for each span, the last one at the end.
#[derive(Debug, Default)]
pub struct Callbacks {
    last: VecDeque<Callback>,
    /// Some of them may have crossed a push.
    have_crossed: bool,
}

#[derive(Debug)]
struct Callback {
    span: Range<u64>,
    at: Instant,
    /// [`Callbacks::take_news`] has not returned it yet.
    is_news: bool,
    /// It left the client only the entry of its slot.
    left_entry: bool,
    /// The message, if it may have crossed a push.
    crossing: Option<Vec<u8>>,
}

impl Callbacks {
    fn note(&mut self, callback: Callback) {
        self.last.retain(|other| other.span != callback.span);
        if self.last.len() == MAX_CALLBACKS {
            self.last.pop_front();
        }
        self.have_crossed |= callback.crossing.is_some();
        self.last.push_back(callback);
    }

    /// Whether another client may be at work at this point.
    pub fn show_contention(&self, point: u64, now: Instant) -> bool {
        let is_recent = |it: &&Callback| now.saturating_duration_since(it.at) < CONTENDED_FOR;
        self.last.iter().rev().take_while(is_recent).any(|it| it.span.contains(&point))
    }

    /// The slot that has this point, if its last callback left the client only its entry. The slot
    /// may have become smaller since.
    pub fn narrowed_slot(&self, point: u64) -> Option<&Range<u64>> {
        let is_last = |slot: &Range<u64>| {
            let mut of_the_entry = self.last.iter().rev().filter(|it| it.span.end == slot.end);
            of_the_entry.next().is_some_and(|it| it.span == *slot)
        };
        let narrowed = self.last.iter().rev().filter(|it| it.left_entry).map(|it| &it.span);
        narrowed.filter(|slot| slot.contains(&point)).find(|slot| is_last(slot))
    }

    /// Returns the spans that were called back since the last call of this.
    fn take_news(&mut self) -> Vec<Range<u64>> {
        let news = self.last.iter_mut().filter(|it| it.is_news);
        let take = |it: &mut Callback| {
            it.is_news = false;
            it.span.clone()
        };
        news.map(take).collect()
    }

    /// A lock of these points was answered after the callbacks: what it gave is not given back for
    /// them. Clients that waited there before this grant were served before it, or the server calls
    /// back again.
    ///
    /// The lock may not have given all that was asked for. Where the client holds nothing, the
    /// server may still count what the callback took, and would put the next request in front of
    /// others.
    fn leave_out(&mut self, points: &Range<u64>, holds: impl Fn(u64) -> bool) {
        let is_given = |span: &Range<u64>| {
            let first = span.start.max(points.start);
            first < span.end.min(points.end) && holds(first)
        };
        for callback in self.last.iter_mut().filter(|it| is_given(&it.span)) {
            callback.crossing = None;
        }
    }

    /// No push is on its way, and each callback that may have crossed one was taken again.
    fn end_crossing(&mut self) {
        self.have_crossed = false;
        self.last.iter_mut().for_each(|it| it.crossing = None);
    }
}

impl State {
    /// Returns the spans that were called back since the last call of this.
    pub fn take_called_back(&mut self) -> Vec<Range<u64>> {
        self.held.callbacks.take_news()
    }

    /// Gives the client a message, and after a push the callbacks that may have crossed it.
    pub(in crate::client::state) fn step(&mut self, message: Message<'_>) -> Result<(), Code> {
        if let Some(span) = message.called_back() {
            return self.call_back(span, message.bytes());
        }
        let was_waiting = self.shows(|shown| shown.is_waiting);
        let awaited = self.shows(Shown::awaits_a_push);
        give(&mut self.client, message.bytes())?;
        self.note_received(message.kind(), awaited);
        if message.kind().is_push() {
            self.attempts.note_served();
            self.call_back_again(was_waiting)?;
        }
        if let Some(slot) = message.answered_slot() {
            self.end_of_write(&slot);
        }
        Ok(())
    }

    /// Whether this is so of the client, if it is still there.
    pub(in crate::client::state) fn shows(&self, is_so: impl FnOnce(&Shown) -> bool) -> bool {
        self.client.status().is_ok_and(|shown| is_so(&shown))
    }

    /// Gives the client a callback, and notes it.
    fn call_back(&mut self, span: Range<u64>, message: &[u8]) -> Result<(), Code> {
        self.held.pins.note(&span, self.now.monotonic);
        self.note_shared(&span);
        let crossing = self.shows(Shown::awaits_a_push).then(|| message.to_vec());
        let read = self.reads_of(&span);
        give(&mut self.client, message)?;
        self.note_lost(&span, read);
        let (at, left_entry) = (self.now.monotonic, self.client.reads_only_entry(&span));
        self.held.callbacks.note(Callback { span, at, is_news: true, left_entry, crossing });
        Ok(())
    }

    /// Takes the callbacks again that may have crossed a push, and for the last time if no other
    /// push may be on its way.
    fn call_back_again(&mut self, was_waiting: bool) -> Result<(), Code> {
        if !self.held.callbacks.have_crossed {
            return Ok(());
        }
        if was_waiting
            && !self.shows(|shown| shown.is_waiting)
            && let Some(request) = &self.held.request
        {
            let client = &self.client;
            self.held.callbacks.leave_out(&request.points, |point| client.holds(point));
        }
        for callback in &mut self.held.callbacks.last {
            if let Some(message) = &callback.crossing {
                give(&mut self.client, message)?;
                callback.left_entry = self.client.reads_only_entry(&callback.span);
            }
        }
        if !self.shows(Shown::awaits_a_push) {
            self.held.callbacks.end_crossing();
        }
        Ok(())
    }
}

/// Gives the client a message. If memory is refused the message counts as lost, and a client
/// that has left takes none.
fn give(client: &mut ClientHandle, message: &[u8]) -> Result<(), Code> {
    match client.step(message) {
        Ok(()) | Err(Code::OutOfMemory | Code::Gone) => Ok(()),
        Err(code) => Err(code),
    }
}

#[cfg(test)]
impl Callbacks {
    /// A callback of this span has come at this moment.
    pub fn note_at(&mut self, span: Range<u64>, at: Instant) {
        let (is_news, left_entry, crossing) = (true, true, Some(Vec::new()));
        self.note(Callback { span, at, is_news, left_entry, crossing });
    }
}

#[cfg(test)]
mod tests;
