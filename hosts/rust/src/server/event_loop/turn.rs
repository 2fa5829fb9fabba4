//! One turn of a server. The thread of a server makes turns, and so does a simulation: each with
//! its own connections, store and clock.
use super::EventLoop;
use super::commits::Commit;
use crate::lease::clocks::Now;
use crate::server::connections::{Connections, Found, Line};
use crate::server::error::ServeError;
use std::time::{Duration, Instant};

/// The most messages that a turn judges before it commits what they changed. A read that brings no
/// whole message counts as one.
pub(super) const MAX_AT_ONCE: usize = 256;

/// The most frames of readers that a turn takes. A client whose message comes meanwhile waits until
/// all of them are answered.
pub(super) const MAX_OF_READERS: usize = 16;

/// What is around a server: the bytes of its connections, and the time.
pub(crate) trait Environment {
    /// The present moment.
    fn now(&self) -> Now;

    /// Reads once from this connection, and returns what it has then.
    fn read(&mut self, connections: &mut Connections, number: u64) -> Found;

    /// Writes what leaves, as far as the peers take it at once, and closes what is to be closed.
    fn settle(&mut self, connections: &mut Connections);
}

/// A turn that has begun. It judges what has come, and what time brings; then its commit is made;
/// and only then it sends.
#[derive(Clone, Copy, Debug)]
pub(crate) struct Turn {
    was_to_end: bool,
    began: Now,
    judged: usize,
    /// How many frames of readers it has taken, and since when.
    taken: usize,
    readers_began: Option<Instant>,
    /// Since when its commit may wait for writers.
    gathers: Option<Instant>,
}

/// What a turn needs next.
#[derive(Debug)]
#[must_use]
pub(crate) enum Step {
    /// Its commit waits for writers that are about to write again. It continues by [`Turn::judge`]
    /// when something has come, or after this time.
    Gather(Duration),
    /// The store has to make this commit. It continues by [`Turn::committed`].
    Commit(Commit),
    /// Nothing: it has ended.
    End {
        /// Whether the server makes another turn.
        goes_on: bool,
    },
}

impl Turn {
    /// A turn that began to look at its connections at this moment. If the server was to end before
    /// that, all that came before is seen by this turn.
    pub fn new(was_to_end: bool, began: Now) -> Turn {
        Turn { was_to_end, began, judged: 0, taken: 0, readers_began: None, gathers: None }
    }

    /// Judges what has come, and then what time brings: so nobody is taken for silent whose
    /// messages wait to be read.
    pub fn judge(
        &mut self,
        events: &mut EventLoop,
        around: &mut impl Environment,
    ) -> Result<Step, ServeError> {
        self.judge_connections(events, around)?;
        let now = around.now().monotonic;
        let waited = now.saturating_duration_since(*self.gathers.get_or_insert(now));
        let rest = events.waits_for_writers().saturating_sub(waited);
        if self.judged < MAX_AT_ONCE && !rest.is_zero() {
            return Ok(Step::Gather(rest));
        }
        if events.nudge(self.began)? {
            events.count_held(|| around.now().monotonic);
        }
        match events.take_commit(around.now())? {
            Some(commit) => Ok(Step::Commit(commit)),
            None => self.send(events, around),
        }
    }

    /// Judges connections in their turn, and after all others those of readers.
    fn judge_connections(
        &mut self,
        events: &mut EventLoop,
        around: &mut impl Environment,
    ) -> Result<(), ServeError> {
        while self.judged < MAX_AT_ONCE && judge_one(Line::Clients, events, around)? {
            self.judged += 1;
        }
        let now = around.now().monotonic;
        if self.judged > 0 {
            events.reads().note_clients(now);
        }
        if !events.reads().are_due(now) {
            return Ok(());
        }
        while self.taken < MAX_OF_READERS && judge_one(Line::Readers, events, around)? {
            self.taken += 1;
            self.readers_began.get_or_insert(now);
        }
        Ok(())
    }

    /// The store has made the turn's commit: what rests on it leaves.
    pub fn committed(
        self,
        commit: Commit,
        events: &mut EventLoop,
        around: &mut impl Environment,
    ) -> Result<Step, ServeError> {
        events.committed(commit, around.now())?;
        self.send(events, around)
    }

    fn send(
        self,
        events: &mut EventLoop,
        around: &mut impl Environment,
    ) -> Result<Step, ServeError> {
        events.send(around.now())?;
        around.settle(events.connections());
        let now = around.now();
        if let Some(began) = self.readers_began {
            events.reads().answered(began, now.monotonic);
        }
        events.end_turn(self.began, now);
        let goes_on = events.goes_on(self.was_to_end, self.began, self.judged + self.taken);
        Ok(Step::End { goes_on })
    }
}

/// Judges the next connection of the line. Returns whether there was one.
fn judge_one(
    line: Line,
    events: &mut EventLoop,
    around: &mut impl Environment,
) -> Result<bool, ServeError> {
    let found = match events.connections().look(line) {
        Found::Nobody => return Ok(false),
        Found::Unread(number) => around.read(events.connections(), number),
        found => found,
    };
    events.take(found)?;
    Ok(true)
}
