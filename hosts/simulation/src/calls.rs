//! The calls of a client that wait for their answers.
use crate::judge::Version;
use crate::lock_file::LockFile;
use krl::sans_io::{Cached, Call, Client, Held, Purpose};
use krl::store::Write;
use krl::{Error, Outcome, Row, Value};
use std::ops::Range;
use std::time::Duration;

/// When a call was made.
#[derive(Clone, Copy, Debug)]
pub struct Made {
    /// The version of the table then.
    pub version: Version,
    /// The moment.
    pub moment: Duration,
}

/// A call that was made, and how long it may take.
#[derive(Debug)]
pub struct Waiting<Asked, Answer> {
    asked: Asked,
    call: Call<Answer>,
    made: Made,
    /// By the clock of the client's machine.
    deadline: Duration,
}

/// A call that has ended.
#[derive(Debug)]
pub struct Ended<Asked, Answer> {
    /// What was asked.
    pub asked: Asked,
    /// When it was made.
    pub made: Made,
    /// The answer, or why there is none.
    pub answer: Result<Answer, Error>,
}

/// A range that is pinned, and its rows.
#[derive(Debug)]
pub struct Pinned {
    /// The keys.
    pub keys: Range<u64>,
    /// The rows, with what the client itself has written there since.
    pub rows: Vec<Row>,
    /// The pin.
    pub pin: u64,
    /// What it is for.
    pub purpose: Purpose,
    /// The values that the client has written under it.
    pub written: Vec<Value>,
    /// Until when, by the clock of the client's machine.
    pub until: Duration,
}

/// A range of which a caller awaits the next change.
#[derive(Debug)]
pub struct Watched {
    /// The keys.
    pub keys: Range<u64>,
    /// The rows as the caller knows them.
    pub rows: Vec<Row>,
    /// The call.
    pub call: Call<()>,
}

/// The calls of a client.
#[derive(Debug, Default)]
pub struct Calls {
    /// A read that waits.
    pub reading: Option<Waiting<Range<u64>, Vec<Row>>>,
    /// A write that waits.
    pub writing: Option<Waiting<Write, Outcome>>,
    /// Writes of an unknown outcome, each with the moment at which its call ended.
    pub unknown: Vec<(Write, Duration)>,
    /// A range that is to be pinned.
    pub holding: Option<Waiting<(Range<u64>, Purpose), Held>>,
    /// A range that is pinned.
    pub pinned: Option<Pinned>,
    /// A write that is made while the pin holds, or never. The pin may be gone by now.
    pub bound: Option<Waiting<Write, Outcome>>,
    /// A range that is given back.
    pub forgetting: Option<Waiting<Range<u64>, ()>>,
    /// A range that is watched.
    pub watched: Option<Watched>,
    /// The client leaves.
    pub leaving: Option<Waiting<(), ()>>,
}

impl Calls {
    /// Whether a write of the client may be on its way, or may become so.
    #[must_use]
    pub fn may_write(&self) -> bool {
        let waits = self.writing.is_some() || self.bound.is_some() || self.holding.is_some();
        waits || self.pinned.is_some()
    }
}

impl<Asked, Answer> Waiting<Asked, Answer> {
    /// A call that was made just now.
    pub fn new(asked: Asked, call: Call<Answer>, made: Made, deadline: Duration) -> Self {
        Waiting { asked, call, made, deadline }
    }

    /// When it was made.
    pub fn made(&self) -> Made {
        self.made
    }
}

/// What a client knows of a range, and its rows if it knows all of it.
pub fn cached(
    client: &mut Client<LockFile>,
    keys: &Range<u64>,
    time: Duration,
) -> (Cached, Vec<Row>) {
    let mut rows = Vec::new();
    let cached = client.cached(time, keys, &mut rows);
    (cached, rows)
}

/// Takes a call out of its place if it has ended. One whose time is over is given up.
pub fn ended<Asked, Answer>(
    place: &mut Option<Waiting<Asked, Answer>>,
    client: &mut Client<LockFile>,
    time: Duration,
) -> Option<Ended<Asked, Answer>> {
    let waiting = place.as_ref()?;
    let answer = match waiting.call.answer() {
        Some(answer) => answer,
        None if time >= waiting.deadline => client.give_up(time, &waiting.call),
        None => return None,
    };
    let Waiting { asked, made, .. } = place.take()?;
    Some(Ended { asked, made, answer })
}
