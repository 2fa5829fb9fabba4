//! The calls of clients and pins, over one server or several. They wait on their threads or in
//! tasks. A call at a shard that changes waits for the next map, and is made by that.
mod once;

use crate::call::error::{Error, ErrorKind, Unsent};
use crate::call::mutation::{BatchError, Fate, Mutation};
use crate::client::joined::Joined;
use crate::client::pinned::Pinned;
use crate::client::state::Purpose;
use crate::client::table::Table;
use crate::client::waiting::Waiting;
use crate::model::change::{Outcome, Write};
use crate::model::row::Row;
use once::Taken;
use std::ops::Range;
use std::sync::Arc;
use std::time::{Duration, Instant};

/// Calls of a client, or of a pin, that end by a deadline. They wait on their threads by default.
#[derive(Clone)]
pub(crate) struct Calls<'c> {
    pub table: &'c Arc<Table>,
    /// The servers by the map by which they are made. A pin stays with the map by which it was taken.
    joined: Arc<Joined>,
    /// The pin to which the writes are bound.
    pin: Option<&'c Pinned>,
    pub end: Instant,
    waiting: Waiting,
}

/// Why a write that waits for the next map ends at its deadline.
const NOT_SENT: ErrorKind = ErrorKind::NotSent(Unsent::TimedOut);

/// Makes a call by the current map, and again by each next one for as long as its shard changes.
macro_rules! by_each_map {
    ($calls:ident, $late:expr, $by_map:ident => $call:expr) => {{
        let mut $by_map = $calls.clone();
        loop {
            let made = $call.await;
            if let Some(ended) = $by_map.ended(made, $late).await {
                return ended;
            }
        }
    }};
}

impl<'c> Calls<'c> {
    /// Calls of a client that begin now.
    pub fn new(table: &'c Arc<Table>, timeout: Duration) -> Calls<'c> {
        let (joined, end) = (table.now(), Instant::now() + timeout);
        Calls { table, joined, pin: None, end, waiting: Waiting::OnThread }
    }

    /// Calls of a pin that begin now.
    pub fn of_pin(pin: &'c Pinned, timeout: Duration) -> Calls<'c> {
        let (joined, end) = (Arc::clone(pin.joined()), Instant::now() + timeout);
        let waiting = Waiting::OnThread;
        Calls { table: pin.table(), joined, pin: Some(pin), end, waiting }
    }

    /// The same calls, which wait in a task.
    pub fn in_task(self) -> Calls<'c> {
        Calls { waiting: Waiting::InTask, ..self }
    }

    /// What a call reports that has ended so by its map; or `None` if it is to be made again, since
    /// its shard changes and it has the next map by now. If that is `late`, it reports this. No call
    /// of a pin is made by another map than the pin.
    ///
    /// **Only what was not made is made again**: a write that was sent is judged before its shard is
    /// left, or ends with another error.
    async fn ended<T>(
        &mut self,
        made: Result<T, Error>,
        late: ErrorKind,
    ) -> Option<Result<T, Error>> {
        let shard = match made {
            Err(Error { kind: ErrorKind::Left, shard }) if !self.joined.is_one() => shard,
            made => return Some(made),
        };
        if self.pin.is_none()
            && self.table.live.next_after(&self.joined, self.end, self.waiting).await
        {
            self.joined = self.table.now();
            return None;
        }
        let kind = match self.pin {
            _ if self.table.live.is_over() => ErrorKind::Left,
            Some(_) => ErrorKind::PinIsVoid,
            None => late,
        };
        Some(Err(Error { kind, shard }))
    }

    /// The rows of a range that the caches do not know.
    pub async fn read(&self, keys: Range<u64>) -> Result<Vec<Row>, Error> {
        by_each_map!(self, ErrorKind::TimedOut, by_map => by_map.read_by_map(keys.clone()))
    }

    /// The rows of a range, as the stores have them: the caches keep nothing of it.
    pub async fn read_once(&self, keys: Range<u64>) -> Result<Vec<Row>, Error> {
        by_each_map!(self, ErrorKind::TimedOut, by_map => by_map.read_once_by_map(keys.clone()))
    }

    /// Reads the range and pins it for this.
    pub async fn hold(&self, keys: Range<u64>, purpose: Purpose) -> Taken {
        by_each_map!(self, ErrorKind::TimedOut, by_map => by_map.hold_by_map(keys.clone(), purpose))
    }

    pub async fn write(&self, write: Write) -> Result<Outcome, Error> {
        by_each_map!(self, NOT_SENT, by_map => by_map.write_by_map(write))
    }

    /// Gives a key a value, whether or not it has a row.
    pub async fn set(&self, row: Row) -> Result<Outcome, Error> {
        by_each_map!(self, NOT_SENT, by_map => by_map.set_by_map(row))
    }

    /// Makes the writes at all shards at once, those of a shard one after the other. A void pin is
    /// refused also without a write.
    pub async fn write_all(&self, writes: Vec<Mutation>) -> Result<Vec<Outcome>, BatchError> {
        let (mut by_map, mut fates) = (self.clone(), vec![Fate::NotMade; writes.len()]);
        loop {
            let places = not_made(&fates);
            let left = places.iter().map(|place| writes[*place]).collect();
            let (made, ended) = match by_map.write_all_by_map(left).await {
                Ok(outcomes) => (outcomes.into_iter().map(Fate::Judged).collect(), Ok(())),
                Err(BatchError { fates, error }) => (fates, Err(error)),
            };
            places.iter().zip(made).for_each(|(place, fate)| fates[*place] = fate);
            let ended = match ended {
                Err(error) if fates.contains(&Fate::Unknown) => Err(error),
                ended => match by_map.ended(ended, NOT_SENT).await {
                    Some(ended) => ended,
                    None => continue,
                },
            };
            return match ended {
                Ok(()) => Ok(fates.into_iter().filter_map(Fate::outcome).collect()),
                Err(error) => Err(BatchError { fates, error }),
            };
        }
    }

    /// Gives back what the client holds of the range.
    pub async fn forget(&self, keys: Range<u64>) -> Result<(), Error> {
        by_each_map!(self, ErrorKind::TimedOut, by_map => by_map.forget_by_map(keys.clone()))
    }

    /// Leaves all shards at once, and waits for each until the deadline.
    pub async fn leave(&self) -> Result<(), Error> {
        let joined = self.table.live.end();
        Calls { joined, ..self.clone() }.leave_by_map().await
    }
}

/// The places of the writes that were not made.
fn not_made(fates: &[Fate]) -> Vec<usize> {
    let is_so = |place: &usize| fates[*place] == Fate::NotMade;
    (0..fates.len()).filter(is_so).collect()
}
