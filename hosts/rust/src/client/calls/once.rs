//! Calls that are made once: at one server, or by one map.
use super::Calls;
use crate::call::error::{Error, ErrorKind};
use crate::call::mutation::{BatchError, Judged, Mutation};
use crate::client::link::{Awaited, Link};
use crate::client::pinned::Pinned;
use crate::client::state::{Asked, Held, PATIENCE, Purpose, State};
use crate::client::waiting::{Waited, Waiting};
use crate::model::change::{Outcome, Write};
use crate::model::row::Row;
use crate::proved::partition::Part;
use crate::shards::batch::Spread;
use std::future::{Future, poll_fn};
use std::ops::Range;
use std::task::Poll;
use std::time::{Duration, Instant};

/// How long a task waits until the thread of a client that has left has ended.
const SOON: Duration = Duration::from_millis(100);

/// The rows of a range, and what is pinned of it.
pub(crate) type Taken = Result<(Vec<Row>, Pinned), Error>;

impl Calls<'_> {
    fn ask<T>(&self, shard: usize, ask: impl FnOnce(&mut State) -> Asked<T>) -> Awaited<T> {
        Awaited::begin(self.joined.link(shard), self.end, ask)
    }

    async fn answer<T>(&self, asked: Awaited<T>) -> Result<T, ErrorKind> {
        match self.waiting {
            Waiting::OnThread => asked.wait(),
            Waiting::InTask => asked.await,
        }
    }

    /// Asks all shards at once, and waits for each answer until the deadline. It reports the first
    /// error when all have answered.
    async fn ask_all<T>(
        &self,
        parts: &[Part],
        ask: impl Fn(&mut State, Range<u64>) -> Asked<T>,
    ) -> Result<Vec<T>, Error> {
        let begin = |part: &Part| self.ask(part.shard, |state| ask(state, part.keys.clone()));
        let asked: Vec<_> = parts.iter().map(begin).collect();
        let mut answers = Vec::with_capacity(asked.len());
        for (part, asked) in parts.iter().zip(asked) {
            let answer = self.answer(asked).await;
            answers.push(answer.map_err(self.joined.error_at(part.shard)));
        }
        answers.into_iter().collect()
    }

    /// The rows of a range that the caches do not know.
    pub(super) async fn read_by_map(&self, keys: Range<u64>) -> Result<Vec<Row>, Error> {
        if self.joined.is_one() {
            return Ok(self.answer(self.ask(0, |state| state.read(keys))).await?);
        }
        let (parts, mut rows) = (self.joined.parts(&keys)?, Vec::new());
        loop {
            // Nothing is pinned before each shard has answered: otherwise one that is down would
            // keep writers at the others waiting.
            self.fetch(&parts).await?;
            if self.joined.is_known(&parts, &mut rows) {
                return Ok(rows);
            }
            match self.take(&parts, Purpose::Read).await {
                Ok((taken, _pinned)) => return Ok(taken),
                // The caller's own pins leave no room for others, so it continues without.
                Err(Error { kind: ErrorKind::TooManyPins, shard }) => {
                    if Instant::now() >= self.end {
                        return Err(Error { kind: ErrorKind::TimedOut, shard });
                    }
                }
                Err(refused) => return Err(refused),
            }
        }
    }

    /// The rows of the range, as the stores of its shards have them, each at a moment of its own. The
    /// caches keep nothing of it.
    pub(super) async fn read_once_by_map(&self, keys: Range<u64>) -> Result<Vec<Row>, Error> {
        let mut rows = Vec::new();
        for Part { shard, keys } in self.joined.parts(&keys)? {
            let client = self.joined.client(shard);
            let part = client.read_once(keys, self.end, self.waiting).await;
            rows.extend(part.map_err(self.joined.error_at(shard))?);
        }
        Ok(rows)
    }

    /// Asks for all parts at once, and waits until each was known at some moment.
    async fn fetch(&self, parts: &[Part]) -> Result<(), Error> {
        self.ask_all(parts, State::read).await.map(drop)
    }

    /// Reads the range and pins it for this.
    pub(super) async fn hold_by_map(&self, keys: Range<u64>, purpose: Purpose) -> Taken {
        if keys.is_empty() {
            return Err(ErrorKind::BadRange.into());
        }
        if self.joined.is_one() {
            let mut pinned = Pinned::new(self.table, &self.joined);
            let wanted = |state: &mut State| state.hold(keys, purpose);
            let rows = self.take_one(0, wanted, &mut pinned).await?;
            return Ok((rows, pinned));
        }
        let parts = self.joined.parts(&keys)?;
        if purpose == Purpose::Read {
            self.fetch(&parts).await?;
        }
        self.take(&parts, purpose).await
    }

    /// The rows of the parts at one moment, and a pin of them.
    ///
    /// **While it waits for a point, nothing of the range is pinned from that point on.** It takes
    /// the shards in ascending order, and each shard's client its points so. If a pin has given way
    /// meanwhile, or the caches do not know all parts at the end, all pins are given back before it
    /// begins again.
    async fn take(&self, parts: &[Part], purpose: Purpose) -> Taken {
        let (mut rows, mut patience) = (Vec::new(), PATIENCE);
        loop {
            let mut pinned = Pinned::new(self.table, &self.joined);
            for Part { shard, keys } in parts {
                let wanted = |state: &mut State| state.hold_part(keys.clone(), purpose, patience);
                self.take_one(*shard, wanted, &mut pinned).await?;
            }
            if !pinned.keep() {
                patience = patience.saturating_mul(2);
            } else if self.joined.is_known(parts, &mut rows) {
                return Ok((rows, pinned));
            }
            // Another thread of this client writes there, or a server's store went back.
            drop(pinned);
            if Instant::now() >= self.end {
                return Err(ErrorKind::TimedOut.into());
            }
        }
    }

    /// Takes what one shard has of a range, and adds it to what is pinned.
    async fn take_one(
        &self,
        shard: usize,
        wanted: impl FnOnce(&mut State) -> Asked<Held>,
        pinned: &mut Pinned,
    ) -> Result<Vec<Row>, Error> {
        let asked = self.ask(shard, wanted).or_undo(unpin);
        let held = self.answer(asked).await.map_err(self.joined.error_at(shard));
        let Held { rows, pin } = held?;
        pinned.add(shard, pin);
        Ok(rows)
    }

    /// The shard of a key, and the pin there to which a write of the key is bound.
    fn place_of(&self, key: u64) -> Result<(usize, Option<u64>), Error> {
        let Some(pinned) = self.pin else { return Ok((self.joined.joined_shard_of(key)?, None)) };
        let shard = self.joined.shard_of(key)?;
        match pinned.at(shard) {
            Some(pin) => Ok((shard, Some(pin))),
            None => Err(self.joined.error_at(shard)(ErrorKind::PinIsVoid)),
        }
    }

    pub(super) async fn write_by_map(&self, write: Write) -> Result<Outcome, Error> {
        let (shard, pin) = self.place_of(write.key())?;
        let asked = self.ask(shard, |state| match pin {
            None => state.write(write),
            Some(pin) => state.write_under(pin, write),
        });
        self.answer(asked).await.map_err(self.joined.error_at(shard))
    }

    /// Gives a key a value, whether or not it has a row.
    pub(super) async fn set_by_map(&self, row: Row) -> Result<Outcome, Error> {
        let (shard, pin) = self.place_of(row.key)?;
        let asked = self.ask(shard, |state| ask_to_write(state, pin, vec![Mutation::Set(row)]));
        let judged = self.answer(asked).await.and_then(Judged::only);
        judged.map_err(self.joined.error_at(shard))
    }

    /// Makes the writes at all shards at once, those of a shard one after the other. A void pin is
    /// refused also without a write.
    pub(super) async fn write_all_by_map(
        &self,
        writes: Vec<Mutation>,
    ) -> Result<Vec<Outcome>, BatchError> {
        let mut spread = Spread::new(&writes, |key| self.place_of(key))?;
        if let Some(pinned) = self.pin.filter(|_| writes.is_empty()) {
            pinned.parts().for_each(|(shard, pin)| spread.add_none(shard, pin));
        }
        let mut asked = Vec::new();
        for part in spread.parts() {
            let (pin, writes) = (part.pin, std::mem::take(&mut part.writes));
            asked.push(self.ask(part.shard, |state| ask_to_write(state, pin, writes)));
        }
        let mut answers = Vec::with_capacity(asked.len());
        for asked in asked {
            answers.push(self.answer(asked).await.unwrap_or_else(Judged::nothing));
        }
        spread.joined(&answers, |shard, why| self.joined.error_at(shard)(why))
    }

    /// Gives back what the client holds of the range.
    pub(super) async fn forget_by_map(&self, keys: Range<u64>) -> Result<(), Error> {
        if keys.is_empty() {
            return Ok(());
        }
        if self.joined.is_one() {
            return Ok(self.answer(self.ask(0, |state| state.forget(keys))).await?);
        }
        self.ask_all(&self.joined.parts(&keys)?, State::forget).await.map(drop)
    }

    /// Waits until the client no longer knows that the range has these rows, at any shard. It waits
    /// as a task does. When a shard of the range changes the client knows nothing there.
    pub async fn wait_for_change(&self, keys: Range<u64>, rows: &[Row]) -> Result<Waited, Error> {
        let parts = self.joined.parts(&keys)?;
        if parts.is_empty() || rows.iter().any(|row| !keys.contains(&row.key)) {
            return Ok(Waited::Changed);
        }
        let watch = |Part { shard, keys }: &Part| {
            let known = rows.iter().filter(|row| keys.contains(&row.key)).copied().collect();
            (*shard, self.ask(*shard, |state| state.watch(keys.clone(), known)))
        };
        match first(parts.iter().map(watch).collect()).await {
            (_, Ok(())) => Ok(Waited::Changed),
            (_, Err(ErrorKind::TimedOut | ErrorKind::Unserved(_))) => Ok(Waited::Unchanged),
            (shard, Err(refused)) => Err(self.joined.error_at(shard)(refused)),
        }
    }

    /// Leaves all shards at once, and waits for each until the deadline.
    pub(super) async fn leave_by_map(&self) -> Result<(), Error> {
        let begin = |(shard, _)| (shard, self.ask(shard, State::leave));
        let leaving: Vec<_> = self.joined.clients().map(begin).collect();
        let mut left = Ok(());
        for (shard, leaving) in leaving {
            let answer = self.answer(leaving).await;
            if answer.is_ok() {
                self.joined.client(shard).end(self.end_of_thread());
            }
            left = left.and(answer.map_err(self.joined.error_at(shard)));
        }
        left
    }

    /// Until when a call waits for the thread of a client that has left. A task waits no longer
    /// than the thread takes to wake.
    fn end_of_thread(&self) -> Instant {
        match self.waiting {
            Waiting::OnThread => self.end,
            Waiting::InTask => Instant::now() + SOON,
        }
    }
}

fn ask_to_write(state: &mut State, pin: Option<u64>, writes: Vec<Mutation>) -> Asked<Judged> {
    match pin {
        None => state.write_all(writes),
        Some(pin) => state.write_all_under(pin, writes),
    }
}

/// Nobody takes what was held: it is free again.
fn unpin(link: &Link, held: &Held) {
    link.with_state(|state| state.unpin(held.pin));
    link.flush();
}

/// The first of these that is answered, with its shard. Nobody waits for the others any more.
async fn first<T>(mut asked: Vec<(usize, Awaited<T>)>) -> (usize, Result<T, ErrorKind>) {
    poll_fn(|context| {
        for (shard, awaited) in &mut asked {
            if let Poll::Ready(answer) = std::pin::Pin::new(awaited).poll(context) {
                return Poll::Ready((*shard, answer));
            }
        }
        Poll::Pending
    })
    .await
}
