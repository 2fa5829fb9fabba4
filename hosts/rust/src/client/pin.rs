//! A pinned range, and the writes that are bound to it.
use crate::call::error::Error;
use crate::call::mutation::{BatchError, Mutation};
use crate::client::calls::Calls;
use crate::client::pinned::Pinned;
use crate::client::timeout::MAX_WAIT;
use crate::model::change::{Outcome, Write};
use crate::model::row::{Row, Value};
use std::fmt;
use std::sync::Arc;
use std::time::Duration;

/// A pinned range: no other client takes away what the client holds of it, as long as this or a
/// clone of it lives. If a server's store goes back, or the client's lease there ends, the pin is
/// void at that server: [`Client`] describes more.
///
/// **A caller that decides what to write by what is pinned uses the pin's own calls.** They make the
/// write while the pin holds at the server of its key, or never: no other client has changed what
/// was pinned there before that write. The calls of [`Client`] are not bound to the pin: after the
/// end of a lease they continue, and another client may have written in between.
///
/// If such a write was sent and is not answered when the last clone is dropped, other clients wait
/// for the range until it is judged.
///
/// A pin borrows nothing: it may be kept in a struct, and be sent to another thread. It keeps its
/// client, which does not end before it.
///
/// [`Client`]: crate::Client
#[derive(Clone)]
#[must_use = "the range is free again as soon as the last clone is dropped"]
pub struct Pin {
    pinned: Arc<Pinned>,
    /// How long the writes by this value wait, if it has a time of its own.
    timeout: Option<Duration>,
}

impl Pin {
    pub(crate) fn of(pinned: Pinned) -> Pin {
        Pin { pinned: Arc::new(pinned), timeout: None }
    }

    /// Returns whether no other client has taken what was held of the range, at any server, at one
    /// moment of this call. Call it **after** the work that the pin is for.
    #[must_use]
    pub fn holds(&self) -> bool {
        self.pinned.holds()
    }

    /// The same pin, whose writes by the value that is returned, and by clones of it, wait at most
    /// this long for an answer, and a year at most. Writes by other values wait as before.
    #[must_use = "it does nothing before one of its calls"]
    pub fn within(&self, timeout: Duration) -> Pin {
        Pin { pinned: Arc::clone(&self.pinned), timeout: Some(timeout.min(MAX_WAIT)) }
    }

    /// How long each of its writes waits for an answer: as long as the calls of its client, unless
    /// [`Pin::within`] gave it a time of its own.
    #[must_use]
    pub fn timeout(&self) -> Duration {
        self.timeout.unwrap_or_else(|| self.pinned.table().timeout.get())
    }

    /// Calls that begin now.
    pub(crate) fn calls(&self) -> Calls<'_> {
        Calls::of_pin(&self.pinned, self.timeout())
    }

    /// Inserts a row while the pin holds, or never. The outcome is that of [`Client::insert`]. The
    /// key may lie outside the pinned range.
    ///
    /// # Errors
    ///
    /// `PinIsVoid` if the pin no longer held when the write could be sent, or no part of the range
    /// is at the shard of the key: the write changes nothing. Otherwise those of
    /// [`Client::insert`]. After an error for which [`Error::is_unknown_outcome`] is true, the
    /// table may have changed; if it has, then before any other client changed what was pinned.
    ///
    /// [`Client::insert`]: crate::Client::insert
    pub fn insert(&self, key: u64, value: Value) -> Result<Outcome, Error> {
        self.calls().block_on_write(Write::Insert(Row { key, value }))
    }

    /// Gives a row another value while the pin holds, or never. The outcome is that of
    /// [`Client::put`]. The key may lie outside the pinned range.
    ///
    /// # Errors
    ///
    /// Those of [`Pin::insert`].
    ///
    /// [`Client::put`]: crate::Client::put
    pub fn put(&self, key: u64, value: Value) -> Result<Outcome, Error> {
        self.calls().block_on_write(Write::Put(Row { key, value }))
    }

    /// Gives a key this value, whether or not it has a row, while the pin holds, or never. The
    /// outcome is that of [`Client::set`]. The key may lie outside the pinned range.
    ///
    /// # Errors
    ///
    /// Those of [`Pin::insert`].
    ///
    /// [`Client::set`]: crate::Client::set
    pub fn set(&self, key: u64, value: Value) -> Result<Outcome, Error> {
        self.calls().block_on_set(Row { key, value })
    }

    /// Deletes a row while the pin holds, or never. The outcome is that of [`Client::delete`]. The
    /// key may lie outside the pinned range.
    ///
    /// # Errors
    ///
    /// Those of [`Pin::insert`].
    ///
    /// [`Client::delete`]: crate::Client::delete
    pub fn delete(&self, key: u64) -> Result<Outcome, Error> {
        self.calls().block_on_write(Write::Delete(key))
    }

    /// Makes several writes, as [`Client::write_all`] does, each while the pin holds, or never.
    /// Keys may lie outside the pinned range. By a pin that [`Client::pin_for_write`] took, writes
    /// in its range ask for no locks.
    ///
    /// # Errors
    ///
    /// Those of [`Client::write_all`], and `PinIsVoid`: then the writes that were not judged by
    /// then were not made.
    ///
    /// [`Client::write_all`]: crate::Client::write_all
    /// [`Client::pin_for_write`]: crate::Client::pin_for_write
    pub fn write_all(
        &self,
        writes: impl IntoIterator<Item = Mutation>,
    ) -> Result<Vec<Outcome>, BatchError> {
        self.calls().block_on_all(writes.into_iter().collect())
    }
}

impl fmt::Debug for Pin {
    fn fmt(&self, f: &mut fmt::Formatter<'_>) -> fmt::Result {
        f.debug_tuple("Pin").field(&self.pinned).finish()
    }
}
