//! A client over a network, of one server or of several.
mod alarm;
pub(crate) mod answer;
pub(crate) mod asynchronous;
mod backoff;
mod blocking;
pub(crate) mod builder;
pub(crate) mod calls;
pub(crate) mod changes;
mod deadlines;
pub(crate) mod engine;
pub(crate) mod evict;
#[cfg(feature = "map-file")]
mod follow;
#[cfg_attr(not(feature = "map-file"), expect(dead_code, reason = "no map is followed then"))]
mod followed_map;
pub(crate) mod incarnations;
mod joined;
pub(crate) mod joining;
mod joining_shards;
pub(crate) mod link;
pub(crate) mod lock_file;
pub(crate) mod lock_folder;
mod not_joined;
pub(crate) mod numbers;
pub(crate) mod pin;
mod pinned;
pub(crate) mod place;
pub(crate) mod reader;
mod refused_connects;
pub(crate) mod scratch;
pub(crate) mod session;
pub(crate) mod shard_client;
mod shared_reader;
pub(crate) mod silence;
pub(crate) mod standing;
pub(crate) mod state;
pub(crate) mod status;
mod table;
mod tenure;
pub(crate) mod timeout;
mod turns;
pub(crate) mod waiting;
pub(crate) mod wakes;
mod writer;

use crate::call::error::{Error, ErrorKind, JoinError};
use crate::call::mutation::{BatchError, Mutation};
use crate::call::range::keys_of;
use crate::client::calls::Calls;
use crate::client::changes::{Changes, WatchedRange};
use crate::client::pin::Pin;
use crate::client::pinned::Pinned;
use crate::client::scratch::with_room;
use crate::client::shard_client::ShardClient;
use crate::client::state::{Purpose, State};
use crate::client::table::Table;
use crate::client::timeout::MAX_WAIT;
use crate::client::waiting::Waited;
use crate::log::span;
use crate::model::change::{Outcome, Write};
use crate::model::row::{END, Row, Value};
use crate::shards::map::ShardMap;
use std::fmt;
use std::ops::{Range, RangeBounds};
use std::sync::Arc;
use std::time::Duration;

/// A client of a number from 0 to 63, of one server or of several, each with a part of the keys.
/// Its calls may come from several threads; for each server it has a thread of its own that keeps
/// the connection, makes it again when it breaks, and sends again what is not answered.
///
/// A clone is the same client: it has the same cache, the same pins and the same timeout.
///
/// # Several servers
///
/// The client of a [`ShardMap`] has joined the server of each shard. It asks all shards at once,
/// and waits for the slowest one. **A scan over several shards is answered only if all its parts
/// are known at one moment**: the rows are that range of all tables together at one moment of the
/// call. A write is at one shard. Two writes at two shards are two writes: another client may see
/// only the first one, also after a crash between the two.
///
/// What follows holds at each server: each has its own store, epoch, lease and lock file, its own
/// eight pins and its own room for rows. An [`Error`] has the shard that refused.
///
/// # Restarts and leases
///
/// If the server's store went back, since an older copy of it was brought back, the client drops
/// its cache as if it had crashed, and joins again: calls that wait just then end with
/// [`ErrorKind::StoreWentBack`]. Until it has joined, `cached` returns `None`, and other calls
/// wait. A store without a history reports nothing about it.
///
/// If the server serves another store than the one that the client has seen, the client drops its
/// cache too, and calls that wait just then end with `Unserved` by [`Refusal::OtherStore`]. It
/// joins again when it finds a server of its own store, and no other one.
///
/// A server with leases lets the client answer from its cache only for a limited time after the
/// client's last sign. When its lease ends the client drops its cache and joins again, as above:
/// only a write that is on its way ends with [`ErrorKind::LeaseEnded`], and all other calls
/// continue.
///
/// When its last clone and its last pin are dropped, the client sends Bye, and waits a second at
/// most until the server has kept that. A process that ends without a Bye leaves what it held:
/// other clients wait for that until a client of its number joins again or it is evicted.
///
/// # Examples
///
/// ```
/// # let folder = std::env::temp_dir().join(format!("krl-doc-client-{}", std::process::id()));
/// # std::fs::create_dir_all(&folder)?;
/// # let lock_file = folder.join("client-0.lock");
/// use krl::{Client, MemoryStore, Outcome, Server, Value};
///
/// let listener = std::net::TcpListener::bind("127.0.0.1:0")?;
/// let server = Server::start(listener, MemoryStore::default())?;
/// let client = Client::join(server.address(), 0, lock_file)?;
/// if client.insert(15, Value::from(5))? == Outcome::Exists {
///     println!("there is a row already");
/// }
/// let rows = client.read(10..20)?;
/// assert_eq!(client.cached(10..20)?, Some(rows)); // no message
/// client.leave()?;
/// # std::fs::remove_dir_all(&folder)?;
/// # Ok::<(), Box<dyn std::error::Error>>(())
/// ```
///
/// # A map that changes
///
/// A client that follows its map (`Client::follow`, with the feature `map-file`) continues by each
/// next one. A shard that is the same in both keeps its connection, its cache, its pins and its
/// calls. Calls at a shard that changes wait until the client has left the shard by the one map,
/// and has joined what is in its place by the next: so no call is made by two maps, and a scan is
/// of one. A pin no longer holds at a shard that has changed.
///
/// [`Refusal::OtherStore`]: crate::error::Refusal::OtherStore
#[derive(Clone)]
pub struct Client {
    table: Arc<Table>,
    /// How long the calls by this value wait, if it has a time of its own.
    timeout: Option<Duration>,
}

impl Client {
    pub(crate) fn of(table: Table) -> Client {
        Client { table: Arc::new(table), timeout: None }
    }

    /// Calls that begin now.
    pub(crate) fn calls(&self) -> Calls<'_> {
        Calls::new(&self.table, self.timeout())
    }

    /// The map of the shards, if the client is of several servers: the current one, if it follows
    /// the map.
    #[must_use]
    pub fn map(&self) -> Option<ShardMap> {
        self.table.now().map().cloned()
    }

    /// Continues by this map, if its version is greater than that of the client's own: for programs
    /// whose map lies elsewhere than in a file that the client could follow. It returns when the
    /// client has left the shards that change, after half a minute at most; calls at the shards in
    /// their place wait until those are served.
    ///
    /// # Errors
    ///
    /// `Incomplete` if the client has no map with a version, or no shard of this one has any of its
    /// keys; `LockFile` or `NoThread`, if the client of a shard could not be started: then calls
    /// at the shards that change wait, until this is called again.
    pub fn change_map(&self, map: ShardMap) -> Result<(), JoinError> {
        self.table.live.change(map)
    }

    /// From now on, each call waits at most this long for an answer, and a year at most. A call
    /// that waits already continues as it began, and what [`Client::within`] has returned keeps its
    /// own time.
    pub fn set_timeout(&self, timeout: Duration) {
        self.table.timeout.set(timeout);
    }

    /// How long each call waits for an answer.
    #[must_use]
    pub fn timeout(&self) -> Duration {
        self.timeout.unwrap_or_else(|| self.table.timeout.get())
    }

    /// The same client, whose calls by the value that is returned, and by clones of it, wait at
    /// most this long for an answer, and a year at most. Calls by other values wait as before, and
    /// so do the writes of a [`Pin`].
    ///
    /// ```no_run
    /// # use std::time::Duration;
    /// # fn read(client: &krl::Client) -> Result<(), krl::Error> {
    /// let rows = client.within(Duration::from_millis(50)).read(10..20)?;
    /// # Ok(())
    /// # }
    /// ```
    #[must_use = "it does nothing before one of its calls"]
    pub fn within(&self, timeout: Duration) -> Client {
        Client { table: Arc::clone(&self.table), timeout: Some(timeout.min(MAX_WAIT)) }
    }

    /// The client's number, from 0 to 63.
    #[must_use]
    pub fn number(&self) -> u8 {
        self.table.number()
    }

    /// The rows of the range: from the cache, with no message and no waiting, if the client holds
    /// it; otherwise it locks what it lacks and waits. They are that range of the table at one
    /// moment of the call. An empty range has no rows.
    ///
    /// Over several shards it asks all of them at once for what it lacks, and waits until all have
    /// answered. If others have taken away a part by then, it takes the parts in ascending order,
    /// and pins each until it has all.
    ///
    /// # Errors
    ///
    /// `BadRange` if the range begins above its end, ends above 2^63, or has keys of a shard that
    /// is not joined; `TimedOut` or `Unserved`; `TurnedAway` or `OtherShard`; `StoreWentBack`;
    /// `OutOfMemory`; `Stopped`.
    pub fn read(&self, keys: impl RangeBounds<u64>) -> Result<Vec<Row>, Error> {
        let keys = keys_of(&keys)?;
        let is_cached = |room: &mut Vec<Row>| self.table.scan(&keys, room);
        if let Some(rows) = with_room(|room| is_cached(room).map(|is| is.then(|| room.clone())))? {
            return Ok(rows);
        }
        let _span = span::of("read", self.number(), &keys);
        let calls = self.calls();
        calls.block(calls.read(keys))
    }

    /// The value of the row of this key, read as [`Client::read`] reads a range, or `None` if there
    /// is no such row.
    ///
    /// # Errors
    ///
    /// `BadKey` if the key is 2^63 - 1 or more; those of [`Client::read`].
    pub fn get(&self, key: u64) -> Result<Option<Value>, Error> {
        if key >= END {
            return Err(ErrorKind::BadKey.into());
        }
        Ok(self.read(key..=key)?.first().map(|row| row.value))
    }

    /// The rows of the range, as the server's store has them at a moment of the call. The client asks
    /// the server by a connection of its own, takes no lock, and keeps nothing: so no write has to
    /// wait for it later. That pays for rows that others write more often than this client reads
    /// them. More than 128 rows, and the parts of several shards, are read one part after another,
    /// each at a moment of its own. Threads that make this call take turns, in the order of their
    /// calls: one whose time is over before its turn ends with `TimedOut`.
    ///
    /// A write of this client whose outcome is not known may be in the rows or not: unlike
    /// [`Client::read`] it waits for none.
    ///
    /// # Errors
    ///
    /// `BadRange` as of [`Client::read`]; `TimedOut` or `Unserved`; `TurnedAway` or `OtherShard`;
    /// `StoreWentBack`; `Left`.
    pub fn read_once(&self, keys: impl RangeBounds<u64>) -> Result<Vec<Row>, Error> {
        let (keys, calls) = (keys_of(&keys)?, self.calls());
        calls.block(calls.read_once(keys))
    }

    /// The rows of the range if the cache covers it, otherwise `None`. It sends nothing, and waits
    /// for nothing but one step of the client, some microseconds. The rows are that range of the
    /// server's table at one moment of the call, also while the server is down. An empty range has
    /// no rows.
    ///
    /// Threads that make this call, or one of the next two, do not wait for each other. While a
    /// range of several shards is scanned, no client of these shards takes a message or a call.
    ///
    /// # Errors
    ///
    /// `BadRange` if the range begins above its end, ends above 2^63, or has keys of a shard that
    /// is not joined.
    pub fn cached(&self, keys: impl RangeBounds<u64>) -> Result<Option<Vec<Row>>, Error> {
        with_room(|room| Ok(self.cached_into(keys, room)?.then(|| room.clone())))
    }

    /// The same, into `rows`, whose memory is used again. Unless it returns `Ok(true)`, the rows
    /// mean nothing.
    ///
    /// # Errors
    ///
    /// Those of [`Client::cached`].
    pub fn cached_into(
        &self,
        keys: impl RangeBounds<u64>,
        rows: &mut Vec<Row>,
    ) -> Result<bool, Error> {
        self.table.scan(&keys_of(&keys)?, rows)
    }

    /// The same, and `visit` gets each row, in key order. It returns whether the cache covers the
    /// range; if it does not, no row is visited.
    ///
    /// The rows are copied first, at one moment of the call, and visited after it. So `visit` may
    /// take as long as it likes, and may call the client.
    ///
    /// # Errors
    ///
    /// Those of [`Client::cached`].
    pub fn for_each_cached(
        &self,
        keys: impl RangeBounds<u64>,
        visit: impl FnMut(&Row),
    ) -> Result<bool, Error> {
        with_room(|room| {
            let is_cached = self.cached_into(keys, room)?;
            if is_cached {
                room.iter().for_each(visit);
            }
            Ok(is_cached)
        })
    }

    /// Inserts a row. The outcome is `Applied`, `Exists`, or `Full` if the server of the key has no
    /// room for it.
    ///
    /// # Errors
    ///
    /// `BadKey` for a key of 2^63 - 1 or more, or of a shard that is not joined; `TimedOut`,
    /// `Unserved`, `StoreWentBack` or `Stopped`: then the table may have changed or may still
    /// change; `LeaseEnded`: then it may have changed; `NotSent`, `TurnedAway` or `OtherShard`: the
    /// write was not sent and changes nothing; `OutOfMemory`.
    pub fn insert(&self, key: u64, value: Value) -> Result<Outcome, Error> {
        self.calls().block_on_write(Write::Insert(Row { key, value }))
    }

    /// Gives a row another value. The outcome is `Applied` or `Absent`.
    ///
    /// # Errors
    ///
    /// Those of `insert`.
    pub fn put(&self, key: u64, value: Value) -> Result<Outcome, Error> {
        self.calls().block_on_write(Write::Put(Row { key, value }))
    }

    /// Gives a key this value, whether or not it has a row. The outcome is `Applied`, or `Full` if
    /// there was no row and there is no room for one.
    ///
    /// It puts, and inserts if there is no row: two writes, one after the other. Another client may
    /// make or delete the row between the two; then it tries again. All of them together take the
    /// timeout at most.
    ///
    /// # Errors
    ///
    /// Those of `insert`.
    pub fn set(&self, key: u64, value: Value) -> Result<Outcome, Error> {
        self.calls().block_on_set(Row { key, value })
    }

    /// Deletes a row. The outcome is `Applied` or `Absent`.
    ///
    /// # Errors
    ///
    /// Those of `insert`.
    pub fn delete(&self, key: u64) -> Result<Outcome, Error> {
        self.calls().block_on_write(Write::Delete(key))
    }

    /// Makes several writes in one call, one after the other in this order, and returns how each
    /// was judged. Over several shards, those of each shard are in this order, and writes at two
    /// shards have no order. A write that changes nothing, since its outcome is `Exists`, `Absent`
    /// or `Full`, ends no other one.
    ///
    /// **It is not a transaction**: each is a write of its own. Other clients may see the first
    /// ones without the others, also after a crash between them, and may write in between. Writes
    /// of other threads of this client come in between too. All of them together take the timeout
    /// at most.
    ///
    /// The client has one write on its way at a time at each server, and sends the next one as soon
    /// as the server has kept the one before: nobody else has to be woken for it. To take the locks of many
    /// writes in a range by one request, call [`Client::pin_for_write`] first, and
    /// [`Pin::write_all`] then.
    ///
    /// ```no_run
    /// # use krl::{BatchError, Client, Mutation, Row, Value};
    /// # fn write(client: &Client) -> Result<(), BatchError> {
    /// let row = |key, value: u64| Row { key, value: Value::from(value) };
    /// let writes = [Mutation::Insert(row(7, 1)), Mutation::Set(row(8, 2)), Mutation::Delete(9)];
    /// let outcomes = client.write_all(writes)?;
    /// assert_eq!(outcomes.len(), 3);
    /// # Ok(())
    /// # }
    /// ```
    ///
    /// # Errors
    ///
    /// Those of `insert`, for the first write that was not judged; of several shards, for the first
    /// shard at which not all were judged. [`BatchError::fates`] reports which writes were judged,
    /// and how; at most one at each server is unknown, and those after it there were not made and
    /// will not be. With `BadKey` none was made.
    pub fn write_all(
        &self,
        writes: impl IntoIterator<Item = Mutation>,
    ) -> Result<Vec<Outcome>, BatchError> {
        self.calls().block_on_all(writes.into_iter().collect())
    }

    /// Pins the range: no callback and no forget takes what the client holds of it, or is granted
    /// while the pin lives. Other clients that want it wait until the pin is dropped; what they
    /// called back meanwhile the client then gives back. A client has at most eight pins.
    ///
    /// Pin what you read by this or by [`Client::pin_for_read`], and what you will write by
    /// [`Client::pin_for_update`]: two clients that pin the same rows to read them, and then write
    /// them, keep each other waiting until one of them drops its pin.
    ///
    /// It sends nothing and waits for nothing. **If the client has a map, it waits** until it holds
    /// all of the range, as [`Client::pin_for_read`] does: otherwise a part would be pinned while
    /// an earlier one is still to come, and two clients could wait for each other.
    ///
    /// # Errors
    ///
    /// `BadRange` if the range is empty, begins above its end, or ends above 2^63; `TooManyPins`;
    /// `StoreWentBack`, `LeaseEnded` or `Unserved` while the client joins again; those of
    /// [`Client::pin_for_read`] if the client has a map.
    pub fn pin(&self, keys: impl RangeBounds<u64>) -> Result<Pin, Error> {
        let Some(only) = self.table.only() else {
            return self.pin_for_read(keys).map(|(_, pin)| pin);
        };
        let keys = keys_of(&keys)?;
        let id = only.link().with_state(|state| state.pin(keys))?;
        let mut pinned = Pinned::new(&self.table, &self.table.now());
        pinned.add(0, id);
        Ok(Pin::of(pinned))
    }

    /// Reads the range and pins it: the rows stay what they are while the pin lives. Other clients
    /// may read the range too; writers wait until the pin is dropped. What the client holds of the
    /// range to write it, since it has written there, is pinned as it is, and keeps readers out
    /// too.
    ///
    /// It takes the range in ascending order and pins what it has got, so clients that pin one
    /// range each do not wait for each other forever. A client that pins several should take them
    /// in ascending order. Of several shards it asks all at once, and then takes them in ascending
    /// order.
    ///
    /// # Errors
    ///
    /// `BadRange` if the range is empty, begins above its end, ends above 2^63, or has keys of a
    /// shard that is not joined; `TooManyPins`: it takes two of the eight until it has all;
    /// `TimedOut` or `Unserved`, `OutOfMemory`, `Stopped`. Then nothing more is pinned than before.
    pub fn pin_for_read(&self, keys: impl RangeBounds<u64>) -> Result<(Vec<Row>, Pin), Error> {
        self.hold(&keys, Purpose::Read)
    }

    /// The same, and no other client pins an overlapping range for an update while the pin lives:
    /// the client holds the entries of the range, and the slot after them, in the mode U. So of two
    /// clients that pin for an update and then write, one waits before it has pinned what both
    /// want. That also holds if both have read the range before: what the client only reads, it
    /// gives back before it asks to change it. Until the call returns, [`Client::cached`] may
    /// therefore return `None` for a range that it knew.
    ///
    /// Two ranges that meet the same gap between two rows count as overlapping. A client that has
    /// pinned a part of the range by [`Client::pin_for_read`] or [`Client::pin`] keeps what it
    /// reads there: if two such clients then pin it for an update, or write there, each may wait
    /// for the other one until it times out.
    ///
    /// It takes one shard after another: if a server is down, what is pinned before it keeps others
    /// waiting until the call times out.
    ///
    /// A caller that decides by these rows what to write uses [`Pin::put`], [`Pin::insert`] and
    /// [`Pin::delete`]. A client has one request for a lock at a time: if several threads pin and
    /// write through one client, they should take turns or pin by [`Client::pin_for_write`], or two
    /// such processes may wait for each other.
    ///
    /// # Errors
    ///
    /// Those of [`Client::pin_for_read`].
    ///
    /// # Examples
    ///
    /// Any number of clients may count in this way, and no count is lost:
    ///
    /// ```no_run
    /// use krl::{Client, Error, Outcome, Value};
    ///
    /// fn count(client: &Client, key: u64) -> Result<Outcome, Error> {
    ///     let (rows, pin) = client.pin_for_update(key..=key)?;
    ///     let last = rows.first().and_then(|row| row.value.to_u64()).unwrap_or(0);
    ///     pin.set(key, Value::from(last + 1)) // made while the pin holds, or never
    /// }
    /// ```
    pub fn pin_for_update(&self, keys: impl RangeBounds<u64>) -> Result<(Vec<Row>, Pin), Error> {
        self.hold(&keys, Purpose::Update)
    }

    /// The same, and no other client reads the range either while the pin lives: the client holds
    /// its entries and gaps, and the slot after them, in the mode `RangeX-X`. So a write in the
    /// range asks for no lock any more. That is for several threads that pin and write through one
    /// client: a write waits for no request of another thread, and no two such processes wait for
    /// each other. Other clients that read the range wait from this call until the pin is dropped.
    ///
    /// A delete needs the gap after its key too: to delete the last key of a range without a
    /// request, pin one key more.
    ///
    /// # Errors
    ///
    /// Those of [`Client::pin_for_read`].
    pub fn pin_for_write(&self, keys: impl RangeBounds<u64>) -> Result<(Vec<Row>, Pin), Error> {
        self.hold(&keys, Purpose::Write)
    }

    /// Waits until the client no longer knows that the range has these rows: another client's write
    /// has taken a part of it from the cache, or a call of this client has changed it. If the
    /// client does not hold the range, that is so at once. The rows have to be in key order, as
    /// [`Client::read`] returns them.
    ///
    /// It sends nothing. After [`Waited::Changed`], [`Client::read`] may have something new, or the
    /// rows may be what they were. [`Client::changes`] makes an iterator of the two.
    ///
    /// # Errors
    ///
    /// `BadRange` if the range begins above its end, ends above 2^63, or has keys of a shard that
    /// is not joined; `Stopped`.
    pub fn wait_for_change(
        &self,
        keys: impl RangeBounds<u64>,
        rows: &[Row],
        timeout: Duration,
    ) -> Result<Waited, Error> {
        let (keys, client) = (keys_of(&keys)?, self.within(timeout));
        let calls = client.calls();
        calls.block(calls.wait_for_change(keys, rows))
    }

    /// The states of the range, one after the other: the rows now, and then after each change.
    /// [`Changes`] describes what it promises. It has a clone of the client, which therefore does
    /// not leave by itself before the iterator is dropped.
    ///
    /// ```no_run
    /// # fn watch(client: &krl::Client) -> Result<(), krl::Error> {
    /// for rows in client.changes(10..20)? {
    ///     println!("{:?}", rows?);
    /// }
    /// # Ok(())
    /// # }
    /// ```
    ///
    /// # Errors
    ///
    /// `BadRange` if the range is empty, begins above its end, ends above 2^63, or has keys of a
    /// shard that is not joined. Items are the errors of [`Client::read`].
    pub fn changes(&self, keys: impl RangeBounds<u64>) -> Result<Changes, Error> {
        let keys = self.keys_to_watch(&keys)?;
        Ok(Changes::of(RangeOfClient { client: self.clone(), keys }))
    }

    /// Gives back what the client holds of the range. While a write is on its way it waits for the
    /// answer first. An empty range changes nothing.
    ///
    /// # Errors
    ///
    /// `BadRange` if the range begins above its end, ends above 2^63, or has keys of a shard that
    /// is not joined; `Pinned` if it meets a pin; `TimedOut` or `Unserved`; `TurnedAway` or
    /// `OtherShard`; `StoreWentBack`; `OutOfMemory`; `Stopped`. It is that of the first shard that
    /// refused; the others have given back what they have.
    pub fn forget(&self, keys: impl RangeBounds<u64>) -> Result<(), Error> {
        let keys = keys_of(&keys)?;
        let _span = span::of("forget", self.number(), &keys);
        let calls = self.calls();
        calls.block(calls.forget(keys))
    }

    /// The spans of keys that the server has called back from the client since the last call of
    /// this, the oldest first and each once: other clients wanted to change something there, or to
    /// read what this one has written. It is a hint for callers that read ahead. The last 256 spans
    /// of each server are kept, until the client drops all that it holds there, as at the end of its
    /// lease. Those of the first shard come first.
    #[must_use]
    pub fn take_called_back(&self) -> Vec<Range<u64>> {
        let taken = |client: &ShardClient| client.link().with_state(State::take_called_back);
        self.table.now().clients().flat_map(|(_, client)| taken(client)).collect()
    }

    /// From now on the client keeps what it reads until another client wants to write it.
    ///
    /// Otherwise it keeps what it reads only where that pays. Where others have written more of its
    /// rows than its cache has answered scans, it gives back what it has just written, and takes no
    /// lock to read: there each read asks the server, also while that is down, and
    /// [`Client::cached`] returns `None`, until the client has tried again after some hundred reads.
    /// What was pinned, or watched for changes, it keeps; and so does a client of a map. A
    /// [`Client::tenure`] counts as a scan.
    ///
    /// It is for callers that have to read while the server is down.
    pub fn keep_all(&self) {
        self.table.live.keep_all();
    }

    /// Gives back all that the client holds, and waits until each server has kept that it left.
    /// From then on the calls of all clones are refused, and another process may take the number.
    ///
    /// If the client has left already, it returns `Ok`. After an error it may be called again.
    ///
    /// # Errors
    ///
    /// `TimedOut` or `Unserved`, `TurnedAway` or `OtherShard`, `Stopped`: other clients may wait
    /// for what this one held then, until it is evicted. It is that of the first shard that did not
    /// answer; the others are left.
    pub fn leave(&self) -> Result<(), Error> {
        let _span = span::of("leave", self.number(), &(0..END + 1));
        let calls = self.calls();
        calls.block(calls.leave())
    }

    /// A range whose changes may be watched: one that is not empty, and of joined shards.
    pub(crate) fn keys_to_watch(&self, keys: &impl RangeBounds<u64>) -> Result<Range<u64>, Error> {
        let keys = keys_of(keys)?;
        self.table.now().parts(&keys)?;
        if keys.is_empty() { Err(ErrorKind::BadRange.into()) } else { Ok(keys) }
    }

    fn hold(
        &self,
        keys: &impl RangeBounds<u64>,
        purpose: Purpose,
    ) -> Result<(Vec<Row>, Pin), Error> {
        let keys = keys_of(keys)?;
        let _span = span::of("pin", self.number(), &keys);
        let calls = self.calls();
        let (rows, pinned) = calls.block(calls.hold(keys, purpose))?;
        Ok((rows, Pin::of(pinned)))
    }
}

/// A range of a client that is watched.
struct RangeOfClient {
    client: Client,
    keys: Range<u64>,
}

impl WatchedRange for RangeOfClient {
    fn read(&self) -> Result<Vec<Row>, Error> {
        self.client.read(self.keys.clone())
    }

    fn wait_for_change(&self, rows: &[Row], timeout: Duration) -> Result<Waited, Error> {
        self.client.wait_for_change(self.keys.clone(), rows, timeout)
    }
}

impl fmt::Debug for Client {
    fn fmt(&self, f: &mut fmt::Formatter<'_>) -> fmt::Result {
        let joined = self.table.now();
        let servers = joined.clients().map(|(_, client)| client.link().servers());
        let mut shown = f.debug_struct("Client");
        shown.field("number", &self.number()).field("servers", &servers.collect::<Vec<_>>());
        shown.field("timeout", &self.timeout()).finish_non_exhaustive()
    }
}
