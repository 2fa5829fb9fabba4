//! A client whose calls are futures.
use crate::call::error::{Error, ErrorKind};
use crate::call::mutation::{BatchError, Mutation};
use crate::call::range::keys_of;
use crate::client::Client;
use crate::client::calls::Calls;
use crate::client::pin::Pin;
use crate::client::state::Purpose;
use crate::client::timeout::MAX_WAIT;
use crate::client::waiting::Waited;
use crate::model::change::{Outcome, Write};
use crate::model::row::{Row, Value};
use std::fmt;
use std::ops::{Range, RangeBounds};
use std::time::Duration;

/// A client whose calls are futures, for tasks of any executor. It has no executor and no timer of
/// its own: threads of the client wake the tasks. They have locked nothing then, so an executor may
/// poll a task within the call that wakes it.
///
/// Each call is that of [`Client`] of the same name, with its outcomes and errors, over one server
/// or several, and ends by the [`Client::timeout`] of the client from which this one was made, or a
/// little later: a third of a second at most, unless the client is just connecting. A call begins
/// when its future is first polled. A read that the cache answers does not yield. A future that is
/// dropped before it ends gives its call up: if a write was sent, nobody knows then whether it was
/// made.
///
/// Two things block without a future: joining, and dropping the last clone, which waits a second at
/// most until the server has kept that the client left. So join before the executor runs or on a
/// thread that may block, and await [`AsyncClient::leave`] before the last clone is dropped.
///
/// ```
/// use krl::{AsyncClient, Client, MemoryStore, Outcome, Server, Value};
/// # use std::{pin::pin, sync::Arc, task::{Context, Poll, Wake, Waker}, thread::{self, Thread}};
/// # struct Unpark(Thread);
/// # impl Wake for Unpark {
/// #     fn wake(self: Arc<Unpark>) { self.0.unpark() }
/// # }
/// # fn block_on<T>(future: impl Future<Output = T>) -> T {
/// #     let waker = Waker::from(Arc::new(Unpark(thread::current())));
/// #     let mut future = pin!(future);
/// #     loop {
/// #         if let Poll::Ready(value) = future.as_mut().poll(&mut Context::from_waker(&waker)) {
/// #             return value;
/// #         }
/// #         thread::park();
/// #     }
/// # }
/// # let folder = std::env::temp_dir().join(format!("krl-async-{}", std::process::id()));
/// # std::fs::create_dir_all(&folder)?;
/// # let lock_file = folder.join("client-0.lock");
///
/// let listener = std::net::TcpListener::bind("127.0.0.1:0")?;
/// let server = Server::start(listener, MemoryStore::default())?;
/// let client = AsyncClient::from(Client::join(server.address(), 0, lock_file)?);
/// block_on(async {
///     assert_eq!(client.insert(15, Value::from(5)).await?, Outcome::Applied);
///     assert_eq!(client.read(10..20).await?.len(), 1);
///     client.leave().await
/// })?;
/// # std::fs::remove_dir_all(&folder)?;
/// # Ok::<(), Box<dyn std::error::Error>>(())
/// ```
#[derive(Clone)]
pub struct AsyncClient {
    client: Client,
}

type Pinned = Result<(Vec<Row>, AsyncPin), Error>;

impl AsyncClient {
    /// The client whose calls wait. Those that wait for nothing are called there: `cached`,
    /// `number`, `set_timeout`, `keep_all`, and `pin` of a client without a map.
    #[must_use]
    pub fn client(&self) -> &Client {
        &self.client
    }

    /// The rows of the range, as [`Client::read`] gives them.
    ///
    /// # Errors
    ///
    /// Those of [`Client::read`].
    pub async fn read(&self, keys: impl RangeBounds<u64>) -> Result<Vec<Row>, Error> {
        let keys = keys_of(&keys)?;
        match self.client.cached(keys.clone())? {
            Some(rows) => Ok(rows),
            None => self.calls().read(keys).await,
        }
    }

    /// The rows of the range, as [`Client::read_once`] gives them. Tasks that make this call take
    /// turns: a thread of its own, which the first of them starts, reads for them.
    ///
    /// # Errors
    ///
    /// Those of [`Client::read_once`].
    pub async fn read_once(&self, keys: impl RangeBounds<u64>) -> Result<Vec<Row>, Error> {
        self.calls().read_once(keys_of(&keys)?).await
    }

    /// Inserts a row, as [`Client::insert`] does.
    ///
    /// # Errors
    ///
    /// Those of [`Client::insert`].
    pub async fn insert(&self, key: u64, value: Value) -> Result<Outcome, Error> {
        self.calls().write(Write::Insert(Row { key, value })).await
    }

    /// Gives a row another value, as [`Client::put`] does.
    ///
    /// # Errors
    ///
    /// Those of [`Client::insert`].
    pub async fn put(&self, key: u64, value: Value) -> Result<Outcome, Error> {
        self.calls().write(Write::Put(Row { key, value })).await
    }

    /// Gives a key this value, as [`Client::set`] does. The timeout is that of all its writes
    /// together.
    ///
    /// # Errors
    ///
    /// Those of [`Client::set`].
    pub async fn set(&self, key: u64, value: Value) -> Result<Outcome, Error> {
        self.calls().set(Row { key, value }).await
    }

    /// Deletes a row, as [`Client::delete`] does.
    ///
    /// # Errors
    ///
    /// Those of [`Client::insert`].
    pub async fn delete(&self, key: u64) -> Result<Outcome, Error> {
        self.calls().write(Write::Delete(key)).await
    }

    /// Makes several writes, as [`Client::write_all`] does. If its future is dropped, those that
    /// were not sent are not made.
    ///
    /// # Errors
    ///
    /// Those of [`Client::write_all`].
    pub async fn write_all(
        &self,
        writes: impl IntoIterator<Item = Mutation>,
    ) -> Result<Vec<Outcome>, BatchError> {
        self.calls().write_all(writes.into_iter().collect()).await
    }

    /// Gives back what the client holds of the range, as [`Client::forget`] does.
    ///
    /// # Errors
    ///
    /// Those of [`Client::forget`].
    pub async fn forget(&self, keys: impl RangeBounds<u64>) -> Result<(), Error> {
        self.calls().forget(keys_of(&keys)?).await
    }

    /// Reads the range and pins it, as [`Client::pin_for_read`] does.
    ///
    /// # Errors
    ///
    /// Those of [`Client::pin_for_read`].
    pub async fn pin_for_read(&self, keys: impl RangeBounds<u64>) -> Pinned {
        hold(self.calls(), keys_of(&keys)?, Purpose::Read).await
    }

    /// Reads the range and pins it, as [`Client::pin_for_update`] does.
    ///
    /// # Errors
    ///
    /// Those of [`Client::pin_for_read`].
    pub async fn pin_for_update(&self, keys: impl RangeBounds<u64>) -> Pinned {
        hold(self.calls(), keys_of(&keys)?, Purpose::Update).await
    }

    /// Reads the range and pins it, as [`Client::pin_for_write`] does.
    ///
    /// # Errors
    ///
    /// Those of [`Client::pin_for_read`].
    pub async fn pin_for_write(&self, keys: impl RangeBounds<u64>) -> Pinned {
        hold(self.calls(), keys_of(&keys)?, Purpose::Write).await
    }

    /// Waits at most this long, and a year at most, until the client no longer knows that the range
    /// has these rows, as [`Client::wait_for_change`] does.
    ///
    /// # Errors
    ///
    /// Those of [`Client::wait_for_change`].
    pub async fn wait_for_change(
        &self,
        keys: impl RangeBounds<u64>,
        rows: &[Row],
        timeout: Duration,
    ) -> Result<Waited, Error> {
        let (keys, client) = (keys_of(&keys)?, self.client.within(timeout));
        client.calls().in_task().wait_for_change(keys, rows).await
    }

    /// The states of the range, one after the other, as [`Client::changes`] gives them.
    ///
    /// # Errors
    ///
    /// Those of [`Client::changes`].
    pub fn changes(&self, keys: impl RangeBounds<u64>) -> Result<AsyncChanges, Error> {
        let keys = self.client.keys_to_watch(&keys)?;
        Ok(AsyncChanges { client: self.clone(), keys, last: None })
    }

    /// Leaves, as [`Client::leave`] does.
    ///
    /// # Errors
    ///
    /// Those of [`Client::leave`].
    pub async fn leave(&self) -> Result<(), Error> {
        self.calls().leave().await
    }

    /// Calls that begin now.
    fn calls(&self) -> Calls<'_> {
        self.client.calls().in_task()
    }
}

async fn hold(calls: Calls<'_>, keys: Range<u64>, purpose: Purpose) -> Pinned {
    let (rows, pinned) = calls.hold(keys, purpose).await?;
    Ok((rows, AsyncPin { pin: Pin::of(pinned) }))
}

impl From<Client> for AsyncClient {
    fn from(client: Client) -> AsyncClient {
        AsyncClient { client }
    }
}

impl fmt::Debug for AsyncClient {
    fn fmt(&self, f: &mut fmt::Formatter<'_>) -> fmt::Result {
        f.debug_tuple("AsyncClient").field(&self.client).finish()
    }
}

/// A pinned range whose writes are futures. When it is dropped, the range is free.
#[derive(Debug)]
#[must_use = "the range is free again as soon as this is dropped"]
pub struct AsyncPin {
    pin: Pin,
}

impl AsyncPin {
    /// Whether no other client has taken what was held of the range, as [`Pin::holds`] reports.
    #[must_use]
    pub fn holds(&self) -> bool {
        self.pin.holds()
    }

    /// Inserts a row while the pin holds, or never, as [`Pin::insert`] does.
    ///
    /// # Errors
    ///
    /// Those of [`Pin::insert`].
    pub async fn insert(&self, key: u64, value: Value) -> Result<Outcome, Error> {
        self.calls().write(Write::Insert(Row { key, value })).await
    }

    /// Gives a row another value while the pin holds, or never, as [`Pin::put`] does.
    ///
    /// # Errors
    ///
    /// Those of [`Pin::insert`].
    pub async fn put(&self, key: u64, value: Value) -> Result<Outcome, Error> {
        self.calls().write(Write::Put(Row { key, value })).await
    }

    /// Gives a key this value while the pin holds, or never, as [`Pin::set`] does.
    ///
    /// # Errors
    ///
    /// Those of [`Pin::insert`].
    pub async fn set(&self, key: u64, value: Value) -> Result<Outcome, Error> {
        self.calls().set(Row { key, value }).await
    }

    /// Deletes a row while the pin holds, or never, as [`Pin::delete`] does.
    ///
    /// # Errors
    ///
    /// Those of [`Pin::insert`].
    pub async fn delete(&self, key: u64) -> Result<Outcome, Error> {
        self.calls().write(Write::Delete(key)).await
    }

    /// Makes several writes, as [`Pin::write_all`] does.
    ///
    /// # Errors
    ///
    /// Those of [`Pin::write_all`].
    pub async fn write_all(
        &self,
        writes: impl IntoIterator<Item = Mutation>,
    ) -> Result<Vec<Outcome>, BatchError> {
        self.calls().write_all(writes.into_iter().collect()).await
    }

    /// Calls that begin now.
    fn calls(&self) -> Calls<'_> {
        self.pin.calls().in_task()
    }
}

/// The states of a range, one after the other, as [`Changes`](crate::Changes) gives them.
#[derive(Debug)]
#[must_use = "it reads nothing before it is asked"]
pub struct AsyncChanges {
    client: AsyncClient,
    keys: Range<u64>,
    last: Option<Vec<Row>>,
}

impl AsyncChanges {
    /// Waits for the next state, or for the end of the client: then it is `None`. If its future is
    /// dropped before it ends, the last state is not lost.
    pub async fn next(&mut self) -> Option<Result<Vec<Row>, Error>> {
        loop {
            if let Some(rows) = &self.last {
                // Why a wait failed shows in the read that follows.
                let _ = self.client.wait_for_change(self.keys.clone(), rows, MAX_WAIT).await;
            }
            match self.client.read(self.keys.clone()).await {
                Ok(rows) if self.last.as_ref() == Some(&rows) => {}
                Ok(rows) => {
                    self.last = Some(rows.clone());
                    return Some(Ok(rows));
                }
                Err(error) if error.kind == ErrorKind::Left => return None,
                Err(error) => return Some(Err(error)),
            }
        }
    }
}
