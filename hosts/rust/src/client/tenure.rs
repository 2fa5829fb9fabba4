//! For how long a client has held a range without a break.
use crate::call::error::{Error, ErrorKind};
use crate::call::range::keys_of;
use crate::client::Client;
use crate::client::scratch::with_room;
use crate::proved::losses::Tenure;
use std::ops::{Range, RangeBounds};

impl Client {
    /// The tenure of the range, or `None` if the cache does not cover it. **If two calls return the
    /// same tenure of a range, its rows were the same at each moment from the first call to the
    /// second**: the client has held the range without a break, and has written nothing there. It
    /// sends nothing, and waits for no longer than [`Client::cached`].
    ///
    /// By this a program keeps what it has made of the rows, or what it has loaded elsewhere while
    /// they stayed as they were: it takes the tenure, loads, and uses what it has loaded only as
    /// long as the tenure is the same. Tenures of different clients or ranges are not compared. A
    /// new tenure may also be due to the loss of another range, if the client has lost thousands of
    /// keys, and to a next map.
    ///
    /// ```no_run
    /// # use krl::{Client, Error, Tenure};
    /// struct Page(Tenure, String);
    ///
    /// fn page(client: &Client, kept: &mut Option<Page>) -> Result<String, Error> {
    ///     let tenure = client.tenure(10..20)?;
    ///     if let Some(Page(since, page)) = kept && tenure == Some(*since) {
    ///         return Ok(page.clone());
    ///     }
    ///     let page = format!("{:?}", client.read(10..20)?);
    ///     *kept = tenure.map(|since| Page(since, page.clone()));
    ///     Ok(page)
    /// }
    /// ```
    ///
    /// # Errors
    ///
    /// `BadRange` if the range is empty, begins above its end, ends above 2^63, or has keys of a shard
    /// that is not joined.
    pub fn tenure(&self, keys: impl RangeBounds<u64>) -> Result<Option<Tenure>, Error> {
        let keys = keys_of(&keys)?;
        if keys.is_empty() {
            return Err(ErrorKind::BadRange.into());
        }
        with_room(|room| self.table.tenure(&keys, room))
    }

    /// Returns for each of these ranges whether the client has held it without a break since
    /// [`Client::tenure`] returned the tenure next to it: whether that call would return the same
    /// one again. It takes much less time than that call for each range, since it scans none of
    /// them. It sends nothing, and waits for no longer than [`Client::cached`].
    ///
    /// # Errors
    ///
    /// Those of [`Client::tenure`].
    pub fn held_since(&self, since: &[(Range<u64>, Tenure)]) -> Result<Vec<bool>, Error> {
        for (keys, _) in since {
            if keys_of(keys)?.is_empty() {
                return Err(ErrorKind::BadRange.into());
            }
        }
        self.table.held_since(since)
    }
}
