//! The client of krl by which a process holds stripes.
use crate::held::MarkTenures;
use krl::{Client, Error, JoinError, Servers, Tenure, TlsConfig};
use std::ops::{Range, RangeInclusive};
use std::path::PathBuf;
use std::sync::{Arc, Mutex, MutexGuard, PoisonError};
use std::time::Duration;

/// The key of krl of the mark of all tables, which a reader holds with each stripe.
pub(crate) const CLUSTER_MARK: u64 = 1 << 40;

/// How long a client waits to join, for a lock, and to leave.
const JOIN: Duration = Duration::from_secs(5);
const HOLD: Duration = Duration::from_secs(2);
const LEAVE: Duration = Duration::from_secs(1);

/// This many stripes that nobody asked for are held between two that somebody did, so that a
/// request holds more. Nobody keeps rows of them, so their writers wait for nothing.
const GAP: u64 = 16;

/// As which client this process joins krl.
#[derive(Debug)]
pub(crate) struct KrlPlace {
    pub numbers: Range<u8>,
    pub lock_folder: PathBuf,
    pub tls: Option<TlsConfig>,
}

/// The locks that this process holds, as one client of krl.
#[derive(Debug)]
pub(crate) struct Locks {
    client: Client,
}

/// The locks that the loader has joined for, until the cache is closed.
#[derive(Debug, Default)]
pub(crate) struct JoinedLocks(Mutex<State>);

#[derive(Debug, Default)]
struct State {
    locks: Option<Arc<Locks>>,
    is_closed: bool,
}

/// The cache is closed.
#[derive(Clone, Copy, Debug, PartialEq, Eq)]
pub(crate) struct IsClosed;

/// The marks of a table and of all tables, as they are held.
#[derive(Clone, Copy, Debug)]
pub(crate) struct Marks {
    /// The key of krl of the table's mark.
    pub of_table: u32,
    pub tenures: MarkTenures,
    /// What the extension draws each time it starts.
    pub nonce: i64,
}

impl Locks {
    pub fn join(servers: Servers, place: &KrlPlace) -> Result<Locks, JoinError> {
        let servers = match &place.tls {
            Some(tls) => servers.with_tls(tls.clone()),
            None => servers,
        };
        let numbers = place.numbers.clone();
        let builder = Client::builder_with_numbers(servers, numbers, &place.lock_folder);
        let client = builder.timeout(JOIN).join()?;
        client.set_timeout(HOLD);
        // What is worth being held is decided by stripe: see `Worth`.
        client.keep_all();
        Ok(Locks { client })
    }

    /// The tenure of a key, if it is held.
    pub fn tenure(&self, key: u64) -> Option<u64> {
        self.client.tenure(key..=key).ok().flatten().map(u64::from)
    }

    /// Whether each key has been held without a break since it had this tenure.
    pub fn held_since(&self, since: impl IntoIterator<Item = (u64, u64)>) -> Vec<bool> {
        let since = since.into_iter().map(|(key, tenure)| (key..key + 1, tenure.into()));
        let since: Vec<(Range<u64>, Tenure)> = since.collect();
        self.client.held_since(&since).unwrap_or_else(|_| vec![false; since.len()])
    }

    /// The tenures of the marks, if both are held.
    pub fn tenures_of_marks(&self, of_table: u32) -> Option<MarkTenures> {
        let table = self.tenure(of_table.into())?;
        Some(MarkTenures { cluster: self.tenure(CLUSTER_MARK)?, table })
    }

    /// Holds the marks. Returns none if one was lost again, or that of all tables has no nonce yet.
    pub fn hold_marks(&self, of_table: u32) -> Result<Option<Marks>, Error> {
        self.hold(&[of_table.into(), CLUSTER_MARK])?;
        let Some(tenures) = self.tenures_of_marks(of_table) else { return Ok(None) };
        // After the tenures: a later nonce with an earlier tenure lets nothing be returned.
        let mut nonce = None;
        let read = |row: &krl::Row| nonce = row.value.as_bytes().try_into().ok();
        self.client.for_each_cached(CLUSTER_MARK..=CLUSTER_MARK, read)?;
        Ok(nonce.map(|nonce| Marks { of_table, tenures, nonce: i64::from_ne_bytes(nonce) }))
    }

    /// Holds these ascending keys.
    pub fn hold(&self, keys: &[u64]) -> Result<(), Error> {
        let is_missing = |key: &&u64| self.tenure(**key).is_none();
        for span in spans(keys.iter().filter(is_missing)) {
            self.client.read(span)?;
        }
        Ok(())
    }

    /// Whether krl's server is there.
    pub fn is_connected(&self) -> bool {
        self.client.status().iter().all(|shard| shard.is_connected)
    }

    /// What was called back since the last call.
    pub fn take_called_back(&self) -> Vec<Range<u64>> {
        self.client.take_called_back()
    }

    /// Gives back what is held, so that no writer waits for it. A server that does not answer delays
    /// this for a second.
    pub fn leave(&self) {
        // Otherwise the lease ends.
        let _ = self.client.within(LEAVE).leave();
    }
}

impl JoinedLocks {
    /// Those that are joined, if there are some.
    pub fn get(&self) -> Result<Option<Arc<Locks>>, IsClosed> {
        let state = self.state();
        if state.is_closed { Err(IsClosed) } else { Ok(state.locks.clone()) }
    }

    /// From now on these are joined, unless the cache was closed meanwhile.
    pub fn put(&self, locks: &Arc<Locks>) -> Result<(), IsClosed> {
        let mut state = self.state();
        if state.is_closed {
            return Err(IsClosed);
        }
        state.locks = Some(Arc::clone(locks));
        Ok(())
    }

    /// Leaves those that are joined. Others may be joined after that.
    pub fn leave(&self) {
        let left = self.state().locks.take();
        if let Some(locks) = left {
            locks.leave();
        }
    }

    /// Leaves those that are joined, and has no others join.
    pub fn close(&self) {
        self.state().is_closed = true;
        self.leave();
    }

    fn state(&self) -> MutexGuard<'_, State> {
        self.0.lock().unwrap_or_else(PoisonError::into_inner)
    }
}

/// The spans of ascending keys, with what lies between two of them that are close.
fn spans<'k>(keys: impl Iterator<Item = &'k u64>) -> Vec<RangeInclusive<u64>> {
    let mut spans: Vec<RangeInclusive<u64>> = Vec::new();
    for &key in keys {
        match spans.last_mut() {
            Some(last) if key - last.end() <= GAP => *last = *last.start()..=key,
            _ => spans.push(key..=key),
        }
    }
    spans
}

#[cfg(test)]
mod tests {
    use super::*;

    #[test]
    fn keys_that_are_close_are_held_by_one_request() {
        assert_eq!(spans([].iter()), []);
        let keys = [3, 4, 4 + GAP, 5 + 2 * GAP, 100];
        assert_eq!(spans(keys.iter()), [3..=4 + GAP, 5 + 2 * GAP..=5 + 2 * GAP, 100..=100]);
    }
}
