//! What the clones of a client and its pins share: the servers that it has joined, by the map of
//! now.
use crate::call::error::{Error, JoinError, JoinErrorKind};
use crate::client::alarm::Alarm;
use crate::client::joined::Joined;
use crate::client::joining_shards::JoiningShards;
use crate::client::shard_client::{ShardClient, leave_all};
use crate::client::state::State;
use crate::client::timeout::Timeout;
use crate::client::waiting::Waiting;
use crate::model::row::Row;
use crate::proved::losses::Tenure;
use crate::shards::map::ShardMap;
use std::ops::Range;
use std::sync::atomic::{AtomicBool, Ordering};
use std::sync::{Arc, Mutex, MutexGuard, PoisonError, RwLock};
use std::task::{Context, Poll};
use std::time::{Duration, Instant};

/// How long the servers of shards that the next map changes may take to keep that the client has
/// left. One that has not kept it knows of the client until its lease ends.
const LEAVE: Duration = Duration::from_secs(30);

/// The servers that a client has joined. When nobody has the client any more, all are left at once.
pub(crate) struct Table {
    number: u8,
    /// The client of the only server, if there is no map. So a scan of it looks at no map.
    only: Option<Arc<ShardClient>>,
    pub live: Arc<Live>,
    pub timeout: Timeout,
}

/// The servers by the current map, which may change while calls are made.
pub(crate) struct Live {
    now: RwLock<Arc<Joined>>,
    /// What the client needs to join the shards of a next map. None without a map.
    joining: Option<JoiningShards>,
    /// The client leaves, or nobody has it any more: it follows no map.
    is_over: AtomicBool,
    /// Held by the one who changes the map.
    changing: Mutex<()>,
    /// No client of a shard is started while this is held.
    starting: Mutex<()>,
    /// The calls that wait for the next map.
    waiting: Arc<Alarm>,
}

impl Table {
    /// That of a client without a map.
    pub fn of_one(client: ShardClient, timeout: Duration) -> Table {
        let client = Arc::new(client);
        let joined = Joined::one(Arc::clone(&client));
        Table::new(client.number(), Some(client), Live::new(joined, None), timeout)
    }

    /// That of a client of shards, and what it needs to join others.
    pub fn of_shards(joined: Joined, joining: JoiningShards, timeout: Duration) -> Table {
        Table::new(joining.number, None, Live::new(joined, Some(joining)), timeout)
    }

    fn new(number: u8, only: Option<Arc<ShardClient>>, live: Live, timeout: Duration) -> Table {
        Table { number, only, live: Arc::new(live), timeout: Timeout::new(timeout) }
    }

    pub fn number(&self) -> u8 {
        self.number
    }

    /// The client of the only server, if there is no map.
    #[inline]
    pub fn only(&self) -> Option<&ShardClient> {
        self.only.as_deref()
    }

    /// The servers by the current map.
    pub fn now(&self) -> Arc<Joined> {
        self.live.now()
    }

    /// Whether the caches know the range at one moment, all of them by one map. If so the rows are
    /// there.
    #[inline]
    pub fn scan(&self, keys: &Range<u64>, rows: &mut Vec<Row>) -> Result<bool, Error> {
        match self.only() {
            Some(only) => Ok(only.scan(keys, rows)),
            None => self.live.by_map(|joined| joined.scan(keys, rows)),
        }
    }

    /// The tenure of a range that is not empty, if the caches cover it.
    pub fn tenure(&self, keys: &Range<u64>, room: &mut Vec<Row>) -> Result<Option<Tenure>, Error> {
        match self.only() {
            Some(only) => Ok(only.tenure(keys, room)),
            None => self.live.by_map(|joined| joined.tenure(keys, room)),
        }
    }

    /// Whether each range, which is not empty, was held without a break since it had this tenure.
    pub fn held_since(&self, since: &[(Range<u64>, Tenure)]) -> Result<Vec<bool>, Error> {
        match self.only() {
            Some(only) => Ok(only.held_since(since)),
            None => self.live.by_map(|joined| joined.held_since(since)),
        }
    }
}

impl Drop for Table {
    fn drop(&mut self) {
        let joined = self.live.end();
        if self.only.is_none() {
            joined.leave_soon();
        }
    }
}

impl Live {
    fn new(joined: Joined, joining: Option<JoiningShards>) -> Live {
        Live {
            now: RwLock::new(Arc::new(joined)),
            joining,
            is_over: AtomicBool::new(false),
            changing: Mutex::new(()),
            starting: Mutex::new(()),
            waiting: Arc::default(),
        }
    }

    pub fn now(&self) -> Arc<Joined> {
        self.by_map(Arc::clone)
    }

    /// Does something by the current map, which does not change meanwhile.
    fn by_map<T>(&self, work: impl FnOnce(&Arc<Joined>) -> T) -> T {
        work(&self.now.read().unwrap_or_else(PoisonError::into_inner))
    }

    /// Whether the client leaves, or nobody has it any more.
    pub fn is_over(&self) -> bool {
        self.is_over.load(Ordering::SeqCst)
    }

    /// The client leaves: it follows no map any more. Returns the servers that are to be left.
    pub fn end(&self) -> Arc<Joined> {
        self.is_over.store(true, Ordering::SeqCst);
        // A change that has begun to start clients ends first. No other one starts any.
        drop(lock(&self.starting));
        self.waiting.wake_all();
        self.now()
    }

    /// Waits until there is another map than that of these servers. Returns whether there is: not if
    /// the client leaves, and not at the deadline.
    pub async fn next_after(&self, before: &Arc<Joined>, end: Instant, waiting: Waiting) -> bool {
        let look = |_: &Context<'_>| {
            if !Arc::ptr_eq(&self.now(), before) {
                Poll::Ready(true)
            } else if self.is_over() {
                Poll::Ready(false)
            } else {
                Poll::Pending
            }
        };
        self.waiting.until(end, waiting, look).await.unwrap_or(false)
    }

    /// Continues by this map, if it comes after the current one. A shard that is the same in both
    /// keeps its client. The others are left, and the clients of the shards in their place are
    /// started: they join by themselves, and what is asked meanwhile waits. So at no moment is a
    /// call made by two maps.
    ///
    /// # Errors
    ///
    /// `Incomplete` if there is no map with a version; why a client was not started. The shards that
    /// the map changes are left then, and calls there wait: it is to be called again.
    pub fn change(&self, map: ShardMap) -> Result<(), JoinError> {
        let _changing = lock(&self.changing);
        let before = self.now();
        let version = before.map().and_then(ShardMap::version);
        let Some((joining, version)) = self.joining.as_ref().zip(version) else {
            return Err(JoinErrorKind::Incomplete("a map with a version").into());
        };
        if !map.comes_after(version) {
            return Ok(());
        }
        let map = joining.shown_to(map);
        let shards = joining.shards_of(&map)?;
        let kept: Vec<Option<Arc<ShardClient>>> =
            shards.clone().map(|shard| before.client_of(&map.servers_of(shard)).cloned()).collect();
        let is_kept =
            |client: &Arc<ShardClient>| kept.iter().flatten().any(|kept| Arc::ptr_eq(kept, client));
        let gone: Vec<_> =
            before.clients().map(|(_, client)| client).filter(|client| !is_kept(client)).collect();
        leave_all(&gone, Instant::now() + LEAVE);
        let _starting = lock(&self.starting);
        if self.is_over() {
            return Ok(());
        }
        let clients = shards.clone().zip(kept).map(|(shard, kept)| match kept {
            Some(kept) => Ok(kept),
            None => joining.start(&map, shard),
        });
        let clients = clients.collect::<Result<Vec<_>, JoinError>>()?;
        for client in &clients {
            client.link().follow_map();
        }
        if let Some(joined) = Joined::shards(map, shards.start, clients) {
            let joined = Arc::new(joined.after(&before));
            *self.now.write().unwrap_or_else(PoisonError::into_inner) = joined;
        }
        self.waiting.wake_all();
        Ok(())
    }

    /// The clients wait for servers that are of another shard.
    #[cfg(feature = "map-file")]
    pub fn follow_map(&self) {
        self.now().follow_map();
    }

    /// The clients keep what they read.
    pub fn keep_all(&self) {
        self.now().clients().for_each(|(_, client)| client.link().with_state(State::keep_all));
    }
}

fn lock<T>(mutex: &Mutex<T>) -> MutexGuard<'_, T> {
    mutex.lock().unwrap_or_else(PoisonError::into_inner)
}
