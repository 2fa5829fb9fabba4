//! The servers that a client has joined by one map, or the only one.
use crate::call::error::{Error, ErrorKind};
use crate::client::link::Link;
use crate::client::shard_client::{ShardClient, leave_soon};
use crate::client::state::State;
use crate::model::row::{END, Row};
use crate::net::servers::Servers;
use crate::proved::losses::Tenure;
use crate::proved::partition::Part;
use crate::shards::map::ShardMap;
use crate::shards::one_moment::{self, Known};
use std::iter;
use std::ops::Range;
use std::sync::Arc;

/// The servers that a client has joined, by one map. A shard that the next map has as it is has the
/// same client by both.
///
/// Without a map it is one server, which has all keys and counts as shard 0.
pub(crate) struct Joined {
    map: Option<ShardMap>,
    /// The shard of the first client.
    first_shard: usize,
    /// The clients of the shards, in their order: at least one.
    clients: Vec<Arc<ShardClient>>,
    /// More than each tenure that was returned by an earlier map.
    earlier_tenures: u64,
}

impl Joined {
    /// The one server of a client without a map.
    pub fn one(client: Arc<ShardClient>) -> Joined {
        Joined { map: None, first_shard: 0, clients: vec![client], earlier_tenures: 0 }
    }

    /// Shards of the map, from this one on, each by its client. `None` if there is no client.
    pub fn shards(
        map: ShardMap,
        first_shard: usize,
        clients: Vec<Arc<ShardClient>>,
    ) -> Option<Joined> {
        if clients.is_empty() {
            return None;
        }
        let joined = Joined { map: Some(map), first_shard, clients, earlier_tenures: 0 };
        // A read of several shards is answered by what all of them know after it.
        joined.keep_all();
        Some(joined)
    }

    /// The same, by a map that comes after that of these. No tenure is one that they have returned.
    pub fn after(self, before: &Joined) -> Joined {
        let of_all = |client: &Arc<ShardClient>| client.link().cache().losses();
        let returned: u64 = before.clients.iter().map(of_all).sum();
        Joined { earlier_tenures: before.earlier_tenures + returned + 1, ..self }
    }

    /// The clients keep what they read.
    pub fn keep_all(&self) {
        self.clients().for_each(|(_, client)| client.link().with_state(State::keep_all));
    }

    /// The clients wait for servers that are of another shard, or that are not there.
    pub fn follow_map(&self) {
        self.clients().for_each(|(_, client)| client.link().follow_map());
    }

    /// They wait no longer for servers that are of another shard.
    pub fn keep_to_map(&self) {
        self.clients().for_each(|(_, client)| client.link().keep_to_map());
    }

    /// Whether a next map may take the place of theirs.
    pub fn may_change(&self) -> bool {
        self.map.as_ref().is_some_and(|map| map.version().is_some())
    }

    /// Leaves all servers at once, and waits for as long as a client that is dropped does.
    pub fn leave_soon(&self) {
        leave_soon(&self.clients().map(|(_, client)| client).collect::<Vec<_>>());
    }

    pub fn map(&self) -> Option<&ShardMap> {
        self.map.as_ref()
    }

    /// Whether there is no map.
    pub fn is_one(&self) -> bool {
        self.map.is_none()
    }

    /// The shards, each with its client.
    pub fn clients(&self) -> impl Iterator<Item = (usize, &Arc<ShardClient>)> {
        (self.first_shard..).zip(&self.clients)
    }

    /// The client of these servers of a shard, if there is one.
    pub fn client_of(&self, servers: &Servers) -> Option<&Arc<ShardClient>> {
        self.clients.iter().find(|client| client.link().servers() == servers)
    }

    pub fn client(&self, shard: usize) -> &ShardClient {
        &self.clients[shard - self.first_shard]
    }

    pub fn link(&self, shard: usize) -> &Arc<Link> {
        self.client(shard).link()
    }

    fn has(&self, shard: usize) -> bool {
        shard.checked_sub(self.first_shard).is_some_and(|place| place < self.clients.len())
    }

    /// Makes errors of this shard, which has no number if it is the only server.
    pub fn error_at(&self, shard: usize) -> impl Fn(ErrorKind) -> Error + use<> {
        let shard = self.map.as_ref().and_then(|_| u8::try_from(shard).ok());
        move |kind| Error { kind, shard }
    }

    /// What each shard has of the range, if all these shards are joined.
    pub fn parts(&self, keys: &Range<u64>) -> Result<Vec<Part>, ErrorKind> {
        let Some(map) = &self.map else { return Ok(vec![Part { shard: 0, keys: keys.clone() }]) };
        let parts = map.parts(keys.clone()).map_err(|refused| refused.kind)?;
        let are_joined = parts.iter().all(|part| self.has(part.shard));
        are_joined.then_some(parts).ok_or(ErrorKind::BadRange)
    }

    /// The shard of the key, if its key may be that of a row.
    pub fn shard_of(&self, key: u64) -> Result<usize, Error> {
        match &self.map {
            Some(map) => map.shard_of(key),
            None if key < END => Ok(0),
            None => Err(ErrorKind::BadKey.into()),
        }
    }

    /// The same, if that shard is joined.
    pub fn joined_shard_of(&self, key: u64) -> Result<usize, Error> {
        let shard = self.shard_of(key)?;
        if self.has(shard) { Ok(shard) } else { Err(ErrorKind::BadKey.into()) }
    }

    /// Whether the caches of the shards know the range at one moment. If so the rows are there.
    pub fn scan(&self, keys: &Range<u64>, rows: &mut Vec<Row>) -> Result<bool, Error> {
        Ok(self.is_known(&self.parts(keys)?, rows))
    }

    /// The tenure of a range that is not empty, if the caches of the shards cover it.
    pub fn tenure(&self, keys: &Range<u64>, room: &mut Vec<Row>) -> Result<Option<Tenure>, Error> {
        let parts = self.parts(keys)?;
        let of_part = |part: &Part| self.client(part.shard).tenure(&part.keys, room);
        let earlier = iter::once(Some(Tenure::from(self.earlier_tenures)));
        Ok(earlier.chain(parts.iter().map(of_part)).sum())
    }

    /// Whether each range, which is not empty, was held without a break since it had this tenure.
    pub fn held_since(&self, since: &[(Range<u64>, Tenure)]) -> Result<Vec<bool>, Error> {
        let mut room = Vec::new();
        let mut is_held = |(keys, since): &(Range<u64>, Tenure)| {
            Ok(self.tenure(keys, &mut room)? == Some(*since))
        };
        since.iter().map(&mut is_held).collect()
    }

    /// Whether the caches know all parts at one moment. If so the rows are there.
    pub fn is_known(&self, parts: &[Part], rows: &mut Vec<Row>) -> bool {
        rows.clear();
        let known = |Part { shard, keys }: &Part| Known {
            cache: self.link(*shard).cache(),
            keys: keys.clone(),
        };
        one_moment::scan(&parts.iter().map(known).collect::<Vec<_>>(), rows)
    }
}
