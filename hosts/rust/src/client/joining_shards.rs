//! How a client joins the shards of a map, by this map or by a next one.
use crate::call::error::{ErrorKind, JoinError, JoinErrorKind};
use crate::client::followed_map::FollowedMap;
use crate::client::joined::Joined;
use crate::client::joining::{self, JoinPurpose, Waits};
use crate::client::shard_client::{ShardClient, leave_soon};
use crate::client::state::Asked;
#[cfg(feature = "tls")]
use crate::net::tls::TlsConfig;
use crate::shards::map::ShardMap;
use std::ops::Range;
use std::path::PathBuf;
use std::sync::Arc;
use std::time::{Duration, Instant};

/// How often a client that joins looks whether there is a next map.
const MAP_CHECK_INTERVAL: Duration = Duration::from_millis(50);

/// What a client of a map needs to join its shards.
#[derive(Debug)]
pub(crate) struct JoiningShards {
    pub number: u8,
    pub lock: Lock,
    pub keys: Range<u64>,
    #[cfg(feature = "tls")]
    pub tls: Option<TlsConfig>,
}

/// Where the lock files of a client are.
#[derive(Clone, Debug)]
pub(crate) enum Lock {
    /// This is the file of its only number; of a map it is the folder.
    Given(PathBuf),
    /// In this folder, by their numbers.
    In(PathBuf),
}

impl JoiningShards {
    /// The same map, whose servers are shown what the client shows.
    #[cfg_attr(not(feature = "tls"), allow(clippy::unused_self, reason = "it shows nothing then"))]
    pub fn shown_to(&self, map: ShardMap) -> ShardMap {
        #[cfg(feature = "tls")]
        if let Some(config) = &self.tls {
            return map.with_tls(config);
        }
        map
    }

    /// The shards that have some of the client's keys. They lie next to each other.
    pub fn shards_of(&self, map: &ShardMap) -> Result<Range<usize>, JoinError> {
        let parts = map.parts(self.keys.clone()).unwrap_or_default();
        let ends = parts.first().zip(parts.last());
        let (first, last) = ends.ok_or_else(|| self.of_no_shard())?;
        Ok(first.shard..last.shard + 1)
    }

    fn of_no_shard(&self) -> JoinError {
        JoinError::of(self.number, None)(JoinErrorKind::Incomplete("keys of a shard"))
    }

    /// Joins the shards of the client's keys at once: by this map, or by each next one that its file
    /// has meanwhile. If one of them is not joined, the others are left again.
    pub fn join(&self, map: &ShardMap, waits: Waits) -> Result<Joined, JoinError> {
        let (mut map, mut followed) = (map.clone(), FollowedMap::of_file_of(map));
        let begun = Instant::now();
        loop {
            let joined = self.start_all(&map)?;
            match self.wait_for_all(&joined, waits, begun, &mut followed) {
                Ok(None) => return Ok(joined),
                Ok(Some(next)) => map = self.shown_to(next),
                Err(failed) => {
                    joined.leave_soon();
                    return Err(failed);
                }
            }
            joined.leave_soon();
        }
    }

    /// Starts the clients of the shards that have some of the client's keys. They join by themselves.
    fn start_all(&self, map: &ShardMap) -> Result<Joined, JoinError> {
        let shards = self.shards_of(map)?;
        let (mut clients, mut failed) = (Vec::new(), None);
        for shard in shards.clone() {
            match self.start(map, shard) {
                Ok(client) => clients.push(client),
                Err(error) => failed = failed.or(Some(error)),
            }
        }
        if let Some(failed) = failed {
            leave_soon(&clients.iter().collect::<Vec<_>>());
            return Err(failed);
        }
        Joined::shards(map.clone(), shards.start, clients).ok_or_else(|| self.of_no_shard())
    }

    /// Waits until all have joined, or until there is a next map, which it returns.
    ///
    /// **By a map that may change, each waits for its shard's server until the deadline**: while the
    /// shard changes its server is stopped, or is still that of the shard by the map before.
    fn wait_for_all(
        &self,
        joined: &Joined,
        waits: Waits,
        begun: Instant,
        followed: &mut FollowedMap,
    ) -> Result<Option<ShardMap>, JoinError> {
        if joined.may_change() {
            joined.follow_map();
        }
        let gives_up = || joining::gives_up(waits, JoinPurpose::Work, begun);
        let ask = |(_, client): (_, &Arc<ShardClient>)| client.link().join(gives_up());
        let asked: Vec<_> = joined.clients().map(ask).collect();
        for ((shard, client), asked) in joined.clients().zip(asked) {
            let answer = match wait_for(client, asked, waits.end(begun), followed) {
                Ended::Answered(answer) => answer,
                Ended::Next(next) => return Ok(Some(next)),
            };
            let failed = |refused| joining::not_joined(client, refused);
            answer.map_err(failed).map_err(JoinError::of(self.number, Some(shard)))?;
        }
        joined.keep_to_map();
        Ok(None)
    }

    /// Starts the client of a shard, which joins by itself. What it is asked before waits.
    pub fn start(&self, map: &ShardMap, shard: usize) -> Result<Arc<ShardClient>, JoinError> {
        let lock_file = self.lock.of_shard(map.shards()[shard].first, self.number);
        let purpose = JoinPurpose::Work;
        let client = joining::start(map.servers_of(shard), self.number, &lock_file, purpose);
        client.map(Arc::new).map_err(JoinError::of(self.number, Some(shard)))
    }
}

/// How the wait for the client of a shard ended.
enum Ended {
    /// It has joined, or not for this reason.
    Answered(Result<(), ErrorKind>),
    /// There is a next map.
    Next(ShardMap),
}

fn wait_for(
    client: &ShardClient,
    asked: Asked<()>,
    end: Instant,
    followed: &mut FollowedMap,
) -> Ended {
    loop {
        let look = end.min(Instant::now() + MAP_CHECK_INTERVAL);
        if let Some(answer) = client.link().answered_by(&asked, look) {
            return Ended::Answered(answer);
        }
        if let Some(next) = followed.find_next() {
            return Ended::Next(next);
        }
        if look >= end {
            return Ended::Answered(client.link().finish(asked, end));
        }
    }
}

impl Lock {
    /// The lock file of a number at one server.
    pub fn of_number(&self, number: u8) -> PathBuf {
        match self {
            Lock::Given(file) => file.clone(),
            Lock::In(folder) => folder.join(format!("client-{number}.lock")),
        }
    }

    /// The lock file of a number at the shard that begins with this key, by which the shard is the
    /// same one in each map that has it.
    pub fn of_shard(&self, first: u64, number: u8) -> PathBuf {
        let (Lock::Given(folder) | Lock::In(folder)) = self;
        folder.join(format!("shard-{first}-client-{number}.lock"))
    }
}
