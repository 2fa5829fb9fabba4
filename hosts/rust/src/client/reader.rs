//! Reads that are not kept.
mod connection;
mod faults;
mod of_server;
mod until;

use crate::call::error::{Error, ErrorKind, JoinError, JoinErrorKind};
use crate::call::range::keys_of;
use crate::client::followed_map::FollowedMap;
use crate::client::place::Place;
use crate::client::standing::Standing;
use crate::client::timeout::{MAX_WAIT, TIMEOUT};
use crate::model::row::{END, Row, Value};
#[cfg(feature = "tls")]
use crate::net::tls::TlsConfig;
use crate::proved::partition::Part;
use crate::shards::map::ShardMap;
#[cfg(feature = "map-file")]
use crate::store::map_home::FileMap;
pub(crate) use of_server::ServerReader;
#[cfg(feature = "map-file")]
use std::io;
use std::ops::{Range, RangeBounds};
#[cfg(feature = "map-file")]
use std::path::PathBuf;
use std::time::{Duration, Instant};
pub(crate) use until::Until;

/// Reads rows of a table without being one of its 64 clients. It has no number, no lock file and no
/// lease, and keeps no rows: each call asks the server. So any number of processes may read, up to
/// the 1,024 connections that a server takes from readers, and no write has to call one back.
///
/// A range of at most 128 rows is read at one moment of the call. A longer one is read in parts, in
/// ascending order, each at a moment of its own, and so are the parts of several shards. What was
/// written and answered before a call is in what it returns.
///
/// It connects at its first call, and again after a connection has ended. Until a server has answered
/// it, it gives up as a client that joins does, and by a map with a version only at its deadline, since
/// the shard may be changing; later it waits for its server to come back. A reader of a map that
/// changes follows it by `Reader::follow`, with the feature `map-file`. It belongs to one thread at a
/// time: for several threads make several.
///
/// # Examples
///
/// ```
/// # let folder = std::env::temp_dir().join(format!("krl-doc-reader-{}", std::process::id()));
/// # std::fs::create_dir_all(&folder)?;
/// # let lock_file = folder.join("client-0.lock");
/// use krl::{Client, MemoryStore, Reader, Server, Value};
///
/// let listener = std::net::TcpListener::bind("127.0.0.1:0")?;
/// let server = Server::start(listener, MemoryStore::default())?;
/// let client = Client::join(server.address(), 0, lock_file)?;
/// client.insert(15, Value::from(5))?;
/// let mut reader = Reader::new(server.address());
/// assert_eq!(reader.get(15)?, Some(Value::from(5)));
/// # client.leave()?;
/// # std::fs::remove_dir_all(&folder)?;
/// # Ok::<(), Box<dyn std::error::Error>>(())
/// ```
#[derive(Debug)]
pub struct Reader {
    place: Place,
    timeout: Duration,
    /// The reader of each server, by the number of its shard. That of a shard is made when it is
    /// first asked.
    servers: Vec<Option<ServerReader>>,
    followed: FollowedMap,
}

impl Reader {
    /// A reader of the table at this place. It connects at its first call.
    #[must_use]
    pub fn new(place: impl Into<Place>) -> Reader {
        let (place, followed) = (place.into(), FollowedMap::none());
        Reader { place, timeout: TIMEOUT, servers: Vec::new(), followed }
    }

    /// The same reader, each of whose calls waits at most this long for an answer, and a year at
    /// most. By default that is 15 seconds.
    #[must_use]
    pub fn with_timeout(self, timeout: Duration) -> Reader {
        Reader { timeout: timeout.min(MAX_WAIT), ..self }
    }

    /// The same reader, which shows this certificate to servers that listen over TLS. It names
    /// `krl:reader`, or a client.
    #[cfg(feature = "tls")]
    #[must_use]
    pub fn with_tls(self, config: TlsConfig) -> Reader {
        Reader { place: self.place.with_tls(config), ..self }
    }

    /// From now on the reader follows the map in this file, as a client does. It looks at the file if
    /// a server does not answer or is of another shard, and asks again by a map whose version is
    /// greater. So a call ends by the error of a server only at its deadline.
    ///
    /// # Errors
    ///
    /// `InvalidInput` if the reader has no map with a version.
    #[cfg(feature = "map-file")]
    pub fn follow(&mut self, file: impl Into<PathBuf>) -> io::Result<()> {
        let version = match &self.place {
            Place::Server(_) => None,
            Place::Map(map) => map.version(),
        };
        let version = version.ok_or_else(|| {
            let why = "only a reader of a map with a version follows a map";
            io::Error::new(io::ErrorKind::InvalidInput, why)
        })?;
        self.followed = FollowedMap::of(FileMap::new(file), version);
        Ok(())
    }

    /// Connects to the servers of these keys, and asks each for a row. A later call would do that by
    /// itself: this one reports why no server is reached.
    ///
    /// # Errors
    ///
    /// The kinds `NoAnswer`, `NothingListens`, `NoServer`, `Unserved`, `TurnedAway` and `OtherShard` of
    /// a client that joins; `Refused`, if the range begins above its end, or ends above 2^63, or if the
    /// store lacks what an earlier call of this reader may have returned.
    pub fn connect(&mut self, keys: impl RangeBounds<u64>) -> Result<(), JoinError> {
        let refused = |kind| JoinError::from(JoinErrorKind::Refused(kind));
        let (keys, deadline) = (keys_of(&keys).map_err(refused)?, Instant::now() + self.timeout);
        let connected = self.by_each_map(&keys, |reader, parts| {
            let mut connect = |Part { shard, keys }: &Part| {
                reader.ask(*shard, deadline, |server, until| server.connect(keys, until))
            };
            parts.iter().try_for_each(&mut connect)
        });
        connected.map_err(|Error { kind, shard }| {
            let place = shard.map_or(0, usize::from);
            let server = self.servers.get_mut(place).and_then(Option::as_mut);
            match server {
                Some(server) => {
                    JoinError { kind: server.why_not_connected(kind), number: None, shard }
                }
                None => refused(kind),
            }
        })
    }

    /// The rows of the range, as the server's store has them at a moment of the call; over more
    /// than 128 rows, or several shards, at one moment for each part. An empty range has no rows.
    ///
    /// # Errors
    ///
    /// `BadRange` if the range begins above its end, or ends above 2^63; `TimedOut` or `Unserved`;
    /// `TurnedAway` or `OtherShard`; `StoreWentBack` if the store lacks what an earlier call of this
    /// reader may have returned.
    pub fn read(&mut self, keys: impl RangeBounds<u64>) -> Result<Vec<Row>, Error> {
        let (keys, deadline) = (keys_of(&keys)?, Instant::now() + self.timeout);
        self.by_each_map(&keys, |reader, parts| {
            let mut rows = Vec::new();
            for Part { shard, keys } in parts {
                let read = |server: &mut ServerReader, until: &mut Until<'_>| {
                    server.read(keys.clone(), until)
                };
                rows.extend(reader.ask(*shard, deadline, read)?);
            }
            Ok(rows)
        })
    }

    /// The rows of the range, all of them at one moment of the call, or `None` if they are more than
    /// 128, or if several shards have keys of the range.
    ///
    /// # Errors
    ///
    /// Those of [`Reader::read`].
    pub fn read_at_one_moment(
        &mut self,
        keys: impl RangeBounds<u64>,
    ) -> Result<Option<Vec<Row>>, Error> {
        let (keys, deadline) = (keys_of(&keys)?, Instant::now() + self.timeout);
        self.by_each_map(&keys, |reader, parts| match parts {
            [] => Ok(Some(Vec::new())),
            [Part { shard, keys }] => reader.ask(*shard, deadline, |server, until| {
                server.read_at_one_moment(keys.clone(), until)
            }),
            _ => Ok(None),
        })
    }

    /// The value of the row of this key, or `None` if there is no such row.
    ///
    /// # Errors
    ///
    /// `BadKey` if the key is 2^63 - 1 or more; those of [`Reader::read`].
    pub fn get(&mut self, key: u64) -> Result<Option<Value>, Error> {
        if key >= END {
            return Err(ErrorKind::BadKey.into());
        }
        Ok(self.read(key..=key)?.first().map(|row| row.value))
    }

    /// Runs `work` on each server's part of the keys by the current map, and again by each later
    /// map.
    fn by_each_map<T>(
        &mut self,
        keys: &Range<u64>,
        mut work: impl FnMut(&mut Reader, &[Part]) -> Result<T, Error>,
    ) -> Result<T, Error> {
        loop {
            let parts = self.parts(keys)?;
            let done = work(self, &parts);
            let is_elsewhere = matches!(&done, Err(error) if error.kind == ErrorKind::Left);
            match self.followed.take_next().filter(|_| is_elsewhere) {
                Some(next) => self.continue_by(next),
                None => return done,
            }
        }
    }

    /// Continues by this map. What is the same by both keeps its connection.
    fn continue_by(&mut self, next: ShardMap) {
        let place = Place::Map(next);
        #[cfg(feature = "tls")]
        let place = match self.place.servers_of(0).tls().cloned() {
            Some(config) => place.with_tls(config),
            None => place,
        };
        self.place = place;
        let mut before: Vec<_> = std::mem::take(&mut self.servers).into_iter().flatten().collect();
        let Place::Map(map) = &self.place else { return };
        let kept = |shard| {
            let servers = map.servers_of(shard);
            let place = before.iter().position(|server| *server.servers() == servers)?;
            Some(before.swap_remove(place))
        };
        self.servers = (0..map.shards().len()).map(kept).collect();
    }

    /// What each server has of the keys. The only one counts as shard 0.
    fn parts(&self, keys: &Range<u64>) -> Result<Vec<Part>, Error> {
        match &self.place {
            Place::Server(_) if keys.is_empty() => Ok(Vec::new()),
            Place::Server(_) => Ok(vec![Part { shard: 0, keys: keys.clone() }]),
            Place::Map(map) => map.parts(keys.clone()),
        }
    }

    /// Asks the server of a shard.
    fn ask<T>(
        &mut self,
        shard: usize,
        deadline: Instant,
        question: impl FnOnce(&mut ServerReader, &mut Until<'_>) -> Result<T, ErrorKind>,
    ) -> Result<T, Error> {
        if self.servers.len() <= shard {
            self.servers.resize_with(shard + 1, || None);
        }
        let place = &self.place;
        let server =
            self.servers[shard].get_or_insert_with(|| ServerReader::new(place.servers_of(shard)));
        // The shard may be changing as the reader connects.
        let may_change = place.has_version() && !server.has_answer();
        let standing = &mut || match self.followed.standing() {
            Standing::Fixed if may_change => Standing::Here,
            standing => standing,
        };
        let mut until = Until { deadline, standing };
        let answer = question(server, &mut until);
        answer.map_err(|kind| Error { kind, shard: self.named(shard) })
    }

    /// The shard as errors name it: the only server is none.
    fn named(&self, shard: usize) -> Option<u8> {
        match &self.place {
            Place::Server(_) => None,
            Place::Map(_) => u8::try_from(shard).ok(),
        }
    }
}
