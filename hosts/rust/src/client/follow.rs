//! A client that follows its map: it continues by each next one.
use crate::call::error::JoinError;
use crate::client::Client;
use crate::client::followed_map::FollowedMap;
use crate::client::table::Live;
use crate::log::event_log;
use crate::shards::map::ShardMap;
use crate::store::map_home::{FileMap, MapHome};
use std::io::{self, ErrorKind};
use std::num::NonZeroU64;
use std::path::PathBuf;
use std::sync::{Arc, Weak};
use std::thread;
use std::time::Duration;

/// How long one wait for the next map is.
const CHANGE_WAIT: Duration = Duration::from_secs(10);

/// The pause after which a client that could not continue by the next map tries it again.
const RETRY_PAUSE: Duration = Duration::from_millis(50);

impl Client {
    /// From now on the client follows the map in this file: it continues by each map that it finds
    /// there whose version is greater than that of its own. Calls at shards that are the same in
    /// the next map notice nothing. Calls at the others wait, and are made by the next map.
    ///
    /// The file has to be replaced at once, by a rename: `krl-server reshard` does so. It may be a
    /// copy: a client that sees a map late waits for longer, and answers nothing outdated. A file
    /// that is not a map is logged and ignored, and so is a missing one. It looks at the file
    /// twenty times a second, until the client leaves or is dropped.
    ///
    /// ```no_run
    /// # fn join() -> Result<(), Box<dyn std::error::Error>> {
    /// use krl::{Client, ShardMap};
    ///
    /// let client = Client::join(ShardMap::from_file("map.toml")?, 0, "locks")?;
    /// client.follow("map.toml")?;
    /// # Ok(())
    /// # }
    /// ```
    ///
    /// # Errors
    ///
    /// `InvalidInput` if the client has no map with a version; why there is no thread for it.
    pub fn follow(&self, file: impl Into<PathBuf>) -> io::Result<()> {
        self.follow_at(FileMap::new(file))
    }

    /// From now on the client follows the map at this home, as by [`Client::follow`] the one in a file:
    /// a key of etcd, as `EtcdMap` of `krl-etcd`, a row of `PostgreSQL`, as `PostgresMap` of
    /// `krl-postgres`, or another.
    ///
    /// # Errors
    ///
    /// As of [`Client::follow`].
    pub fn follow_at(&self, home: impl MapHome + Send + 'static) -> io::Result<()> {
        let Some(version) = self.map().and_then(|map| map.version()) else {
            let why = "only a client of a map with a version follows a map";
            return Err(io::Error::new(ErrorKind::InvalidInput, why));
        };
        let live = &self.table.live;
        live.follow_map();
        let follower = Follower { live: Arc::downgrade(live), map: FollowedMap::of(home, version) };
        thread::Builder::new().name("krl-map".into()).spawn(|| follower.run()).map(drop)
    }
}

/// The thread of a client that follows its map.
struct Follower<H> {
    live: Weak<Live>,
    map: FollowedMap<H>,
}

impl<H: MapHome> Follower<H> {
    /// Follows the map until the client leaves, or nobody has it any more.
    fn run(mut self) {
        while let Some(live) = self.live.upgrade().filter(|live| !live.is_over()) {
            let continued = self.continue_by_next(&live);
            drop(live);
            match continued {
                Ok(()) => self.map.wait(CHANGE_WAIT),
                Err(error) => {
                    self.map.log(&error);
                    thread::sleep(RETRY_PAUSE);
                }
            }
        }
    }

    /// Continues by the next map, if there is one. It is tried again if that fails.
    fn continue_by_next(&mut self, live: &Live) -> Result<(), JoinError> {
        let Some(next) = self.map.look() else { return Ok(()) };
        let before = version_of(live);
        live.change(next.clone())?;
        if version_of(live) > before {
            event_log::follows_map(version_of(live).map_or(0, NonZeroU64::get));
        }
        self.map.take_next();
        Ok(())
    }
}

fn version_of(live: &Live) -> Option<NonZeroU64> {
    live.now().map().and_then(ShardMap::version)
}
