//! The map that a client or a reader follows, or by which a client joins.
use crate::client::standing::Standing;
#[cfg(feature = "map-file")]
use crate::log::event_log;
use crate::log::rate_limit::RateLimit;
use crate::shards::map::ShardMap;
#[cfg(feature = "map-file")]
use crate::store::StoreError;
use crate::store::map_home::FileMap;
#[cfg(feature = "map-file")]
use crate::store::map_home::MapHome;
#[cfg(feature = "map-file")]
use std::error::Error;
#[cfg(feature = "map-file")]
use std::fmt::Display;
use std::num::NonZeroU64;
#[cfg(feature = "map-file")]
use std::time::Duration;

/// The map at its home, as one sees it who continues by each next one.
#[derive(Debug)]
pub(crate) struct FollowedMap<H = FileMap> {
    /// Where it is, and the version of the map before the next one. None if no map is followed.
    home: Option<(H, NonZeroU64)>,
    /// What was read last.
    read: Option<String>,
    /// The next map, if it was found.
    next: Option<ShardMap>,
    limit: RateLimit,
}

impl FollowedMap {
    /// No map.
    pub fn none() -> FollowedMap {
        FollowedMap::new(None)
    }

    /// That in the file from which this map was read, if it was.
    #[cfg_attr(
        not(feature = "map-file"),
        allow(unused_variables, reason = "no map has a file then")
    )]
    pub fn of_file_of(map: &ShardMap) -> FollowedMap {
        #[cfg(feature = "map-file")]
        if let Some((file, version)) = map.file().zip(map.version()) {
            return FollowedMap::of(FileMap::new(file), version);
        }
        FollowedMap::none()
    }

    /// Where the keys of a server are that is known by the map.
    #[cfg_attr(
        not(feature = "map-file"),
        allow(clippy::unused_self, reason = "it follows no map then")
    )]
    pub fn standing(&mut self) -> Standing {
        #[cfg(feature = "map-file")]
        if self.home.is_some() {
            return if self.look().is_some() { Standing::Elsewhere } else { Standing::Here };
        }
        Standing::Fixed
    }

    /// The next map, if its file has one.
    pub fn find_next(&mut self) -> Option<ShardMap> {
        self.standing();
        self.take_next()
    }
}

impl<H> FollowedMap<H> {
    fn new(home: Option<(H, NonZeroU64)>) -> FollowedMap<H> {
        FollowedMap { home, read: None, next: None, limit: RateLimit::default() }
    }

    /// The next map, by which to continue.
    pub fn take_next(&mut self) -> Option<ShardMap> {
        let next = self.next.take()?;
        if let Some(((_, before), version)) = self.home.as_mut().zip(next.version()) {
            *before = version;
        }
        Some(next)
    }
}

#[cfg(feature = "map-file")]
impl<H: MapHome> FollowedMap<H> {
    /// That at a home, by one whose map is of this version.
    pub fn of(home: H, version: NonZeroU64) -> FollowedMap<H> {
        FollowedMap::new(Some((home, version)))
    }

    /// The next map, if one was found by now. What is not a map is logged, and passed over.
    pub fn look(&mut self) -> Option<&ShardMap> {
        match self.read_next() {
            Ok(None) => {}
            Ok(next) => self.next = next,
            Err(error) => self.log(&error),
        }
        self.next.as_ref()
    }

    /// The map that stands there, if that was not read before and is later than the one before.
    fn read_next(&mut self) -> Result<Option<ShardMap>, String> {
        let Some((home, before)) = &mut self.home else { return Ok(None) };
        let cause = |error: StoreError| {
            error.source().map_or_else(|| error.to_string(), ToString::to_string)
        };
        let read = home.read().map_err(cause)?;
        if read.is_none() || read == self.read {
            return Ok(None);
        }
        self.read = read;
        let map = self.read.as_deref().map(ShardMap::from_toml).transpose();
        let map = map.map_err(|error| error.to_string())?;
        Ok(map.filter(|map| map.comes_after(*before)))
    }

    /// Waits until there may be another map than was last read, and for this time at most.
    pub fn wait(&mut self, most: Duration) {
        if let Some((home, _)) = &mut self.home {
            home.wait(most);
        }
    }

    /// Logs why the client does not continue by what stands there.
    pub fn log(&mut self, error: &dyn Display) {
        event_log::cannot_follow(&mut self.limit, error);
    }
}
