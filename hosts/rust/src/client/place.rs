//! Where the table of a client is.
use crate::net::servers::Servers;
use crate::net::tls::TlsConfig;
use crate::shards::map::ShardMap;

/// Where the table of a client is: at one server, or at the servers of a map. Whatever makes
/// [`Servers`] makes a place too, and so does a [`ShardMap`].
#[derive(Clone, Debug, PartialEq, Eq)]
pub enum Place {
    /// At one server: the one of these that serves.
    Server(Servers),
    /// At the servers of a map, each with its shard of the keys.
    Map(ShardMap),
}

impl Place {
    /// The servers of a shard. The only one counts as shard 0.
    pub(crate) fn servers_of(&self, shard: usize) -> Servers {
        match self {
            Place::Server(servers) => servers.clone(),
            Place::Map(map) => map.servers_of(shard),
        }
    }

    /// Whether it is a map that a next one may replace.
    pub(crate) fn has_version(&self) -> bool {
        matches!(self, Place::Map(map) if map.version().is_some())
    }

    /// What its servers are shown.
    pub(crate) fn tls(&self) -> Option<&TlsConfig> {
        match self {
            Place::Server(servers) => servers.tls(),
            Place::Map(map) => map.shards().first()?.servers.tls(),
        }
    }

    /// The same place, whose servers are shown this if they listen over TLS.
    #[cfg(feature = "tls")]
    pub(crate) fn with_tls(self, config: TlsConfig) -> Place {
        match self {
            Place::Server(servers) => Place::Server(servers.with_tls(config)),
            Place::Map(map) => Place::Map(map.with_tls(&config)),
        }
    }
}

impl<S: Into<Servers>> From<S> for Place {
    fn from(servers: S) -> Place {
        Place::Server(servers.into())
    }
}

impl From<ShardMap> for Place {
    fn from(map: ShardMap) -> Place {
        Place::Map(map)
    }
}

impl From<&ShardMap> for Place {
    fn from(map: &ShardMap) -> Place {
        Place::Map(map.clone())
    }
}
