//! Where a table is: at one server, or at the servers of a map.
use crate::arguments::Options;
use crate::failure::Failure;
use krl::{ClientBuilder, END, Reader, Servers, Shard, ShardMap, TlsConfig};
use krl_cli::sentence;
use std::fmt;
use std::ops::Range;
use std::time::Duration;

/// Where a table is, and what a client of it is given.
#[derive(Clone, Debug)]
pub struct Place {
    pub at: krl::Place,
    /// Only those shards are joined that have some of these keys.
    keys: Range<u64>,
    tls: Option<TlsConfig>,
}

/// One server of a table, and a point that it has.
pub struct Station<'p> {
    /// The shard, if the table has some.
    pub shard: Option<u8>,
    pub servers: &'p Servers,
    /// The greatest key there.
    pub point: u64,
}

impl Place {
    /// The place that the options name: a map comes before a server.
    pub fn of(options: &Options, keys: Range<u64>) -> Result<Place, Failure> {
        let tls = options.tls()?;
        let at = match &options.map {
            None => krl::Place::from(&options.server),
            Some(path) => krl::Place::from(ShardMap::from_file(path).map_err(|error| {
                let why = sentence(&error);
                Failure::Usage(format!("the map {} can't be used: {why}", path.display()))
            })?),
        };
        Ok(Place { at, keys, tls })
    }

    /// The same builder, with what a client is given for the place.
    pub fn configure(&self, builder: ClientBuilder) -> ClientBuilder {
        let builder = builder.keys(self.keys.clone());
        match &self.tls {
            Some(config) => builder.tls(config.clone()),
            None => builder,
        }
    }

    /// A reader of the table, each of whose calls waits at most this long.
    pub fn reader(&self, timeout: Duration) -> Reader {
        let reader = Reader::new(self.at.clone()).with_timeout(timeout);
        match &self.tls {
            Some(config) => reader.with_tls(config.clone()),
            None => reader,
        }
    }

    /// Each server of the table.
    pub fn stations(&self) -> Vec<Station<'_>> {
        match &self.at {
            krl::Place::Server(servers) => vec![Station { shard: None, servers, point: END - 1 }],
            krl::Place::Map(map) => {
                let ends = map.shards().iter().skip(1).map(|next| next.first);
                let stations = (0..).zip(map.shards()).zip(ends.chain([END]));
                stations.map(|((shard, it), end)| station(shard, it, end)).collect()
            }
        }
    }

    /// The server of a shard.
    pub fn servers_of(&self, shard: Option<u8>) -> Option<&Servers> {
        match &self.at {
            krl::Place::Server(servers) => Some(servers),
            krl::Place::Map(map) => Some(&map.shards().get(usize::from(shard?))?.servers),
        }
    }

    /// The name of the lock file that the library takes in a folder, for a number at this server.
    pub fn lock_file_name(&self, number: u8, shard: Option<u8>) -> String {
        match (&self.at, shard) {
            (krl::Place::Map(map), Some(shard)) => {
                let first = map.shards().get(usize::from(shard)).map_or(0, |shard| shard.first);
                format!("shard-{first}-client-{number}.lock")
            }
            _ => format!("client-{number}.lock"),
        }
    }

    /// That no row fits in where this key is.
    pub fn full(&self, key: u64) -> String {
        match &self.at {
            krl::Place::Server(_) => {
                "the table has all the rows that its server has room for".into()
            }
            krl::Place::Map(map) => {
                let shard = map.shard_of(key).map_or(String::new(), |shard| shard.to_string());
                format!(
                    "shard {shard} has all the rows that its server has room for: it has to be split"
                )
            }
        }
    }
}

/// The last shard may begin at END, where no key is.
fn station(shard: u8, it: &Shard, end: u64) -> Station<'_> {
    Station { shard: Some(shard), servers: &it.servers, point: it.first.max(end - 1) }
}

impl fmt::Display for Station<'_> {
    fn fmt(&self, f: &mut fmt::Formatter<'_>) -> fmt::Result {
        match self.shard {
            None => self.servers.fmt(f),
            Some(shard) => write!(f, "shard {shard} at {}", self.servers),
        }
    }
}
