//! Where a client finds its server: one place, or several at which servers stand by.
use crate::model::shard_bounds::ShardBounds;
use crate::net::address::{Address, BadAddress};
use crate::net::tls::TlsConfig;
use std::fmt;
use std::net::SocketAddr;
use std::str::FromStr;

/// The addresses of the servers over one store: one of them serves, and the others stand by. As
/// text with commas between them, such as `tls:10.0.0.1:7400,tls:10.0.0.2:7400`.
///
/// A client goes to the next one if it can't connect, if its connection ends, if the server is
/// silent for a second after a question, and if a server is of an older epoch than one of which the
/// client has learned. With one address it connects again to that, and waits five seconds for a
/// server that is silent.
#[derive(Clone, Debug, PartialEq, Eq)]
pub struct Servers {
    first: Address,
    others: Vec<Address>,
    tls: Option<TlsConfig>,
    shard: Option<ShardBounds>,
}

impl Servers {
    /// The same servers, to which a client shows this certificate if they listen over TLS.
    #[cfg(feature = "tls")]
    #[must_use]
    pub fn with_tls(self, config: TlsConfig) -> Servers {
        Servers { tls: Some(config), ..self }
    }

    /// The same servers, which a client takes for those of this shard: it sends nothing to a server
    /// that serves another one, or the shard of another map.
    #[must_use]
    pub fn of_shard(self, shard: ShardBounds) -> Servers {
        Servers { shard: Some(shard), ..self }
    }

    /// This many servers, and at least one, whose addresses only the host of a client knows.
    #[cfg(feature = "sans-io")]
    pub(crate) fn unnamed(count: usize) -> Servers {
        let address = |place: usize| Address::Unix(format!("server {place}").into());
        let others = (1..count).map(address).collect();
        Servers { first: address(0), others, tls: None, shard: None }
    }

    /// The shard that a client takes them for, if not for servers of all keys.
    pub(crate) fn shard(&self) -> Option<ShardBounds> {
        self.shard
    }

    /// What a client shows to them, and whom it trusts.
    pub(crate) fn tls(&self) -> Option<&TlsConfig> {
        self.tls.as_ref()
    }

    /// The addresses, in the order in which a client tries them.
    pub fn iter(&self) -> impl Iterator<Item = &Address> {
        std::iter::once(&self.first).chain(&self.others)
    }

    /// Whether there is another one to try.
    pub(crate) fn are_several(&self) -> bool {
        !self.others.is_empty()
    }

    pub(crate) fn count(&self) -> usize {
        1 + self.others.len()
    }

    /// The address at this place, counted cyclically.
    pub(crate) fn at(&self, place: usize) -> &Address {
        let place = place % self.count();
        place.checked_sub(1).map_or(&self.first, |place| &self.others[place])
    }
}

impl From<Address> for Servers {
    fn from(address: Address) -> Servers {
        Servers { first: address, others: Vec::new(), tls: None, shard: None }
    }
}

impl From<&Address> for Servers {
    fn from(address: &Address) -> Servers {
        address.clone().into()
    }
}

impl From<SocketAddr> for Servers {
    fn from(address: SocketAddr) -> Servers {
        Address::from(address).into()
    }
}

impl From<&Servers> for Servers {
    fn from(servers: &Servers) -> Servers {
        servers.clone()
    }
}

impl FromStr for Servers {
    type Err = BadAddress;

    fn from_str(text: &str) -> Result<Servers, BadAddress> {
        let mut addresses = text.split(',').map(str::parse);
        let first = addresses.next().unwrap_or(Err(BadAddress::Form))?;
        let others = addresses.collect::<Result<_, _>>()?;
        Ok(Servers { first, others, tls: None, shard: None })
    }
}

impl fmt::Display for Servers {
    fn fmt(&self, f: &mut fmt::Formatter<'_>) -> fmt::Result {
        self.first.fmt(f)?;
        self.others.iter().try_for_each(|other| write!(f, ",{other}"))
    }
}

#[cfg(test)]
mod tests {
    use super::*;

    #[test]
    fn servers_are_read_as_they_are_written() {
        for text in ["127.0.0.1:1", "tls:10.0.0.1:1,unix:/a,plain:db2:7400"] {
            let servers: Servers = text.parse().unwrap();
            assert_eq!(servers.to_string(), text);
            assert_eq!(servers.iter().count(), servers.count());
        }
        let servers: Servers = "127.0.0.1:1,tls:db2:7400".parse().unwrap();
        let tried: Vec<String> = (0..4).map(|place| servers.at(place).to_string()).collect();
        assert_eq!(tried, ["127.0.0.1:1", "tls:db2:7400", "127.0.0.1:1", "tls:db2:7400"]);
        assert!(servers.are_several() && !Servers::from(servers.at(0)).are_several());
        for text in ["", ",", "127.0.0.1:1,", "127.0.0.1:1, 127.0.0.1:2", "here"] {
            assert_eq!(text.parse::<Servers>(), Err(BadAddress::Form), "{text}");
        }
    }
}
