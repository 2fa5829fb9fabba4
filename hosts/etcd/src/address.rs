//! Where a store in etcd is.
use std::fmt;
use std::path::PathBuf;
use std::str::FromStr;

/// Where a cluster is, and which keys in it belong to one table: those that begin with the prefix.
///
/// As text: `etcd://10.0.0.1:2379,10.0.0.2:2379/krl/orders`, or `etcds://` and the same, for TLS.
#[derive(Clone, Debug, PartialEq, Eq)]
pub struct EtcdAddress {
    /// The endpoints, each a host and a port.
    pub endpoints: Vec<String>,
    /// Such as `/krl/orders`, with no slash after it.
    pub prefix: String,
    /// Whether the endpoints speak TLS.
    pub is_secure: bool,
}

/// What a client of the cluster shows.
#[derive(Clone, Debug, Default, PartialEq, Eq)]
pub struct Credentials {
    /// A user of etcd and the password.
    pub user: Option<(String, String)>,
    /// The certificate of the authority that certified the endpoints, as PEM. Without it those of
    /// the system count.
    pub authority: Option<PathBuf>,
    /// A certificate and its key in PKCS #8, each as PEM.
    pub certificate: Option<(PathBuf, PathBuf)>,
}

/// A text that is not an address of etcd.
#[derive(Clone, Copy, Debug, PartialEq, Eq)]
pub struct BadEtcdAddress;

impl FromStr for EtcdAddress {
    type Err = BadEtcdAddress;

    fn from_str(text: &str) -> Result<EtcdAddress, BadEtcdAddress> {
        let (scheme, rest) = text.split_once("://").ok_or(BadEtcdAddress)?;
        let is_secure = match scheme {
            "etcd" => false,
            "etcds" => true,
            _ => return Err(BadEtcdAddress),
        };
        let (hosts, path) = rest.split_once('/').ok_or(BadEtcdAddress)?;
        let endpoints: Vec<String> = hosts.split(',').map(str::to_string).collect();
        if !endpoints.iter().all(|endpoint| is_endpoint(endpoint)) || !is_path(path) {
            return Err(BadEtcdAddress);
        }
        Ok(EtcdAddress { endpoints, prefix: format!("/{path}"), is_secure })
    }
}

/// A host and a port.
fn is_endpoint(text: &str) -> bool {
    let is_plain = |byte: u8| byte.is_ascii_alphanumeric() || b"-._:[]".contains(&byte);
    let parts = text.rsplit_once(':');
    parts.is_some_and(|(host, port)| {
        !host.is_empty() && host.bytes().all(is_plain) && port.parse::<u16>().is_ok()
    })
}

/// A path without a slash at its end.
fn is_path(text: &str) -> bool {
    !text.is_empty() && !text.ends_with('/') && text.bytes().all(|byte| byte.is_ascii_graphic())
}

impl fmt::Display for EtcdAddress {
    fn fmt(&self, f: &mut fmt::Formatter<'_>) -> fmt::Result {
        let scheme = if self.is_secure { "etcds" } else { "etcd" };
        write!(f, "{scheme}://{}{}", self.endpoints.join(","), self.prefix)
    }
}

impl fmt::Display for BadEtcdAddress {
    fn fmt(&self, f: &mut fmt::Formatter<'_>) -> fmt::Result {
        f.write_str(
            "a store in etcd is written as etcd://HOST:PORT,HOST:PORT/PREFIX, or etcds:// for TLS",
        )
    }
}

impl std::error::Error for BadEtcdAddress {}

#[cfg(test)]
mod tests {
    use super::*;

    #[test]
    fn addresses_are_read_as_they_are_written() {
        for text in ["etcd://a:1/x", "etcds://10.0.0.1:2379,[::1]:2/krl/orders"] {
            assert_eq!(text.parse::<EtcdAddress>().unwrap().to_string(), text);
        }
        let address: EtcdAddress = "etcds://a:1,b:2/krl/orders".parse().unwrap();
        assert_eq!(address.endpoints, ["a:1", "b:2"]);
        assert_eq!((address.prefix.as_str(), address.is_secure), ("/krl/orders", true));
    }

    #[test]
    fn other_texts_are_none() {
        for text in [
            "etcd://a:1",
            "etcd://a/x",
            "a:1/x",
            "http://a:1/x",
            "etcd://a:1/",
            "etcd://a:1/x/",
            "etcd://a:1,/x",
            "etcd:///x",
            "etcd://:1/x",
            "etcd://a:65536/x",
            "etcd://a:1/x y",
        ] {
            assert_eq!(text.parse::<EtcdAddress>(), Err(BadEtcdAddress), "{text}");
        }
    }
}
