//! Where servers listen.
use std::fmt;
use std::net::SocketAddr;
use std::path::PathBuf;
use std::str::FromStr;

/// What the text of an address begins with.
const TLS: &str = "tls:";
const PLAIN: &str = "plain:";
const UNIX: &str = "unix:";

/// The name of this machine.
const LOCALHOST: &str = "localhost";

/// Where a server listens. As text: `tls:10.0.0.1:7400`, `tls:db1:7400`, `unix:` and a path,
/// `plain:10.0.0.1:7400`, or, on this machine, `127.0.0.1:7400` or `localhost:7400`, which is plain
/// TCP.
///
/// **Over plain TCP whoever can connect can speak for any client.** So an address beyond the
/// loopback is plain TCP only if that is explicit.
#[derive(Clone, Debug, PartialEq, Eq)]
#[non_exhaustive]
pub enum Address {
    /// Plain TCP.
    Tcp(SocketAddr),
    /// Plain TCP at a port of a host, whose name is looked up at each connect. Each address that it
    /// has is tried in turn.
    Host(String, u16),
    /// TLS over TCP.
    Tls(SocketAddr),
    /// TLS over TCP at a port of a host, whose name is looked up as that of `Host`.
    TlsHost(String, u16),
    /// A Unix socket.
    Unix(PathBuf),
}

/// A text that is not an address.
#[derive(Clone, Copy, Debug, PartialEq, Eq)]
#[non_exhaustive]
pub enum BadAddress {
    /// It does not have the form of an address.
    Form,
    /// It is beyond the loopback, and begins neither with `tls:` nor with `plain:`.
    NoScheme,
}

impl Address {
    /// Whether it is one of TLS.
    #[must_use]
    pub fn is_tls(&self) -> bool {
        matches!(self, Address::Tls(_) | Address::TlsHost(..))
    }

    /// Whether it is one of plain TCP that other machines may reach.
    #[must_use]
    pub fn is_plain_beyond_loopback(&self) -> bool {
        match self {
            Address::Tcp(address) => !address.ip().to_canonical().is_loopback(),
            Address::Host(name, _) => name != LOCALHOST,
            Address::Tls(_) | Address::TlsHost(..) | Address::Unix(_) => false,
        }
    }

    /// An address of TCP, written without its kind.
    fn of_tcp(text: &str) -> Result<Address, BadAddress> {
        text.parse().map(Address::Tcp).or_else(|_| host(text))
    }

    /// The same place, by TLS.
    fn with_tls(self) -> Address {
        match self {
            Address::Tcp(address) => Address::Tls(address),
            Address::Host(name, port) => Address::TlsHost(name, port),
            other => other,
        }
    }
}

impl FromStr for Address {
    type Err = BadAddress;

    fn from_str(text: &str) -> Result<Address, BadAddress> {
        if let Some(path) = text.strip_prefix(UNIX) {
            return if path.is_empty() {
                Err(BadAddress::Form)
            } else {
                Ok(Address::Unix(path.into()))
            };
        }
        if let Some(place) = text.strip_prefix(TLS) {
            return Address::of_tcp(place).map(Address::with_tls);
        }
        if let Some(place) = text.strip_prefix(PLAIN) {
            return Address::of_tcp(place);
        }
        let address = Address::of_tcp(text)?;
        if address.is_plain_beyond_loopback() { Err(BadAddress::NoScheme) } else { Ok(address) }
    }
}

/// The name of a host and a port.
fn host(text: &str) -> Result<Address, BadAddress> {
    let (name, port) = text.rsplit_once(':').ok_or(BadAddress::Form)?;
    let port = port.parse().map_err(|_| BadAddress::Form)?;
    if is_host(name) { Ok(Address::Host(name.into(), port)) } else { Err(BadAddress::Form) }
}

/// Whether a name may be a host's. One whose last part is a number is an address that is wrong.
fn is_host(name: &str) -> bool {
    let is_letter = |byte: u8| byte.is_ascii_alphanumeric() || b"-._".contains(&byte);
    let last = name.trim_end_matches('.').rsplit('.').next().unwrap_or("");
    name.bytes().all(is_letter) && last.bytes().any(|byte| !byte.is_ascii_digit())
}

impl fmt::Display for Address {
    fn fmt(&self, f: &mut fmt::Formatter<'_>) -> fmt::Result {
        if self.is_plain_beyond_loopback() {
            f.write_str(PLAIN)?;
        }
        match self {
            Address::Tcp(address) => address.fmt(f),
            Address::Host(name, port) => write!(f, "{name}:{port}"),
            Address::Tls(address) => write!(f, "{TLS}{address}"),
            Address::TlsHost(name, port) => write!(f, "{TLS}{name}:{port}"),
            Address::Unix(path) => write!(f, "{UNIX}{}", path.display()),
        }
    }
}

impl fmt::Display for BadAddress {
    fn fmt(&self, f: &mut fmt::Formatter<'_>) -> fmt::Result {
        f.write_str(match self {
            BadAddress::Form => {
                "an address is written as 127.0.0.1:7400, localhost:7400, tls:10.0.0.1:7400, \
                 tls:db1:7400, unix:/a/path, or plain:10.0.0.1:7400"
            }
            BadAddress::NoScheme => {
                "an address of another machine begins with tls: or with plain:, such \
                 as tls:10.0.0.1:7400; over plain: anybody who can connect can speak for any client"
            }
        })
    }
}

impl std::error::Error for BadAddress {}

impl From<SocketAddr> for Address {
    /// By plain TCP.
    fn from(address: SocketAddr) -> Address {
        Address::Tcp(address)
    }
}

impl From<&Address> for Address {
    fn from(address: &Address) -> Address {
        address.clone()
    }
}

#[cfg(test)]
mod tests {
    use super::*;

    #[test]
    fn addresses_are_read_as_they_are_written() {
        for text in [
            "127.0.0.1:7400",
            "127.3.0.1:7400",
            "[::1]:7400",
            "localhost:7400",
            "plain:10.0.0.1:7400",
            "plain:0.0.0.0:0",
            "plain:a-b.c_d.example.:1",
            "tls:127.0.0.1:7400",
            "tls:[::]:7400",
            "tls:localhost:7400",
            "tls:db1:7400",
            "unix:/a",
        ] {
            assert_eq!(text.parse::<Address>().unwrap().to_string(), text);
        }
        assert!(matches!("[::1]:7400".parse(), Ok(Address::Tcp(_))));
        assert!(matches!("tls:[::1]:7400".parse(), Ok(Address::Tls(_))));
        assert_eq!("plain:db1:7400".parse(), Ok(Address::Host("db1".into(), 7400)));
        assert_eq!("plain:127.0.0.1:1".parse::<Address>(), "127.0.0.1:1".parse());
    }

    #[test]
    fn another_machine_is_reached_as_its_address_states() {
        for text in ["10.0.0.1:7400", "db1:7400", "0.0.0.0:7400", "[::]:1", "[::ffff:10.0.0.1]:1"] {
            assert_eq!(text.parse::<Address>(), Err(BadAddress::NoScheme), "{text}");
            assert!(format!("tls:{text}").parse::<Address>().unwrap().is_tls());
            let plain: Address = format!("plain:{text}").parse().unwrap();
            assert!(plain.is_plain_beyond_loopback(), "{text}");
        }
        let mapped: Address = "[::ffff:127.0.0.1]:1".parse().unwrap();
        assert!(!mapped.is_plain_beyond_loopback());
    }

    #[test]
    fn what_is_no_address_is_refused() {
        for text in [
            "",
            ":",
            "localhost",
            "localhost:",
            ":7400",
            "localhost:65536",
            "127.0.0.1",
            "unix:",
            "tls:",
            "tls:7400",
            "plain:unix:/a",
            "tls:plain:10.0.0.1:7400",
            "127.0.0.256:7400",
            "1.2.3.4.5:7400",
            "::1:7400",
            "a b:7400",
            "a/b:7400",
            "...:7400",
        ] {
            assert_eq!(text.parse::<Address>(), Err(BadAddress::Form), "{text}");
        }
    }
}
