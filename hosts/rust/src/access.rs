//! Whom a server lets in.
use crate::identity::Identity;
use crate::net::address::Address;
use crate::net::stream::{Accepted, PeerAddress};
use crate::net::tls::{NEEDED, Side, TlsConfig, TlsSession};
use crate::net::unix_peer::own_user;
use std::io::{self, ErrorKind};

/// The superuser.
const ROOT: u32 = 0;

/// Whom a server lets in, and what it shows them.
///
/// Over **TLS** the certificate of a peer names who it is. Over a **Unix socket** its user does:
/// the server's own user and the superuser may send everything, and others what the list of users
/// allows. Over **plain TCP** nobody can be identified: whoever can connect may send everything. So
/// a server does not listen there at an address beyond the loopback, unless that is allowed.
///
/// # Examples
///
/// The user 1001 of this machine may be the clients 3 and 4, over a Unix socket:
///
/// ```
/// # let socket = std::env::temp_dir().join(format!("krl-doc-access-{}", std::process::id()));
/// # let address = format!("unix:{}", socket.display());
/// use krl::{Access, Listener, MemoryStore, Server};
///
/// let access = Access::new().user(1001, "3,4".parse()?);
/// let listener = Listener::bind(&address.parse()?)?; // as "unix:/run/krl.socket"
/// let server = Server::builder(listener, MemoryStore::default()).access(access).start()?;
/// server.stop()?;
/// # Ok::<(), Box<dyn std::error::Error>>(())
/// ```
#[derive(Clone, Debug, Default)]
#[must_use = "it lets nobody in before a server has it"]
pub struct Access {
    tls: Option<TlsConfig>,
    users: Vec<(u32, Identity)>,
    is_plain_allowed: bool,
}

/// Who is at the other end of a new connection, or how that is found out.
#[derive(Debug)]
pub(crate) enum Entry {
    Known(Identity),
    Unknown(Box<TlsSession>),
}

impl Access {
    /// No certificate, no other users, and plain TCP on the loopback only.
    pub fn new() -> Access {
        Access::default()
    }

    /// What is shown at a TLS address, and whose certificates are accepted there.
    #[cfg(feature = "tls")]
    pub fn tls(self, config: TlsConfig) -> Access {
        Access { tls: Some(config), ..self }
    }

    /// A user of this machine, by number, who may connect over a Unix socket, and what it may send
    /// there. If there is one, every user of the machine may connect to the socket, and those who
    /// are not named may send nothing.
    pub fn user(mut self, user: u32, identity: Identity) -> Access {
        self.users.push((user, identity));
        self
    }

    /// Lets a server listen over plain TCP beyond the loopback: **whoever can connect there can
    /// speak for any client**.
    pub fn allow_plain_beyond_loopback(self) -> Access {
        Access { is_plain_allowed: true, ..self }
    }

    /// Whether users of the machine are named.
    pub(crate) fn has_users(&self) -> bool {
        !self.users.is_empty()
    }

    /// Whether a server may listen at this address.
    pub(crate) fn check(&self, address: &Address) -> io::Result<()> {
        let refused = |why: String| Err(io::Error::new(ErrorKind::InvalidInput, why));
        if address.is_plain_beyond_loopback() && !self.is_plain_allowed {
            return refused(format!(
                "{address} is beyond the loopback, and over plain TCP whoever can connect can \
                 speak for any client: listen at a tls: address, or allow plain TCP beyond the \
                 loopback"
            ));
        }
        if address.is_tls() && self.tls.is_none() {
            return refused(format!("{address} is an address of TLS: it needs {NEEDED}"));
        }
        Ok(())
    }

    /// Who is at the other end of a new connection, or how that is found out.
    pub(crate) fn enter(&self, accepted: &Accepted) -> io::Result<Entry> {
        match (accepted.peer, &self.tls) {
            (_, Some(tls)) if accepted.is_tls => {
                TlsSession::new(tls, Side::Accepts).map(|session| Entry::Unknown(Box::new(session)))
            }
            (PeerAddress::Tcp(_), _) if !accepted.is_tls => Ok(Entry::Known(Identity::everybody())),
            (PeerAddress::Unix(Some(peer)), _) => {
                Ok(Entry::Known(self.of_user(peer.user, own_user())))
            }
            _ => Err(ErrorKind::PermissionDenied.into()),
        }
    }

    /// What this user may send to a server of the own user.
    fn of_user(&self, user: u32, own: u32) -> Identity {
        if user == own || user == ROOT {
            return Identity::everybody();
        }
        let named = self.users.iter().find(|(of, _)| *of == user);
        named.map_or_else(Identity::nobody, |(_, identity)| *identity)
    }
}

#[cfg(test)]
mod tests {
    use super::*;

    #[test]
    fn the_own_user_and_root_may_send_all_and_others_what_is_listed() {
        let three: Identity = "3".parse().unwrap();
        let access = Access::new().user(1001, three);
        assert_eq!(access.of_user(1001, 1000), three);
        assert_eq!(access.of_user(1002, 1000), Identity::nobody());
        assert_eq!(access.of_user(1000, 1000), Identity::everybody());
        assert_eq!(access.of_user(ROOT, 1000), Identity::everybody());
    }

    #[test]
    fn plain_tcp_beyond_the_loopback_has_to_be_allowed() {
        let check = |access: &Access, address: &str| access.check(&address.parse().unwrap());
        let (none, plain) = (Access::new(), Access::new().allow_plain_beyond_loopback());
        for address in ["127.0.0.1:7400", "[::1]:7400", "localhost:7400", "unix:/a"] {
            assert!(check(&none, address).is_ok(), "{address}");
        }
        for address in ["plain:0.0.0.0:7400", "plain:10.0.0.1:7400", "plain:[::]:1", "plain:db1:1"]
        {
            let refused = check(&none, address).unwrap_err();
            assert!(refused.to_string().contains("beyond the loopback"), "{refused}");
            assert!(check(&plain, address).is_ok(), "{address}");
        }
        let refused = check(&plain, "tls:127.0.0.1:7400").unwrap_err();
        assert!(refused.to_string().contains("needs a certificate"), "{refused}");
    }
}
