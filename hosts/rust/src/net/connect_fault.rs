//! Why a client has no connection: the network failed, the two sides do not take each other, or
//! another program answers.
use crate::model::refusal::Refusal;
use crate::model::shard_fence::OtherShard;
use crate::net::address::Address;
use crate::wire::frames::Frames;
use std::fmt;
use std::io::{self, ErrorKind};

/// This many connections in a row have to end by a rejection before a caller gives up. One may be the
/// mistake of something in between, such as a proxy that is restarted.
const FINAL: u32 = 2;

/// Why one side does not take the other.
#[derive(Clone, Debug, PartialEq, Eq)]
pub(crate) enum Rejection {
    /// Its certificate, its user or its number gives no right. The text is a sentence.
    NotTaken(String),
    /// It is of another shard, or by another map.
    OtherShard(OtherShard),
    /// The server is of this version of the stream, and this side of another one.
    OtherVersion(u8),
}

/// What answers at this address is another program: its first bytes are no frame.
#[derive(Clone, Debug, PartialEq, Eq)]
pub(crate) struct NoServer(pub Address);

/// Why a connection ends whose first bytes are no frame.
pub(crate) fn no_frame(address: &Address, came: &Frames) -> io::Error {
    if came.begin_an_alert_of_tls() {
        let why = format!(
            "{address} takes connections over TLS only: give the address with tls: before it, and \
             a certificate"
        );
        return Rejection::NotTaken(why).into();
    }
    NoServer(address.clone()).into()
}

/// Nothing listens at the address, by this error of the system: it refused the connection, or there
/// is no such socket.
#[derive(Debug)]
pub(crate) struct NothingListens(pub io::Error);

/// The error of this type that an error of a connection carries. The type decides, and never the
/// kind: a missing right to a file or a socket has the same kind as a refused certificate.
fn carried<T: std::error::Error + 'static>(error: &io::Error) -> Option<&T> {
    error.get_ref()?.downcast_ref()
}

impl Rejection {
    /// The one that an error carries.
    pub fn carried_by(error: &io::Error) -> Option<Rejection> {
        carried(error).cloned()
    }
}

impl NoServer {
    /// The one that an error carries.
    pub fn carried_by(error: &io::Error) -> Option<&NoServer> {
        carried(error)
    }
}

impl NothingListens {
    /// Whether an error carries one.
    pub fn is_carried_by(error: &io::Error) -> bool {
        carried::<NothingListens>(error).is_some()
    }
}

impl From<Rejection> for io::Error {
    fn from(rejection: Rejection) -> io::Error {
        let kind = match rejection {
            Rejection::NotTaken(_) | Rejection::OtherShard(_) => ErrorKind::PermissionDenied,
            Rejection::OtherVersion(_) => ErrorKind::Unsupported,
        };
        io::Error::new(kind, rejection)
    }
}

impl From<OtherShard> for io::Error {
    fn from(other: OtherShard) -> io::Error {
        Rejection::OtherShard(other).into()
    }
}

impl From<NoServer> for io::Error {
    fn from(no_server: NoServer) -> io::Error {
        io::Error::new(ErrorKind::InvalidData, no_server)
    }
}

impl From<NothingListens> for io::Error {
    fn from(refused: NothingListens) -> io::Error {
        io::Error::new(refused.0.kind(), refused)
    }
}

/// How the last connections ended, as far as they were rejected.
#[derive(Debug, Default)]
pub(crate) struct Rejections {
    /// The last one since the server accepted this side.
    last: Option<Rejection>,
    /// How many connections in a row ended so.
    in_a_row: u32,
    /// The server accepts this side on the current connection.
    is_accepted: bool,
}

impl Rejections {
    /// A connection has ended, or could not be made: by this rejection, or for another reason.
    pub fn note(&mut self, rejection: Option<Rejection>) {
        self.is_accepted = false;
        match rejection {
            Some(rejection) => {
                self.last = Some(rejection);
                self.in_a_row += 1;
            }
            None => self.in_a_row = 0,
        }
    }

    /// The server has answered a sign or sent a message of the library, so it takes this side. It
    /// may still reject what this side sends next, which then follows the rejections before it.
    pub fn accept(&mut self) {
        self.is_accepted = true;
    }

    /// The last rejection, unless the server takes this side now.
    pub fn last(&self) -> Option<&Rejection> {
        self.last.as_ref().filter(|_| !self.is_accepted)
    }

    /// Whether another attempt at the same server would end in the same way.
    pub fn are_final(&self) -> bool {
        self.in_a_row >= FINAL && !self.is_accepted
    }
}

impl fmt::Display for Rejection {
    fn fmt(&self, f: &mut fmt::Formatter<'_>) -> fmt::Result {
        match self {
            Rejection::NotTaken(why) => f.write_str(why),
            Rejection::OtherShard(other) => other.fmt(f),
            Rejection::OtherVersion(read) => Refusal::Version { read: *read }.fmt(f),
        }
    }
}

impl fmt::Display for NoServer {
    fn fmt(&self, f: &mut fmt::Formatter<'_>) -> fmt::Result {
        write!(
            f,
            "what answers at {} is not a krl server (is it the status port, or another program?)",
            self.0
        )
    }
}

impl fmt::Display for NothingListens {
    fn fmt(&self, f: &mut fmt::Formatter<'_>) -> fmt::Result {
        self.0.fmt(f)
    }
}

impl std::error::Error for Rejection {}
impl std::error::Error for NoServer {}
impl std::error::Error for NothingListens {}

#[cfg(test)]
mod tests {
    use super::*;

    fn not_taken() -> Rejection {
        Rejection::NotTaken("the certificate has expired".into())
    }

    fn other_shard() -> OtherShard {
        OtherShard { expected: None, served: None }
    }

    #[test]
    fn the_carried_type_decides_and_not_the_kind() {
        let of = |error: io::Error| Rejection::carried_by(&error);
        for rejection in [not_taken(), Rejection::OtherVersion(1)] {
            assert_eq!(of(rejection.clone().into()), Some(rejection));
        }
        assert_eq!(of(other_shard().into()), Some(Rejection::OtherShard(other_shard())));
        assert_eq!(of(ErrorKind::PermissionDenied.into()), None, "as of a lock file");
        assert_eq!(of(io::Error::new(ErrorKind::PermissionDenied, "no right")), None);
        assert_eq!(of(ErrorKind::ConnectionRefused.into()), None);
    }

    #[test]
    fn only_a_connect_that_was_refused_is_a_refusal() {
        let refused = || io::Error::from(ErrorKind::ConnectionRefused);
        assert!(NothingListens::is_carried_by(&NothingListens(refused()).into()));
        assert!(!NothingListens::is_carried_by(&refused()));
        assert!(!NothingListens::is_carried_by(&not_taken().into()));
    }

    #[test]
    fn rejections_are_final_when_two_come_in_a_row() {
        let mut rejections = Rejections::default();
        rejections.note(Some(not_taken()));
        assert!(!rejections.are_final() && rejections.last().is_some());
        rejections.note(None);
        rejections.note(Some(not_taken()));
        assert!(!rejections.are_final(), "one of another kind was between them");
        rejections.note(Some(Rejection::OtherShard(other_shard())));
        assert!(rejections.are_final());
        rejections.accept();
        assert!(!rejections.are_final() && rejections.last().is_none());
        rejections.note(Some(not_taken()));
        assert!(rejections.are_final(), "what it sends is rejected each time");
    }
}
