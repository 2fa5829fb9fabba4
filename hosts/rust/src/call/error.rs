//! Why a client's call was refused.
use crate::model::code::Code;
use crate::model::refusal::Refusal;
use crate::model::shard_fence::OtherShard;
use crate::net::address::Address;
use crate::net::connect_fault::NoServer;
use crate::net::servers::Servers;
use std::fmt;
use std::io;
use std::path::{Path, PathBuf};

/// Why a call of a client did not do what it should, and at which shard.
#[derive(Clone, Copy, Debug, PartialEq, Eq)]
#[non_exhaustive]
pub struct Error {
    /// Why.
    pub kind: ErrorKind,
    /// The shard whose client refused, from 0. `None` for a client without a map; and for one with
    /// a map if no shard refused: the range or the key is not valid, or no moment came at which all
    /// shards were known together.
    pub shard: Option<u8>,
}

/// Why a call of a client did not do what it should.
#[derive(Clone, Copy, Debug, PartialEq, Eq)]
#[non_exhaustive]
pub enum ErrorKind {
    /// No answer came within the client's timeout. A read or a forget has changed nothing that is
    /// seen. A write was sent, and may have changed the table or may still change it: the client
    /// continues to ask for it, until it is answered or the client is gone. A write that was not
    /// sent ends with `NotSent`.
    TimedOut,
    /// The same, and the server has just reported why it does not serve the client. If it serves
    /// another store than the one that the client has seen, a call that waits ends with this at
    /// once: the client has dropped its cache and its pins, and joins again when it finds its own
    /// store.
    Unserved(Refusal),
    /// The write was not sent, for this reason. It was not made and will not be, and changes
    /// nothing.
    NotSent(Unsent),
    /// This side of the connection has no right to the client: the two sides do not accept each
    /// other's certificates, or the certificate or the user is not that of the client's number. If
    /// the client has one server, this comes as soon as two connections in a row have ended for it,
    /// and otherwise at the timeout. A write was not sent, and changes nothing: one that was sent
    /// waits for its answer until the timeout, and ends with `TimedOut` then.
    TurnedAway,
    /// The server serves another shard than the client takes it for, or by another map. It comes
    /// when `TurnedAway` does, or, if the client follows its map, at the timeout. A write was not
    /// sent, and changes nothing: one that was sent ends with `Unserved`, and this reason, at the
    /// same moment.
    OtherShard(OtherShard),
    /// The server's store lacks what this client has seen of it: it is an older copy, or another
    /// store. The client has dropped its cache and its pins, and joins again. A write was sent, and
    /// may have changed that store or not: one that was not sent ends with `NotSent`.
    StoreWentBack,
    /// The client's lease has ended while the write was on its way: nothing came from the server in
    /// time. The client has dropped its cache and its pins, and joins again. The table has changed
    /// or not, and this write can no longer change it: a read of the key shows which.
    LeaseEnded,
    /// The write was bound to a pin, and the pin is void: since it was taken, the client's lease
    /// has ended or the server's store went back. The write was not made, and changes nothing.
    PinIsVoid,
    /// The client has left: its calls do nothing any more.
    Left,
    /// The client's own thread has panicked: the client answers only from its cache. A write was
    /// sent, and may have changed the table: one that was not sent ends with `NotSent`.
    Stopped,
    /// The range begins above its end, ends above 2^63, has keys of a shard that is not joined, or
    /// is empty and may not be.
    BadRange,
    /// A key of 2^63 - 1 or more, or of a shard that is not joined.
    BadKey,
    /// The range meets a pin.
    Pinned,
    /// The client has eight pins.
    TooManyPins,
    /// Memory was refused.
    OutOfMemory,
    /// The library refused it, by a code that this call can't bring about.
    Other(Code),
}

/// Why a write was not sent.
#[derive(Clone, Copy, Debug, PartialEq, Eq)]
#[non_exhaustive]
pub enum Unsent {
    /// The client's timeout came first: the client was not connected, or waited for the lock that
    /// the write needs.
    TimedOut,
    /// The same, and the server has just reported why it does not serve the client.
    Unserved(Refusal),
    /// The server's store went back before the write left: see [`ErrorKind::StoreWentBack`].
    StoreWentBack,
    /// The client's own thread has panicked: see [`ErrorKind::Stopped`].
    Stopped,
}

/// Why a client did not join, by which number, and at which shard.
#[derive(Debug)]
#[non_exhaustive]
pub struct JoinError {
    /// Why.
    pub kind: JoinErrorKind,
    /// The number with which the client did not join; of several, the one that the kind is about.
    /// `None` if there is no number.
    pub number: Option<u8>,
    /// The first shard whose client did not join, from 0. `None` for a client without a map, and if
    /// no shard was asked.
    pub shard: Option<u8>,
}

/// Why a client did not join.
#[derive(Debug)]
#[non_exhaustive]
pub enum JoinErrorKind {
    /// The lock file could not be taken.
    LockFile {
        /// The file.
        path: PathBuf,
        /// Why it was not taken.
        error: LockFileError,
    },
    /// There is no folder for lock files, which [`Client::connect`] needs.
    ///
    /// [`Client::connect`]: crate::Client::connect
    NoLockFolder(io::Error),
    /// A number above 63.
    BadNumber,
    /// What the builder was given lacks this: a number, or keys of a shard.
    Incomplete(&'static str),
    /// The server did not answer within the client's timeout.
    NoAnswer {
        /// The servers that the client tried.
        servers: Box<Servers>,
        /// How the last connection ended, or why none was made, unless the server took the client
        /// on a later one. If it is `None`, the server recovers, or is silent.
        fault: Option<io::Error>,
    },
    /// Nothing listens at the client's only address: it has refused connections for a second, or
    /// there is no such socket. It comes before the client's timeout, unless that is shorter, or the
    /// address is of a map with a version: then the shard may be changing, and it comes at the
    /// timeout. A server that begins to listen before is found. A client of several servers waits
    /// for one of them to take over, and ends with `NoAnswer` at its timeout.
    NothingListens {
        /// The servers that the client tried.
        servers: Box<Servers>,
        /// Why the last connection was not made.
        fault: io::Error,
    },
    /// What answers at the client's only address is not a krl server, but a status port or another
    /// program. It comes as soon as two connections in a row were answered so. A client of several
    /// servers tries the others too, and ends with `NoAnswer` at its timeout.
    NoServer {
        /// The address.
        address: Address,
    },
    /// The server has reported why it does not serve the client, and within the client's timeout it
    /// did not answer.
    Unserved(Refusal),
    /// This side of the connection has no right to the client, for this reason: the two sides do
    /// not accept each other's certificates, or the certificate or the user is not that of the
    /// client's number. If the client has one server, it comes as soon as two connections in a row
    /// have ended for it.
    TurnedAway(String),
    /// The server serves another shard than the client takes it for, or by another map. If the
    /// client has one server, it comes as soon as two connections in a row have ended for it; by a
    /// map with a version, whose shards may be changing, at the timeout.
    OtherShard(OtherShard),
    /// The system gives no thread for the client's connection, or no file by which it waits.
    NoThread(io::Error),
    /// The client refused to start.
    Refused(ErrorKind),
}

impl Error {
    /// Whether the same call may be made again as it is, and may then succeed: a server that is
    /// down comes back, and a client that has dropped its cache joins again.
    ///
    /// A write whose outcome is unknown is another write if it is made again: after an error for
    /// which [`Error::is_unknown_outcome`] is true, a read of the key comes first.
    #[must_use]
    pub fn is_retryable(&self) -> bool {
        self.kind.is_retryable()
    }

    /// Whether a write that ended with this error may have been applied, or may still be. A read of
    /// the key by the same client waits until that is decided, and shows which; other clients may
    /// read the key before. After any other error the write changes nothing.
    #[must_use]
    pub fn is_unknown_outcome(&self) -> bool {
        self.kind.is_unknown_outcome()
    }
}

impl ErrorKind {
    pub(crate) fn is_retryable(&self) -> bool {
        match self {
            ErrorKind::TimedOut
            | ErrorKind::StoreWentBack
            | ErrorKind::LeaseEnded
            | ErrorKind::OutOfMemory => true,
            ErrorKind::Unserved(refusal) => refusal.may_pass(),
            ErrorKind::NotSent(why) => why.may_pass(),
            ErrorKind::TurnedAway
            | ErrorKind::OtherShard(_)
            | ErrorKind::PinIsVoid
            | ErrorKind::Left
            | ErrorKind::Stopped
            | ErrorKind::BadRange
            | ErrorKind::BadKey
            | ErrorKind::Pinned
            | ErrorKind::TooManyPins
            | ErrorKind::Other(_) => false,
        }
    }

    pub(crate) fn is_unknown_outcome(&self) -> bool {
        match self {
            ErrorKind::TimedOut
            | ErrorKind::Unserved(_)
            | ErrorKind::StoreWentBack
            | ErrorKind::LeaseEnded
            | ErrorKind::Stopped => true,
            ErrorKind::NotSent(_)
            | ErrorKind::TurnedAway
            | ErrorKind::OtherShard(_)
            | ErrorKind::Left
            | ErrorKind::BadRange
            | ErrorKind::BadKey
            | ErrorKind::Pinned
            | ErrorKind::PinIsVoid
            | ErrorKind::TooManyPins
            | ErrorKind::OutOfMemory
            | ErrorKind::Other(_) => false,
        }
    }

    /// The same reason for a write that was not sent: it is known then that it was not made.
    pub(crate) fn of_unsent_write(self) -> ErrorKind {
        match self {
            ErrorKind::TimedOut => ErrorKind::NotSent(Unsent::TimedOut),
            ErrorKind::Unserved(refusal) => ErrorKind::NotSent(Unsent::Unserved(refusal)),
            ErrorKind::StoreWentBack => ErrorKind::NotSent(Unsent::StoreWentBack),
            ErrorKind::Stopped => ErrorKind::NotSent(Unsent::Stopped),
            other => other,
        }
    }
}

impl JoinError {
    /// Makes errors of the client of this number, at this shard if there is a map.
    pub(crate) fn of(number: u8, shard: Option<usize>) -> impl Fn(JoinErrorKind) -> JoinError {
        let shard = shard.and_then(|shard| u8::try_from(shard).ok());
        move |kind| JoinError { kind, number: Some(number), shard }
    }
}

impl JoinErrorKind {
    /// Makes an error of this lock file.
    pub(crate) fn of_lock_file(path: &Path) -> impl FnOnce(LockFileError) -> JoinErrorKind {
        let path = path.to_path_buf();
        move |error| JoinErrorKind::LockFile { path, error }
    }
}

impl Unsent {
    /// Whether the same write, made again, may be sent then.
    fn may_pass(self) -> bool {
        match self {
            Unsent::TimedOut | Unsent::StoreWentBack => true,
            Unsent::Unserved(refusal) => refusal.may_pass(),
            Unsent::Stopped => false,
        }
    }
}

impl From<Code> for ErrorKind {
    fn from(code: Code) -> ErrorKind {
        match code {
            Code::BadSpan => ErrorKind::BadRange,
            Code::BadPoint => ErrorKind::BadKey,
            Code::Pinned => ErrorKind::Pinned,
            Code::TooManyPins => ErrorKind::TooManyPins,
            Code::OutOfMemory => ErrorKind::OutOfMemory,
            Code::Gone => ErrorKind::Left,
            // The client is about to join again.
            Code::Closed => ErrorKind::StoreWentBack,
            code => ErrorKind::Other(code),
        }
    }
}

impl From<ErrorKind> for Error {
    fn from(kind: ErrorKind) -> Error {
        Error { kind, shard: None }
    }
}

impl From<Code> for Error {
    fn from(code: Code) -> Error {
        ErrorKind::from(code).into()
    }
}

impl fmt::Display for Error {
    fn fmt(&self, f: &mut fmt::Formatter<'_>) -> fmt::Result {
        write_shard(self.shard, f)?;
        self.kind.fmt(f)
    }
}

impl fmt::Display for JoinError {
    fn fmt(&self, f: &mut fmt::Formatter<'_>) -> fmt::Result {
        write_shard(self.shard, f)?;
        self.kind.fmt(f)
    }
}

fn write_shard(shard: Option<u8>, f: &mut fmt::Formatter<'_>) -> fmt::Result {
    shard.map_or(Ok(()), |shard| write!(f, "shard {shard}: "))
}

impl fmt::Display for ErrorKind {
    fn fmt(&self, f: &mut fmt::Formatter<'_>) -> fmt::Result {
        match self {
            ErrorKind::TimedOut => f.write_str(
                "no answer came in time: the server is away, or another client holds what the call \
                 needs",
            ),
            ErrorKind::Unserved(refusal) => write!(f, "no answer came in time: {refusal}"),
            ErrorKind::NotSent(why) => write!(f, "the write was not made: {why}"),
            ErrorKind::TurnedAway => f.write_str(
                "the connection was turned away: the certificate or the user gives no right to the \
                 client",
            ),
            ErrorKind::OtherShard(other) => other.fmt(f),
            ErrorKind::StoreWentBack => f.write_str(
                "the server's store went back, and lacks what this client has seen of it: the \
                 client has dropped its cache and its pins, and joins again",
            ),
            ErrorKind::LeaseEnded => f.write_str(
                "the client's lease has ended, since no terms of the server came in time: the client \
                 has dropped its cache and its pins, and joins again",
            ),
            ErrorKind::PinIsVoid => f.write_str(
                "the pin that the write is bound to is void: the write was not made",
            ),
            ErrorKind::Left => f.write_str("the client has left"),
            ErrorKind::Stopped => f.write_str("the client's thread has panicked"),
            ErrorKind::BadRange => f.write_str(
                "a range of keys begins at its end or below, and ends at 2^63 or below; \
                 a pin's is not empty",
            ),
            ErrorKind::BadKey => f.write_str("the key is 2^63 - 1 or more"),
            ErrorKind::Pinned => f.write_str("the range meets a pin"),
            ErrorKind::TooManyPins => f.write_str("the client has eight pins"),
            ErrorKind::OutOfMemory => f.write_str("memory was refused"),
            ErrorKind::Other(code) => code.fmt(f),
        }
    }
}

impl fmt::Display for Unsent {
    fn fmt(&self, f: &mut fmt::Formatter<'_>) -> fmt::Result {
        match self {
            Unsent::TimedOut => f.write_str(
                "it was not sent in time, since the client was not connected or waited for a lock",
            ),
            Unsent::Unserved(refusal) => write!(f, "it was not sent in time: {refusal}"),
            Unsent::StoreWentBack => ErrorKind::StoreWentBack.fmt(f),
            Unsent::Stopped => ErrorKind::Stopped.fmt(f),
        }
    }
}

impl fmt::Display for JoinErrorKind {
    fn fmt(&self, f: &mut fmt::Formatter<'_>) -> fmt::Result {
        match self {
            JoinErrorKind::LockFile { path, error } => {
                write!(f, "the lock file {}: {error}", path.display())
            }
            JoinErrorKind::NoLockFolder(error) => {
                write!(f, "there is no folder for lock files: {error}")
            }
            JoinErrorKind::BadNumber => f.write_str("a client's number is 0 to 63"),
            JoinErrorKind::Incomplete(what) => write!(f, "a client can't join without {what}"),
            JoinErrorKind::NoAnswer { servers, fault } => {
                write!(f, "the server at {servers} did not answer in time")?;
                fault.iter().try_for_each(|fault| write!(f, ": {fault}"))
            }
            JoinErrorKind::NothingListens { servers, fault } => {
                write!(f, "nothing listens at {servers}: {fault}")
            }
            JoinErrorKind::NoServer { address } => NoServer(address.clone()).fmt(f),
            JoinErrorKind::Unserved(refusal) => refusal.fmt(f),
            JoinErrorKind::TurnedAway(why) => write!(f, "the connection was turned away: {why}"),
            JoinErrorKind::OtherShard(other) => other.fmt(f),
            JoinErrorKind::NoThread(error) => write!(f, "the client gets no thread: {error}"),
            JoinErrorKind::Refused(refused) => refused.fmt(f),
        }
    }
}

impl std::error::Error for Error {
    fn source(&self) -> Option<&(dyn std::error::Error + 'static)> {
        match &self.kind {
            ErrorKind::Other(code) => Some(code),
            ErrorKind::OtherShard(other) => Some(other),
            _ => None,
        }
    }
}

impl std::error::Error for JoinError {
    fn source(&self) -> Option<&(dyn std::error::Error + 'static)> {
        match &self.kind {
            JoinErrorKind::LockFile { error, .. } => Some(error),
            JoinErrorKind::NoAnswer { fault, .. } => fault.as_ref().map(|fault| fault as _),
            JoinErrorKind::NothingListens { fault: error, .. }
            | JoinErrorKind::NoLockFolder(error)
            | JoinErrorKind::NoThread(error) => Some(error),
            JoinErrorKind::OtherShard(other) => Some(other),
            JoinErrorKind::BadNumber
            | JoinErrorKind::Incomplete(_)
            | JoinErrorKind::Refused(_)
            | JoinErrorKind::NoServer { .. }
            | JoinErrorKind::Unserved(_)
            | JoinErrorKind::TurnedAway(_) => None,
        }
    }
}

impl From<JoinErrorKind> for JoinError {
    fn from(kind: JoinErrorKind) -> JoinError {
        JoinError { kind, number: None, shard: None }
    }
}

/// Why a lock file was not taken.
#[derive(Debug)]
#[non_exhaustive]
pub enum LockFileError {
    /// Another client of this number has it, in this or another process.
    Taken,
    /// It is not the lock file of this number.
    Strange,
    /// The file can't be read or written.
    File(io::Error),
}

impl fmt::Display for LockFileError {
    fn fmt(&self, f: &mut fmt::Formatter<'_>) -> fmt::Result {
        match self {
            LockFileError::Taken => f.write_str(
                "it is in use, by this or another process: give each client a number and a lock \
                 file of its own",
            ),
            LockFileError::Strange => f.write_str("it is not the lock file of this client number"),
            LockFileError::File(error) => write!(f, "it can't be used: {error}"),
        }
    }
}

impl std::error::Error for LockFileError {
    fn source(&self) -> Option<&(dyn std::error::Error + 'static)> {
        match self {
            LockFileError::File(error) => Some(error),
            LockFileError::Taken | LockFileError::Strange => None,
        }
    }
}

impl From<io::Error> for LockFileError {
    fn from(error: io::Error) -> LockFileError {
        LockFileError::File(error)
    }
}

#[cfg(test)]
mod tests {
    use super::*;
    use crate::model::client_set::ClientSet;

    #[test]
    fn a_write_that_was_not_sent_is_known_to_be_not_made() {
        let of_sent = [ErrorKind::TimedOut, ErrorKind::Unserved(Refusal::Denied)];
        for error in of_sent.into_iter().chain([ErrorKind::StoreWentBack, ErrorKind::Stopped]) {
            let unsent = error.of_unsent_write();
            assert!(error.is_unknown_outcome() && !unsent.is_unknown_outcome(), "{error}");
            assert_eq!(unsent.is_retryable(), error.is_retryable(), "{error}");
        }
        assert_eq!(
            ErrorKind::Unserved(Refusal::Denied).of_unsent_write(),
            ErrorKind::NotSent(Unsent::Unserved(Refusal::Denied))
        );
        assert_eq!(ErrorKind::TurnedAway.of_unsent_write(), ErrorKind::TurnedAway);
    }

    #[test]
    fn what_passes_by_itself_may_be_tried_again() {
        let missing = Refusal::Missing(ClientSet::default());
        let running = Refusal::LeaseRuns { client: 3, registered: 7 };
        for refusal in [missing, running, Refusal::Full { connections: 256 }] {
            assert!(ErrorKind::Unserved(refusal).is_retryable(), "{refusal}");
            assert!(ErrorKind::NotSent(Unsent::Unserved(refusal)).is_retryable(), "{refusal}");
        }
        assert!(ErrorKind::NotSent(Unsent::TimedOut).is_retryable());
        assert!(!ErrorKind::NotSent(Unsent::Unserved(Refusal::Denied)).is_retryable());
        for error in [
            ErrorKind::TimedOut,
            ErrorKind::StoreWentBack,
            ErrorKind::LeaseEnded,
            ErrorKind::OutOfMemory,
        ] {
            assert!(error.is_retryable(), "{error}");
        }
        let greater = Refusal::Incarnation { client: 3, registered: 7 };
        for refusal in [Refusal::Denied, Refusal::OtherStore, Refusal::Version { read: 1 }, greater]
        {
            assert!(!ErrorKind::Unserved(refusal).is_retryable(), "{refusal}");
        }
        let other = OtherShard { expected: None, served: None };
        let ended = [ErrorKind::Left, ErrorKind::Stopped];
        for error in [ErrorKind::TurnedAway, ErrorKind::OtherShard(other), ErrorKind::PinIsVoid]
            .into_iter()
            .chain(ended)
        {
            assert!(!error.is_retryable(), "{error}");
        }
        for error in
            [ErrorKind::BadRange, ErrorKind::BadKey, ErrorKind::Pinned, ErrorKind::TooManyPins]
        {
            assert!(!error.is_retryable() && !error.is_unknown_outcome(), "{error}");
        }
    }
}
