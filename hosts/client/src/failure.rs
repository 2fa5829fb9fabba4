//! Why a command did not do what it should, and the exit status that reports it.
use crate::output;
use krl::error::{LockFileError, Refusal, Unsent};
use krl::{Error, ErrorKind, JoinErrorKind};
use krl_cli::{BROKEN_PIPE, BadFile, BadValue};
use std::fmt;
use std::io;
use std::path::Path;
use std::process::ExitStatus;

/// The status of a process that a signal ended, less the signal's number.
pub const SIGNALLED: u8 = 128;

/// A command that failed.
#[derive(Debug)]
pub enum Failure {
    /// The table refused it, or has no such row.
    Refused(String),
    /// A word that can't be understood.
    Usage(String),
    /// The server did not answer in time, or its answer is lost: a write may have been applied.
    NoAnswer(String),
    /// The client could not join, or has no right to what it asks.
    NotJoined(String),
    /// The output can't be written.
    Output(io::Error),
    /// A command that `hold` should run does not start.
    NotStarted(String, io::ErrorKind),
    /// A command has ended so, and `hold` had lost the range by then.
    NotHeld(ExitStatus),
}

impl Failure {
    /// The exit status.
    pub fn status(&self) -> u8 {
        match self {
            Failure::Usage(_) => 2,
            Failure::NoAnswer(_) => 3,
            Failure::NotJoined(_) => 4,
            Failure::Output(error) if error.kind() == io::ErrorKind::BrokenPipe => BROKEN_PIPE,
            Failure::Refused(_) | Failure::Output(_) => 1,
            Failure::NotStarted(_, io::ErrorKind::NotFound) => 127,
            Failure::NotStarted(..) => 126,
            Failure::NotHeld(_) => 125,
        }
    }

    /// Reports on standard error what failed. If nobody reads the output any more, that is not
    /// reported.
    pub fn report(&self) {
        match self {
            Failure::Output(error) if error.kind() == io::ErrorKind::BrokenPipe => {}
            failure => output::print_note(&failure.to_string()),
        }
    }
}

impl fmt::Display for Failure {
    fn fmt(&self, f: &mut fmt::Formatter<'_>) -> fmt::Result {
        match self {
            Failure::Refused(why)
            | Failure::Usage(why)
            | Failure::NoAnswer(why)
            | Failure::NotJoined(why)
            | Failure::NotStarted(why, _) => f.write_str(why),
            Failure::Output(error) => write!(f, "the output can't be written: {error}"),
            Failure::NotHeld(ended) => write!(
                f,
                "the range was not held until the command had ended ({ended}): others may have \
                 changed it meanwhile, since nothing came from the server in time, or its store \
                 went back"
            ),
        }
    }
}

impl From<io::Error> for Failure {
    fn from(error: io::Error) -> Failure {
        Failure::Output(error)
    }
}

impl From<Error> for Failure {
    fn from(refused: Error) -> Failure {
        Failure::of_call(refused.kind).at_shard(refused.shard)
    }
}

impl Failure {
    fn of_call(refused: ErrorKind) -> Failure {
        match refused {
            ErrorKind::TimedOut => Failure::NoAnswer(
                "the server did not answer in time: it is away, or another client holds what \
                 this command needs (its status page shows who waits for whom)"
                    .into(),
            ),
            ErrorKind::NotSent(Unsent::TimedOut) => Failure::NoAnswer(
                "the write was not made: it was not sent in time, since the server is away, or \
                 another client holds what it needs (its status page shows who waits for whom)"
                    .into(),
            ),
            ErrorKind::Unserved(why) => Failure::NoAnswer(why.to_string()),
            ErrorKind::NotSent(Unsent::Unserved(why)) => {
                Failure::NoAnswer(format!("the write was not made: {why}"))
            }
            ErrorKind::StoreWentBack | ErrorKind::LeaseEnded | ErrorKind::Stopped => {
                Failure::NoAnswer(refused.to_string())
            }
            ErrorKind::NotSent(_) => Failure::NoAnswer(refused.to_string()),
            ErrorKind::TurnedAway | ErrorKind::OtherShard(_) => {
                Failure::NotJoined(refused.to_string())
            }
            ErrorKind::BadRange | ErrorKind::BadKey => Failure::Usage(refused.to_string()),
            ErrorKind::Pinned
            | ErrorKind::PinIsVoid
            | ErrorKind::Left
            | ErrorKind::TooManyPins
            | ErrorKind::OutOfMemory
            | ErrorKind::Other(_) => Failure::Refused(refused.to_string()),
            // One that a later release of the library adds.
            unknown if Error::from(unknown).is_unknown_outcome() => {
                Failure::NoAnswer(unknown.to_string())
            }
            unknown => Failure::Refused(unknown.to_string()),
        }
    }
}

impl From<BadFile> for Failure {
    fn from(bad: BadFile) -> Failure {
        Failure::Usage(bad.to_string())
    }
}

impl From<BadValue> for Failure {
    fn from(bad: BadValue) -> Failure {
        Failure::Usage(bad.to_string())
    }
}

impl Failure {
    /// A write of this key by the client of this number that was not answered by an outcome.
    pub fn of_write(refused: Error, key: u64, number: u8) -> Failure {
        let is_unknown = refused.is_unknown_outcome();
        match Failure::from(refused) {
            Failure::NoAnswer(why) if is_unknown => Failure::NoAnswer(format!(
                "{why}; the write may have been applied: read the key {key} with --number {number}"
            )),
            failure => failure,
        }
    }

    /// The same failure, at this shard of the table, if it has some.
    pub fn at_shard(self, shard: Option<u8>) -> Failure {
        let Some(shard) = shard else { return self };
        self.reworded(|why| format!("shard {shard}: {why}"))
    }

    /// The same failure in other words, if it is reported in words.
    pub fn reworded(self, how: impl FnOnce(String) -> String) -> Failure {
        match self {
            Failure::Refused(why) => Failure::Refused(how(why)),
            Failure::Usage(why) => Failure::Usage(how(why)),
            Failure::NoAnswer(why) => Failure::NoAnswer(how(why)),
            Failure::NotJoined(why) => Failure::NotJoined(how(why)),
            failure @ (Failure::Output(_) | Failure::NotStarted(..) | Failure::NotHeld(_)) => {
                failure
            }
        }
    }

    /// A client that did not join under this number.
    pub fn of_join(error: JoinErrorKind, number: u8, server: &krl::Servers) -> Failure {
        match error {
            JoinErrorKind::NoAnswer { fault: None, .. } => Failure::NoAnswer(format!(
                "the server at {server} did not answer in time: it may wait for clients that it \
                 misses after a restart, which its status page shows, or know a later client of \
                 number {number}"
            )),
            JoinErrorKind::Unserved(
                why @ (Refusal::LeaseRuns { .. } | Refusal::Incarnation { .. }),
            ) => Failure::NoAnswer(format!(
                "number {number} is in use: give another one with --number, or wait if its process \
                 is gone. The server reports: {why}"
            )),
            JoinErrorKind::LockFile { error: LockFileError::Taken, .. } => {
                Failure::NotJoined(format!(
                    "another process is the client of number {number}: give this one another --number"
                ))
            }
            turned_away @ JoinErrorKind::TurnedAway(_) => Failure::NotJoined(format!(
                "the client of number {number} can't join: {turned_away}; if its certificate or \
                 its user has another number, give that by --number"
            )),
            error => {
                let what_failed = format!("the client of number {number} can't join");
                Failure::of_connecting(error, server, &what_failed)
            }
        }
    }

    /// A client or a reader that does not follow the map.
    pub fn not_followed(map: &Path, error: &io::Error) -> Failure {
        Failure::NotJoined(format!("{} can't be followed: {error}", map.display()))
    }

    /// A reader that is not connected.
    pub fn of_reader(error: JoinErrorKind, server: &krl::Servers) -> Failure {
        match error {
            JoinErrorKind::Refused(refused) => Failure::of_call(refused),
            JoinErrorKind::NoAnswer { fault: None, .. } => {
                Failure::NoAnswer(format!("the server at {server} did not answer in time"))
            }
            error => Failure::of_connecting(error, server, "the table can't be read"),
        }
    }

    /// What is reported of a client and of a reader alike. Other errors are reported after this.
    fn of_connecting(error: JoinErrorKind, server: &krl::Servers, what_failed: &str) -> Failure {
        match error {
            JoinErrorKind::NoAnswer { fault: Some(fault), .. } => {
                Failure::NoAnswer(format!("the server at {server} can't be reached: {fault}"))
            }
            JoinErrorKind::Unserved(why) => Failure::NoAnswer(why.to_string()),
            away @ JoinErrorKind::NothingListens { .. } => Failure::NoAnswer(away.to_string()),
            no_server @ JoinErrorKind::NoServer { .. } => Failure::NotJoined(no_server.to_string()),
            error => Failure::NotJoined(format!("{what_failed}: {error}")),
        }
    }
}

#[cfg(test)]
mod tests {
    use super::*;

    #[test]
    fn each_failure_has_its_status() {
        let of_kind = |kind: io::ErrorKind| Failure::Output(kind.into()).status();
        assert_eq!(Failure::Refused(String::new()).status(), 1);
        assert_eq!(Failure::Usage(String::new()).status(), 2);
        assert_eq!(Failure::of_call(ErrorKind::TimedOut).status(), 3);
        assert_eq!(of_kind(io::ErrorKind::BrokenPipe), 141);
        assert_eq!(of_kind(io::ErrorKind::StorageFull), 1);
        let server: krl::Servers = "127.0.0.1:1".parse().unwrap();
        let silent = JoinErrorKind::NoAnswer { servers: Box::new(server.clone()), fault: None };
        assert_eq!(Failure::of_join(silent, 1, &server).status(), 3);
        let full = Refusal::Full { connections: 256 };
        let refused = Failure::of_join(JoinErrorKind::Unserved(full), 1, &server);
        assert_eq!((refused.status(), refused.to_string()), (3, full.to_string()));
        assert_eq!(Failure::of_call(ErrorKind::Unserved(full)).status(), 3);
        assert_eq!(Failure::of_join(JoinErrorKind::BadNumber, 64, &server).status(), 4);
        let turned_away = JoinErrorKind::TurnedAway("no right".into());
        let unread = Failure::of_reader(turned_away, &server);
        assert_eq!(unread.status(), 4);
        assert_eq!(
            unread.to_string(),
            "the table can't be read: the connection was turned away: no right"
        );
        let went_back = JoinErrorKind::Refused(ErrorKind::StoreWentBack);
        assert_eq!(Failure::of_reader(went_back, &server).status(), 3);
        let address = "127.0.0.1:1".parse().unwrap();
        let no_server = Failure::of_join(JoinErrorKind::NoServer { address }, 1, &server);
        assert_eq!(no_server.status(), 4);
        assert!(no_server.to_string().starts_with("what answers at 127.0.0.1:1 is not"));
        let error = LockFileError::Taken;
        let taken = JoinErrorKind::LockFile { path: "client-1.lock".into(), error };
        assert_eq!(Failure::of_join(taken, 1, &server).status(), 4);
    }

    #[test]
    fn each_reason_has_its_status_and_a_write_that_may_be_applied_is_reported() {
        let full = Refusal::Full { connections: 256 };
        for (refused, status) in [
            (ErrorKind::TimedOut, 3),
            (ErrorKind::Unserved(full), 3),
            (ErrorKind::NotSent(Unsent::TimedOut), 3),
            (ErrorKind::NotSent(Unsent::Unserved(full)), 3),
            (ErrorKind::NotSent(Unsent::StoreWentBack), 3),
            (ErrorKind::NotSent(Unsent::Stopped), 3),
            (ErrorKind::StoreWentBack, 3),
            (ErrorKind::LeaseEnded, 3),
            (ErrorKind::Stopped, 3),
            (ErrorKind::TurnedAway, 4),
            (ErrorKind::BadRange, 2),
            (ErrorKind::BadKey, 2),
            (ErrorKind::Pinned, 1),
            (ErrorKind::PinIsVoid, 1),
            (ErrorKind::TooManyPins, 1),
            (ErrorKind::OutOfMemory, 1),
        ] {
            assert_eq!(Failure::of_call(refused).status(), status, "{refused:?}");
            let written = Failure::of_write(refused.into(), 15, 3);
            assert_eq!(written.status(), status, "{refused:?}");
            let reported = "may have been applied: read the key 15 with --number 3";
            let is_reported = written.to_string().ends_with(reported);
            assert_eq!(is_reported, Error::from(refused).is_unknown_outcome(), "{written}");
        }
    }
}
