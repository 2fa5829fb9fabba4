//! Why nobody joined, as a caller learns it.
use crate::call::error::{ErrorKind, JoinErrorKind};
use crate::net::connect_fault::{NoServer, Rejection};
use crate::net::servers::Servers;
use std::io;

/// Why a client did not join that was refused so, or a reader, whose last connection ended by this
/// fault.
pub(crate) fn why_not_joined(
    servers: &Servers,
    refused: ErrorKind,
    fault: Option<io::Error>,
    rejection: Option<&Rejection>,
) -> JoinErrorKind {
    match refused {
        ErrorKind::TimedOut => not_answered(servers, fault),
        ErrorKind::Unserved(refusal) => JoinErrorKind::Unserved(refusal),
        ErrorKind::OtherShard(other) => JoinErrorKind::OtherShard(other),
        ErrorKind::TurnedAway => JoinErrorKind::TurnedAway(match rejection {
            Some(Rejection::NotTaken(why)) => why.clone(),
            _ => String::new(),
        }),
        refused => JoinErrorKind::Refused(refused),
    }
}

/// Why a client did not join whose last connection ended by this fault.
fn not_answered(servers: &Servers, fault: Option<io::Error>) -> JoinErrorKind {
    match fault.as_ref().and_then(NoServer::carried_by) {
        Some(NoServer(address)) if !servers.are_several() => {
            JoinErrorKind::NoServer { address: address.clone() }
        }
        _ => JoinErrorKind::NoAnswer { servers: Box::new(servers.clone()), fault },
    }
}
