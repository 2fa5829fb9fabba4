//! Why a server does not serve a client, as a `krlc_reason` of the header: the number that the
//! reason has on the wire.
use krl::error::{Refusal, Unsent};
use krl::{ErrorKind, JoinErrorKind};

/// There is no reason.
pub const NO_REASON: i32 = -1;

/// That of a call that was refused.
pub fn of_call(refused: &ErrorKind) -> i32 {
    match refused {
        ErrorKind::Unserved(refusal) | ErrorKind::NotSent(Unsent::Unserved(refusal)) => {
            of_server(*refusal)
        }
        _ => NO_REASON,
    }
}

/// That of a client that did not join.
pub fn of_join(error: &JoinErrorKind) -> i32 {
    match error {
        JoinErrorKind::Unserved(refusal) => of_server(*refusal),
        JoinErrorKind::Refused(refused) => of_call(refused),
        _ => NO_REASON,
    }
}

fn of_server(refusal: Refusal) -> i32 {
    refusal.reason().into()
}
