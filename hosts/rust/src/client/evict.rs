//! The operator's eviction of a client.
use crate::call::error::{JoinError, JoinErrorKind};
use crate::client::joining::{self, JoinPurpose, Waits};
use crate::model::refusal::Refusal;
use crate::net::servers::Servers;
use std::path::Path;
use std::time::{Duration, Instant};

/// How long an eviction waits at most for the end of a lease.
const LEASE_ENDS: Duration = Duration::from_secs(60);

/// Ends the client of this number for good: an operator's call for a client whose process is gone
/// and will not come back. A client with a greater incarnation sends Hello, which takes everything
/// from the old one, and then Bye.
///
/// A client that has a lease is evicted when that ends: for this it waits a minute at most. While
/// the client lives, its lease does not end, and it is not evicted. If the server knows a greater
/// incarnation than the clock gives, as of a machine whose clock was ahead, the next one above that
/// is taken. **The process of a client without a lease has to be dead.** One that still runs may
/// continue to answer from its cache with outdated rows. On the client's own machine its lock file
/// shows that it is dead; elsewhere only the operator can know.
///
/// # Errors
///
/// Those of `Client::join`: `LockFile` if a process on this machine is that client, `Unserved` with
/// `LeaseRuns` if its lease does not end in time.
pub fn evict(
    servers: impl Into<Servers>,
    number: u8,
    lock_file: impl AsRef<Path>,
) -> Result<(), JoinError> {
    let (servers, end) = (servers.into(), Instant::now() + LEASE_ENDS);
    let (waits, lock_file, mut above) = (Waits::by_default(), lock_file.as_ref(), 0);
    let of_number = JoinError::of(number, None);
    loop {
        match joining::join(servers.clone(), number, lock_file, waits, JoinPurpose::Evict { above })
        {
            Ok(client) => {
                let left = client.leave_by(Instant::now() + waits.timeout);
                return left.map_err(|refused| of_number(JoinErrorKind::Refused(refused)));
            }
            Err(JoinErrorKind::Unserved(Refusal::Incarnation { registered, .. }))
                if registered > above =>
            {
                above = registered;
            }
            Err(kind) if end <= Instant::now() || !is_early(&kind) => return Err(of_number(kind)),
            Err(_) => {}
        }
    }
}

/// Whether the lease of the older incarnation had not ended yet.
fn is_early(error: &JoinErrorKind) -> bool {
    matches!(error, JoinErrorKind::Unserved(Refusal::LeaseRuns { .. }))
}
