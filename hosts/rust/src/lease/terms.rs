//! What a server grants its clients, and what the two hosts send each other about it.
use crate::ffi;
use crate::lease::boot_clock::Moment;
use std::fmt;
use std::time::Duration;

/// The moment that never comes, and the length of what does not end.
pub(crate) const FOR_EVER: u64 = u64::MAX;

/// A shorter lease would end between two ticks of a client. A longer one keeps nobody from waiting.
const SHORTEST: Duration = Duration::from_millis(300);
const LONGEST: Duration = Duration::from_secs(24 * 3600);

/// In percent. Two clocks that are slewed against each other as fast as chrony ever does, 83,333
/// parts in a million each, differ by 18.2 percent.
pub(crate) const DRIFT: u32 = 25;
const MAX_DRIFT: u32 = 100;

/// What a server grants its clients: how long each may answer from its cache after its last sign.
#[derive(Clone, Copy, Debug, PartialEq, Eq)]
pub struct Leases {
    length: Duration,
    /// How much further the server's clock may advance than a client's meanwhile, in percent.
    drift: u32,
}

/// Why leases can't be like this.
#[derive(Clone, Copy, Debug, PartialEq, Eq)]
#[non_exhaustive]
pub enum BadLeases {
    /// It is shorter than 300 milliseconds, or longer than a day.
    Length(Duration),
    /// It is more than 100 percent.
    Drift(u32),
}

impl Leases {
    /// Leases of a length from 300 milliseconds to a day, with a drift of 25 percent.
    ///
    /// # Errors
    ///
    /// `Length` for another length.
    pub fn of(length: Duration) -> Result<Leases, BadLeases> {
        let is_length = (SHORTEST..=LONGEST).contains(&length);
        is_length.then_some(Leases { length, drift: DRIFT }).ok_or(BadLeases::Length(length))
    }

    /// The same with another drift, from 0 to 100 percent.
    ///
    /// # Errors
    ///
    /// `Drift` above 100.
    pub fn with_drift(self, drift: u32) -> Result<Leases, BadLeases> {
        let is_drift = drift <= MAX_DRIFT;
        is_drift.then_some(Leases { drift, ..self }).ok_or(BadLeases::Drift(drift))
    }

    /// How long each lease runs from its client's last sign on.
    #[must_use]
    pub fn length(self) -> Duration {
        self.length
    }

    /// The library's terms. A server without leases grants some that do not end.
    pub(crate) fn terms(leases: Option<Leases>) -> ffi::Terms {
        match leases {
            Some(Leases { length, drift }) => {
                let length = u64::try_from(length.as_nanos()).unwrap_or(FOR_EVER);
                ffi::Terms { length, drift }
            }
            None => ffi::Terms { length: FOR_EVER, drift: DRIFT },
        }
    }
}

impl fmt::Display for BadLeases {
    fn fmt(&self, f: &mut fmt::Formatter<'_>) -> fmt::Result {
        match self {
            BadLeases::Length(length) => {
                write!(f, "a lease of {length:?}: expected 300 milliseconds to a day")
            }
            BadLeases::Drift(drift) => {
                write!(f, "a drift of {drift} percent: expected 0 to {MAX_DRIFT}")
            }
        }
    }
}

impl std::error::Error for BadLeases {}

/// How long a lease still runs, by the server's clock.
#[derive(Clone, Copy, Debug, PartialEq, Eq)]
#[cfg_attr(feature = "serde", derive(serde::Serialize))]
pub enum LeaseLeft {
    /// It does not end: only an operator evicts the client.
    Unending,
    /// It ends after this time, if no sign of the client comes. The server evicts the client then.
    Ends(Duration),
}

/// What a client's host knows of the older incarnations of its client.
#[derive(Clone, Copy, Debug, PartialEq, Eq)]
pub enum Older {
    /// Nothing: each may still answer.
    Unknown,
    /// No process of this one is left: it stood in the lock file that this host holds.
    IsOver(u64),
    /// An operator vouches that none answers any more.
    Vouched,
}

/// What a client's host reports of its lease.
#[derive(Clone, Copy, Debug, PartialEq, Eq)]
pub(crate) struct Sign {
    pub client: u8,
    pub incarnation: u64,
    /// When it was sent, by the clock of the client's machine. It comes back as it is.
    pub stamp: Moment,
    /// The length of the lease by which the client lives, in nanoseconds: 0 before its first terms,
    /// and `FOR_EVER` if its lease does not end.
    pub length: u64,
    pub older: Older,
}

/// The terms by which a server's host answers a sign.
#[derive(Clone, Copy, Debug, PartialEq, Eq)]
pub(crate) struct Grant {
    pub incarnation: u64,
    /// That of the sign.
    pub stamp: Moment,
    /// The length of the lease from that moment on, in nanoseconds.
    pub length: u64,
}

/// What is answered to a sign.
#[derive(Clone, Copy, Debug, PartialEq, Eq)]
pub(crate) enum Answer {
    Granted(Grant),
    /// The incarnation was evicted, or has left, or a greater one is registered.
    Ended {
        incarnation: u64,
    },
}

#[cfg(test)]
mod tests {
    use super::*;

    #[test]
    fn what_is_no_lease() {
        let short = Duration::from_millis(299);
        assert_eq!(Leases::of(short), Err(BadLeases::Length(short)));
        assert!(Leases::of(LONGEST + Duration::from_nanos(1)).is_err());
        let bad = Leases::of(LONGEST).unwrap().with_drift(101).unwrap_err();
        assert_eq!(bad.to_string(), "a drift of 101 percent: expected 0 to 100");
        let sentence = BadLeases::Length(short).to_string();
        assert_eq!(sentence, "a lease of 299ms: expected 300 milliseconds to a day");
    }
}
