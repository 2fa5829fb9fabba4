//! What a call returns.
use krl::error::{Fate, LockFileError};
use krl::{ErrorKind, JoinErrorKind, Outcome};

krl_ffi::codes! {
    Ok = 0, c"KRLC_OK";
    Exists = 1, c"KRLC_EXISTS";
    Absent = 2, c"KRLC_ABSENT";
    Full = 3, c"KRLC_FULL";
    NotHeld = 4, c"KRLC_NOT_HELD";
    Miss = 5, c"KRLC_MISS";
    Unchanged = 6, c"KRLC_UNCHANGED";
    TooShort = 7, c"KRLC_TOO_SHORT";
    Misuse = 16, c"KRLC_MISUSE";
    BadRange = 17, c"KRLC_BAD_RANGE";
    BadKey = 18, c"KRLC_BAD_KEY";
    TooLong = 19, c"KRLC_TOO_LONG";
    BadNumber = 20, c"KRLC_BAD_NUMBER";
    BadAddress = 21, c"KRLC_BAD_ADDRESS";
    BadMap = 22, c"KRLC_BAD_MAP";
    BadTls = 23, c"KRLC_BAD_TLS";
    LockFile = 24, c"KRLC_LOCK_FILE";
    Pinned = 25, c"KRLC_PINNED";
    TooManyPins = 26, c"KRLC_TOO_MANY_PINS";
    Left = 27, c"KRLC_LEFT";
    Forked = 28, c"KRLC_FORKED";
    LockFileTaken = 29, c"KRLC_LOCK_FILE_TAKEN";
    TimedOut = 40, c"KRLC_TIMED_OUT";
    Unserved = 41, c"KRLC_UNSERVED";
    StoreWentBack = 42, c"KRLC_STORE_WENT_BACK";
    LeaseEnded = 43, c"KRLC_LEASE_ENDED";
    Stopped = 44, c"KRLC_STOPPED";
    Internal = 45, c"KRLC_INTERNAL";
    Unknown = 46, c"KRLC_UNKNOWN";
    TurnedAway = 60, c"KRLC_TURNED_AWAY";
    OtherShard = 61, c"KRLC_OTHER_SHARD";
    PinIsVoid = 62, c"KRLC_PIN_IS_VOID";
    OutOfMemory = 63, c"KRLC_OUT_OF_MEMORY";
    NoThread = 64, c"KRLC_NO_THREAD";
    NotMade = 66, c"KRLC_NOT_MADE";
    NothingListens = 67, c"KRLC_NOTHING_LISTENS";
}

impl Code {
    /// Whether a write that returned this may have been applied, or may still be.
    pub fn is_unknown_outcome(self) -> bool {
        matches!(
            self,
            Code::TimedOut
                | Code::Unserved
                | Code::StoreWentBack
                | Code::LeaseEnded
                | Code::Stopped
                | Code::Internal
                | Code::Unknown
        )
    }
}

impl From<Outcome> for Code {
    fn from(outcome: Outcome) -> Code {
        match outcome {
            Outcome::Applied => Code::Ok,
            Outcome::Exists => Code::Exists,
            Outcome::Absent => Code::Absent,
            Outcome::NotHeld => Code::NotHeld,
            Outcome::Full => Code::Full,
        }
    }
}

impl From<Fate> for Code {
    fn from(fate: Fate) -> Code {
        match fate {
            Fate::Judged(outcome) => outcome.into(),
            Fate::Unknown => Code::Unknown,
            Fate::NotMade => Code::NotMade,
        }
    }
}

impl From<&ErrorKind> for Code {
    fn from(refused: &ErrorKind) -> Code {
        match refused {
            ErrorKind::TimedOut => Code::TimedOut,
            ErrorKind::Unserved(_) => Code::Unserved,
            ErrorKind::NotSent(_) => Code::NotMade,
            ErrorKind::TurnedAway => Code::TurnedAway,
            ErrorKind::OtherShard(_) => Code::OtherShard,
            ErrorKind::StoreWentBack => Code::StoreWentBack,
            ErrorKind::LeaseEnded => Code::LeaseEnded,
            ErrorKind::PinIsVoid => Code::PinIsVoid,
            ErrorKind::Stopped => Code::Stopped,
            ErrorKind::BadRange => Code::BadRange,
            ErrorKind::BadKey => Code::BadKey,
            ErrorKind::Pinned => Code::Pinned,
            ErrorKind::TooManyPins => Code::TooManyPins,
            ErrorKind::OutOfMemory => Code::OutOfMemory,
            ErrorKind::Left => Code::Left,
            _ => Code::Internal,
        }
    }
}

impl From<&JoinErrorKind> for Code {
    fn from(error: &JoinErrorKind) -> Code {
        match error {
            JoinErrorKind::LockFile { error: LockFileError::Taken, .. } => Code::LockFileTaken,
            JoinErrorKind::LockFile { .. } | JoinErrorKind::NoLockFolder(_) => Code::LockFile,
            JoinErrorKind::BadNumber => Code::BadNumber,
            JoinErrorKind::Incomplete(_) => Code::Misuse,
            JoinErrorKind::NoAnswer { .. } => Code::TimedOut,
            JoinErrorKind::NothingListens { .. } => Code::NothingListens,
            JoinErrorKind::NoServer { .. } => Code::BadAddress,
            JoinErrorKind::Unserved(_) => Code::Unserved,
            JoinErrorKind::TurnedAway(_) => Code::TurnedAway,
            JoinErrorKind::OtherShard(_) => Code::OtherShard,
            JoinErrorKind::NoThread(_) => Code::NoThread,
            JoinErrorKind::Refused(refused) => refused.into(),
            _ => Code::Internal,
        }
    }
}

#[cfg(test)]
mod tests {
    use super::*;
    use krl::Error;
    use krl::error::{Code as LibraryCode, Unsent};

    #[test]
    fn a_write_is_unknown_exactly_where_the_crate_calls_it_so() {
        let kinds = [
            ErrorKind::TimedOut,
            ErrorKind::Unserved(krl::error::Refusal::Denied),
            ErrorKind::NotSent(Unsent::TimedOut),
            ErrorKind::NotSent(Unsent::StoreWentBack),
            ErrorKind::NotSent(Unsent::Stopped),
            ErrorKind::TurnedAway,
            ErrorKind::StoreWentBack,
            ErrorKind::LeaseEnded,
            ErrorKind::PinIsVoid,
            ErrorKind::Stopped,
            ErrorKind::BadRange,
            ErrorKind::BadKey,
            ErrorKind::Pinned,
            ErrorKind::TooManyPins,
            ErrorKind::OutOfMemory,
            ErrorKind::Left,
        ];
        for kind in kinds {
            let code = Code::from(&kind);
            assert_eq!(
                code.is_unknown_outcome(),
                Error::from(kind).is_unknown_outcome(),
                "{kind:?}"
            );
        }
        // A code that no call should return counts as the worst.
        assert!(Code::from(&ErrorKind::Other(LibraryCode::Busy)).is_unknown_outcome());
    }

    #[test]
    fn codes_have_their_numbers() {
        for code in Code::ALL {
            assert_eq!(Code::of(*code as u32), Some(*code));
        }
        assert_eq!((Code::of(8), Code::of(15), Code::of(u32::MAX)), (None, None, None));
    }
}
