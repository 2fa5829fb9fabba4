//! Why connections are closed, and how many were closed for each reason.

/// Why a connection is closed.
#[derive(Clone, Copy, Debug, PartialEq, Eq)]
pub(crate) enum CloseReason {
    /// Its peer has ended it, or the network has.
    Ended,
    /// Nothing came on it for too long.
    Silent,
    /// Its peer took nothing for too long.
    TakesNothing,
    /// It has not identified itself in time.
    StrangerLate,
    /// It was the oldest of too many that had not identified themselves.
    StrangerCrowded,
    /// It was the oldest of too many of one identity.
    IdentityCrowded,
    /// The client's long report comes on another connection.
    ReportsElsewhere,
    /// The handshake of TLS failed.
    HandshakeFailed,
    /// It began a frame that is longer than it may be.
    FrameTooLong,
    /// It sent what is not a message.
    BadMessage,
    /// It sent what its identity may not send.
    Denied,
    /// Its client takes the server for another shard's.
    OtherShard,
    /// Its client's host is of another version of the stream.
    OtherVersion,
    /// Its client has seen what the store lacks.
    OlderStore,
    /// Its client has seen another store.
    OtherStore,
    /// There was no place for it.
    Full,
}

impl CloseReason {
    /// How many reasons there are.
    pub(crate) const COUNT: usize = CloseReason::ALL.len();

    const ALL: [CloseReason; 16] = [
        CloseReason::Ended,
        CloseReason::Silent,
        CloseReason::TakesNothing,
        CloseReason::StrangerLate,
        CloseReason::StrangerCrowded,
        CloseReason::IdentityCrowded,
        CloseReason::ReportsElsewhere,
        CloseReason::HandshakeFailed,
        CloseReason::FrameTooLong,
        CloseReason::BadMessage,
        CloseReason::Denied,
        CloseReason::OtherShard,
        CloseReason::OtherVersion,
        CloseReason::OlderStore,
        CloseReason::OtherStore,
        CloseReason::Full,
    ];

    /// The word for it in metrics.
    pub(crate) fn word(self) -> &'static str {
        match self {
            CloseReason::Ended => "ended",
            CloseReason::Silent => "silent",
            CloseReason::TakesNothing => "takes_nothing",
            CloseReason::StrangerLate => "stranger_late",
            CloseReason::StrangerCrowded => "stranger_crowded",
            CloseReason::IdentityCrowded => "identity_crowded",
            CloseReason::ReportsElsewhere => "reports_elsewhere",
            CloseReason::HandshakeFailed => "handshake_failed",
            CloseReason::FrameTooLong => "frame_too_long",
            CloseReason::BadMessage => "bad_message",
            CloseReason::Denied => "denied",
            CloseReason::OtherShard => "other_shard",
            CloseReason::OtherVersion => "other_version",
            CloseReason::OlderStore => "older_store",
            CloseReason::OtherStore => "other_store",
            CloseReason::Full => "full",
        }
    }

    /// What the log reports at once and not only at the level debug, if nobody else does.
    pub(crate) fn news(self) -> Option<&'static str> {
        match self {
            CloseReason::TakesNothing => Some("its peer took nothing for 5 seconds"),
            CloseReason::StrangerLate => Some("it did not identify itself within 5 seconds"),
            CloseReason::StrangerCrowded => {
                Some("it was the oldest of too many that had not identified themselves")
            }
            CloseReason::IdentityCrowded => {
                Some("it was the oldest of too many of one certificate or user")
            }
            CloseReason::HandshakeFailed => Some("the handshake of TLS failed"),
            CloseReason::FrameTooLong => Some("it began a frame that is longer than it may be"),
            CloseReason::Full => Some("no more may be open"),
            _ => None,
        }
    }
}

/// How many connections a server has closed, or its peers have, for each reason.
#[derive(Clone, Debug, Default, PartialEq, Eq)]
pub struct ClosedConnections([u64; CloseReason::ALL.len()]);

impl ClosedConnections {
    /// Each reason, as one word, with the number of connections.
    pub fn counts(&self) -> impl Iterator<Item = (&'static str, u64)> {
        CloseReason::ALL.iter().map(|reason| reason.word()).zip(self.0)
    }

    pub(crate) fn count(&mut self, reason: CloseReason) {
        self.0[reason as usize] += 1;
    }
}

/// As a map from each reason to its count.
#[cfg(feature = "serde")]
impl serde::Serialize for ClosedConnections {
    fn serialize<S: serde::Serializer>(&self, serializer: S) -> Result<S::Ok, S::Error> {
        serializer.collect_map(self.counts())
    }
}

#[cfg(test)]
mod tests {
    use super::*;

    #[test]
    fn each_reason_has_its_place_and_its_word() {
        let mut counts = ClosedConnections::default();
        for (place, reason) in CloseReason::ALL.into_iter().enumerate() {
            assert_eq!(reason as usize, place);
            counts.count(reason);
        }
        let mut words: Vec<_> = counts.counts().collect();
        assert!(words.iter().all(|(_, count)| *count == 1));
        words.sort_unstable();
        words.dedup();
        assert_eq!(words.len(), CloseReason::ALL.len());
    }
}
