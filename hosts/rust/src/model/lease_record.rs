//! What a store keeps of leases.
use crate::model::client_set::ClientSet;

/// What a store has to keep of leases, for the servers after this one. A server stores it before
/// anything rests on it.
#[derive(Clone, Copy, Debug, PartialEq, Eq)]
pub struct LeaseRecord {
    /// No lease that ends and may still run is longer, in nanoseconds.
    pub longest: u64,
    /// Who may have a lease that does not end.
    pub unleased: ClientSet,
}

impl LeaseRecord {
    /// That of a store in which nothing is kept of leases: every client that is registered there
    /// may answer forever.
    pub const UNKNOWN: LeaseRecord =
        LeaseRecord { longest: 0, unleased: ClientSet::of_bits(u64::MAX) };

    /// That of two stores that become one.
    pub(crate) fn with_those_of(self, other: LeaseRecord) -> LeaseRecord {
        let unleased = ClientSet::of_bits(self.unleased.bits() | other.unleased.bits());
        LeaseRecord { longest: self.longest.max(other.longest), unleased }
    }
}

impl Default for LeaseRecord {
    fn default() -> LeaseRecord {
        LeaseRecord::UNKNOWN
    }
}
