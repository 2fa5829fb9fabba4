//! Sets of clients.
use crate::model::client_number::ClientNumber;
use std::fmt;

/// A set of clients.
#[derive(Clone, Copy, Debug, Default, PartialEq, Eq)]
pub struct ClientSet {
    /// The bit of value `2^n` stands for client `n`.
    bits: u64,
}

impl ClientSet {
    /// The set in which the bit of value `2^n` stands for client `n`.
    #[must_use]
    pub const fn of_bits(bits: u64) -> ClientSet {
        ClientSet { bits }
    }

    /// The set as a number: the bit of value `2^n` stands for client `n`.
    #[must_use]
    pub const fn bits(self) -> u64 {
        self.bits
    }

    /// Whether the client of this number is in it.
    pub(crate) fn has(self, client: u8) -> bool {
        client < ClientNumber::COUNT && self.bits >> client & 1 == 1
    }

    /// The set, and the client of this number. A number above 63 is not a client's.
    pub(crate) fn with(self, client: u8) -> ClientSet {
        ClientSet { bits: self.bits | 1u64.checked_shl(client.into()).unwrap_or(0) }
    }

    /// The set without the client of this number.
    pub(crate) fn without(self, client: u8) -> ClientSet {
        ClientSet { bits: self.bits & !ClientSet::default().with(client).bits }
    }

    /// The clients of both sets.
    pub(crate) fn or(self, other: ClientSet) -> ClientSet {
        ClientSet { bits: self.bits | other.bits }
    }

    /// How many clients are in it.
    pub(crate) fn count(self) -> u32 {
        self.bits.count_ones()
    }

    /// The clients by number, in ascending order.
    pub fn iter(self) -> impl Iterator<Item = u8> {
        ClientNumber::all().filter(move |client| self.has(*client))
    }
}

impl FromIterator<u8> for ClientSet {
    /// The set of these clients. A number above 63 is not a client's, and is passed over.
    fn from_iter<I: IntoIterator<Item = u8>>(clients: I) -> ClientSet {
        clients.into_iter().fold(ClientSet::default(), ClientSet::with)
    }
}

impl fmt::Display for ClientSet {
    fn fmt(&self, f: &mut fmt::Formatter<'_>) -> fmt::Result {
        let numbers: Vec<_> = self.iter().map(|client| client.to_string()).collect();
        f.write_str(&numbers.join(", "))
    }
}

#[cfg(test)]
mod tests {
    use super::*;

    #[test]
    fn a_set_has_its_clients() {
        for clients in [&[][..], &[0], &[3, 7], &[0, 31, 32, 63]] {
            let set: ClientSet = clients.iter().copied().collect();
            assert_eq!(set.iter().collect::<Vec<_>>(), clients);
            assert_eq!(ClientSet::of_bits(set.bits()), set);
        }
        assert_eq!([64, 200, 7, 7].into_iter().collect::<ClientSet>().to_string(), "7");
    }
}
