//! Numbers of clients.

/// The number of a client, from 0 to 63.
#[derive(Clone, Copy, Debug, PartialEq, Eq, PartialOrd, Ord)]
pub(crate) struct ClientNumber(u8);

impl ClientNumber {
    /// How many clients a server has at most: their numbers lie below this one.
    pub const COUNT: u8 = 64;

    /// The client of this number, if it is one's.
    pub fn of(number: impl TryInto<u8>) -> Option<ClientNumber> {
        number.try_into().ok().filter(|number| *number < ClientNumber::COUNT).map(ClientNumber)
    }

    /// Each number, in ascending order.
    pub fn all() -> impl Iterator<Item = u8> {
        0..ClientNumber::COUNT
    }

    /// The number.
    pub fn get(self) -> u8 {
        self.0
    }
}

/// Something of each client.
pub(crate) type PerClient<T> = [T; ClientNumber::COUNT as usize];

#[cfg(test)]
mod tests {
    use super::*;

    #[test]
    fn a_clients_number_is_below_64() {
        let of = |number: u64| ClientNumber::of(number).map(ClientNumber::get);
        assert_eq!(
            [of(0), of(63), of(64), of(256), of(u64::MAX)],
            [Some(0), Some(63), None, None, None]
        );
        assert_eq!((ClientNumber::all().next(), ClientNumber::all().last()), (Some(0), Some(63)));
    }
}
