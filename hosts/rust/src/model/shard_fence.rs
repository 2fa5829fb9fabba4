//! The fence between maps: a client of one shard and the server of another one exchange no
//! messages.
//!
//! A client with an old map would write a key to a server that no longer has it, where nobody looks
//! for it. So both sides compare what the server serves, before the library gets a message.
use crate::model::shard_bounds::ShardBounds;
use std::cmp::Ordering;
use std::fmt;

/// A client and a server of two shards, or of two maps.
#[derive(Clone, Copy, Debug, PartialEq, Eq)]
#[non_exhaustive]
pub struct OtherShard {
    /// What the client takes the server for: `None` if for one of all keys.
    pub expected: Option<ShardBounds>,
    /// What the server serves: `None` if all keys, or if it knows nothing of shards.
    pub served: Option<ShardBounds>,
}

/// Whether a client that expects this of a server may speak to one that serves that. Both sides ask
/// this, and nothing else decides it.
pub(crate) fn compare(
    expected: Option<ShardBounds>,
    served: Option<ShardBounds>,
) -> Result<(), OtherShard> {
    if expected == served { Ok(()) } else { Err(OtherShard { expected, served }) }
}

/// What a client has learned of its server's shard on one connection.
#[derive(Debug)]
pub(crate) struct Fence {
    expected: Option<ShardBounds>,
    /// What the server has reported that it serves.
    served: Option<ShardBounds>,
}

impl Fence {
    pub fn new(expected: Option<ShardBounds>) -> Fence {
        Fence { expected, served: None }
    }

    /// The server has reported what it serves.
    pub fn note_served(&mut self, served: ShardBounds) -> Result<(), OtherShard> {
        self.served = Some(served);
        self.passes()
    }

    /// The server has reported that it serves this, and not what the client expects.
    pub fn is_refused(&self, served: Option<ShardBounds>) -> OtherShard {
        OtherShard { expected: self.expected, served }
    }

    /// Whether the library may speak on this connection. It is asked when the server has answered
    /// all that came before: a server that has not reported by then what it serves knows nothing of
    /// shards.
    pub fn passes(&self) -> Result<(), OtherShard> {
        compare(self.expected, self.served)
    }
}

impl fmt::Display for OtherShard {
    fn fmt(&self, f: &mut fmt::Formatter<'_>) -> fmt::Result {
        match (self.expected, self.served) {
            (Some(expected), Some(served)) => {
                write!(f, "the client takes the server for {expected}, and it serves {served}: ")?;
                f.write_str(match expected.map_version().cmp(&served.map_version()) {
                    Ordering::Less => {
                        "the client's map is an older one, and has to be loaded again"
                    }
                    Ordering::Equal => "the address is that of another shard",
                    Ordering::Greater => {
                        "the server was started by an older map, or the address is of another one"
                    }
                })
            }
            (Some(expected), None) => write!(
                f,
                "the client takes the server for {expected}, and it serves no shard: it has to be \
                 started as that shard's"
            ),
            (None, Some(served)) => write!(
                f,
                "the server serves only {served}, and the client takes it for one of all keys: the \
                 client needs a map with this version"
            ),
            (None, None) => f.write_str("neither side is of a shard"),
        }
    }
}

impl std::error::Error for OtherShard {}

#[cfg(test)]
mod tests {
    use super::*;

    fn bounds(text: &str) -> ShardBounds {
        text.parse().unwrap()
    }

    #[test]
    fn only_the_same_shard_by_the_same_map_passes() {
        let shards = [None, Some("0..9@3"), Some("0..8@3"), Some("1..9@3"), Some("0..9@4")];
        let shards = shards.map(|text| text.map(bounds));
        for (place, expected) in shards.into_iter().enumerate() {
            for (other, served) in shards.into_iter().enumerate() {
                let refused = Err(OtherShard { expected, served });
                let wanted = if place == other { Ok(()) } else { refused };
                assert_eq!(compare(expected, served), wanted);
            }
        }
    }

    #[test]
    fn a_client_sends_once_its_shard_was_confirmed_and_not_before() {
        assert_eq!(Fence::new(None).passes(), Ok(()));
        let mut fence = Fence::new(Some(bounds("0..9@3")));
        assert!(fence.passes().is_err());
        assert_eq!(fence.note_served(bounds("0..9@3")), Ok(()));
        assert_eq!(fence.passes(), Ok(()));
        assert!(fence.note_served(bounds("0..9@4")).is_err() && fence.passes().is_err());
        assert!(Fence::new(None).note_served(bounds("0..9@3")).is_err());
    }

    #[test]
    fn each_mismatch_is_explained() {
        let message = |expected: Option<&str>, served: Option<&str>| {
            OtherShard { expected: expected.map(bounds), served: served.map(bounds) }.to_string()
        };
        let older = message(Some("0..9@3"), Some("0..5@4"));
        assert!(older.contains("0..9@3, and it serves 0..5@4: the client's map is an older one"));
        assert!(message(Some("0..9@3"), Some("0..5@3")).contains("that of another shard"));
        assert!(message(Some("0..9@3"), Some("0..9@2")).contains("started by an older map"));
        assert!(message(Some("0..9@3"), None).contains("has to be started as that shard's"));
        assert!(message(None, Some("0..9@3")).contains("the client needs a map"));
    }
}
