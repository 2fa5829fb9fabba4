//! The head: one key that every transaction compares, and sets again.
use crate::bucket;
use krl::store::fence::Fence;
use std::fmt;
use std::str::FromStr;

/// What stands in the key `PREFIX/head`. As text: `krl1 EPOCH OWNER TRANSACTION COMMITS SALT`, or
/// `krl2` with the same words and the number of buckets if these are more than the fewest.
///
/// The first four words are the fence. **The salt** is drawn once for a store, and mixes its keys.
/// **The buckets** grow with the room: a transaction that adds some sets their number with their
/// rows.
#[derive(Clone, Copy, Debug, PartialEq, Eq)]
pub(crate) struct Head {
    pub fence: Fence,
    pub salt: u64,
    pub buckets: usize,
}

/// The forms of what is stored. A store of another form is refused. The first one has no number of
/// buckets, and servers from before the second one read it.
const FORM: &str = "krl1";
const FORM_WITH_BUCKETS: &str = "krl2";

impl Head {
    /// The head of a store to which nothing has been committed.
    pub const EMPTY: Head = Head {
        fence: Fence { epoch: 0, owner: 0, transaction: 0, commits: 0 },
        salt: 0,
        buckets: bucket::FEWEST,
    };
}

impl fmt::Display for Head {
    fn fmt(&self, f: &mut fmt::Formatter<'_>) -> fmt::Result {
        let Head { fence: Fence { epoch, owner, transaction, commits }, salt, buckets } = self;
        let form = if *buckets == bucket::FEWEST { FORM } else { FORM_WITH_BUCKETS };
        write!(f, "{form} {epoch} {owner:032x} {transaction} {commits} {salt}")?;
        if *buckets == bucket::FEWEST { Ok(()) } else { write!(f, " {buckets}") }
    }
}

impl FromStr for Head {
    type Err = ();

    fn from_str(text: &str) -> Result<Head, ()> {
        let words: Vec<&str> = text.split(' ').collect();
        let number = |word: &str| word.parse::<u64>().map_err(|_| ());
        let (words, buckets) = match words[..] {
            [FORM, ref words @ ..] => (words, bucket::FEWEST),
            [FORM_WITH_BUCKETS, ref words @ .., buckets] => {
                (words, buckets.parse().map_err(|_| ())?)
            }
            _ => return Err(()),
        };
        let [epoch, owner, transaction, commits, salt] = words[..] else { return Err(()) };
        let fence = Fence {
            epoch: number(epoch)?,
            owner: u128::from_str_radix(owner, 16).map_err(|_| ())?,
            transaction: number(transaction)?,
            commits: number(commits)?,
        };
        let head = Head { fence, salt: number(salt)?, buckets };
        if bucket::is_count(buckets) && head.to_string() == text { Ok(head) } else { Err(()) }
    }
}

#[cfg(test)]
mod tests {
    use super::*;

    #[test]
    fn heads_are_read_as_they_are_written() {
        let buckets = bucket::FEWEST;
        let fence = Fence { epoch: 7, owner: 1 << 127, transaction: 3, commits: 2 };
        let head = Head { fence, salt: 9, buckets };
        assert_eq!(head.to_string(), "krl1 7 80000000000000000000000000000000 3 2 9");
        assert_eq!(head.to_string().parse(), Ok(head));
        let great = Head { buckets: 5000, ..head };
        assert_eq!(great.to_string(), "krl2 7 80000000000000000000000000000000 3 2 9 5000");
        assert_eq!(great.to_string().parse(), Ok(great));
        for text in ["", "krl1", "krl1 1 zz 1 1 1", "krl1 1 0 1 1 1", "krl2"] {
            assert_eq!(text.parse::<Head>(), Err(()), "{text}");
        }
        let other = head.to_string().replace(FORM, "krl3");
        assert_eq!(other.parse::<Head>(), Err(()), "another form");
        for buckets in ["0", "1023", "1024", "65537", "05000", "+5000", ""] {
            let text = great.to_string().replace("5000", buckets);
            assert_eq!(text.parse::<Head>(), Err(()), "{text}");
        }
    }
}
