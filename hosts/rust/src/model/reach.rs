//! How many slots one grant takes at most.
use crate::model::limits;
use std::fmt;
use std::str::FromStr;

/// How many slots one grant of a server takes at most, from 1 to 128. A client that reads many rows
/// for the first time asks for that many slots at a time.
///
/// As text it is that number.
#[derive(Clone, Copy, Debug, PartialEq, Eq, PartialOrd, Ord)]
pub struct Reach(usize);

/// A number of slots that is not a valid reach: 0, or more than 128.
#[derive(Clone, Copy, Debug, PartialEq, Eq)]
pub struct BadReach;

impl Reach {
    /// The greatest reach: 128 slots.
    pub const MAX: Reach = Reach(limits::MAX_REACH);

    /// A reach of this many slots.
    ///
    /// # Errors
    ///
    /// `BadReach` if there are none, or more than 128.
    pub fn of(slots: usize) -> Result<Reach, BadReach> {
        (1..=limits::MAX_REACH).contains(&slots).then_some(Reach(slots)).ok_or(BadReach)
    }

    /// The most slots of one grant.
    #[must_use]
    pub fn slots(self) -> usize {
        self.0
    }
}

impl Default for Reach {
    /// 128 slots.
    fn default() -> Reach {
        Reach::MAX
    }
}

impl FromStr for Reach {
    type Err = BadReach;

    fn from_str(text: &str) -> Result<Reach, BadReach> {
        text.parse().map_err(|_| BadReach).and_then(Reach::of)
    }
}

impl fmt::Display for Reach {
    fn fmt(&self, f: &mut fmt::Formatter<'_>) -> fmt::Result {
        self.0.fmt(f)
    }
}

impl fmt::Display for BadReach {
    fn fmt(&self, f: &mut fmt::Formatter<'_>) -> fmt::Result {
        write!(f, "the reach of a server is 1 to {} slots", limits::MAX_REACH)
    }
}

impl std::error::Error for BadReach {}

#[cfg(test)]
mod tests {
    use super::*;

    #[test]
    fn a_reach_is_of_1_to_128_slots() {
        for text in ["1", "8", "128"] {
            assert_eq!(text.parse::<Reach>().unwrap().to_string(), text);
        }
        for text in ["", "0", "129", "-1", "many", "18446744073709551616"] {
            assert_eq!(text.parse::<Reach>(), Err(BadReach), "{text}");
        }
        assert_eq!((Reach::of(128), Reach::default().slots()), (Ok(Reach::MAX), 128));
        assert_eq!(BadReach.to_string(), "the reach of a server is 1 to 128 slots");
    }
}
