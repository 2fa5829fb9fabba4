//! Keys, ranges and numbers of clients as words.
use crate::failure::Failure;
use krl::END;
use std::ops::{Range, RangeInclusive};
use std::str::FromStr;

/// One past the last point: ranges end here at the latest.
const TOP: u64 = END + 1;

const MAX_NUMBER: u8 = 63;

/// All keys.
pub const ALL: Range<u64> = 0..TOP;

/// A key: 0 to 2^63 - 2.
pub fn key(word: &str) -> Result<u64, Failure> {
    point(word).filter(|key| *key < END).ok_or_else(|| {
        Failure::Usage(format!("'{word}' is not a key: a number from 0 to 2^63 - 2 is expected"))
    })
}

/// The range of two words, `LO HI`, or of one, `LO..HI`. It has LO and not HI.
pub fn range(first: &str, second: Option<&str>) -> Result<Range<u64>, Failure> {
    let bounds = match second {
        Some(hi) => point(first).zip(point(hi)),
        None => {
            first.split_once("..").and_then(|(lo, hi)| point(or(lo, "0")).zip(point(or(hi, "END"))))
        }
    };
    bounds.filter(|(lo, hi)| lo < hi && *hi <= TOP).map(|(lo, hi)| lo..hi).ok_or_else(|| {
        let word = second.map_or(first.into(), |hi| format!("{first} {hi}"));
        let expected = "LO HI or LO..HI is expected, LO below HI and HI at most 2^63";
        Failure::Usage(format!("'{word}' is not a range: {expected}"))
    })
}

fn or<'w>(word: &'w str, otherwise: &'w str) -> &'w str {
    if word.is_empty() { otherwise } else { word }
}

/// A point, or one past the last: digits, `END` for 2^63 - 1 or `TOP` for 2^63.
fn point(word: &str) -> Option<u64> {
    match word {
        "END" => Some(END),
        "TOP" => Some(TOP),
        digits if digits.bytes().all(|digit| digit.is_ascii_digit()) => digits.parse().ok(),
        _ => None,
    }
}

/// The numbers among which a client takes one.
#[derive(Clone, Debug, PartialEq, Eq)]
pub struct Numbers(pub RangeInclusive<u8>);

impl Numbers {
    /// Those of commands that are given none.
    pub const BY_DEFAULT: Numbers = Numbers(56..=63);
    /// All numbers.
    pub const ALL: Numbers = Numbers(0..=MAX_NUMBER);

    /// The number, if there is no choice.
    pub fn only(&self) -> Option<u8> {
        (self.0.start() == self.0.end()).then_some(*self.0.start())
    }
}

impl FromStr for Numbers {
    type Err = String;

    fn from_str(word: &str) -> Result<Numbers, String> {
        if word == "auto" {
            return Ok(Numbers::ALL);
        }
        let (least, greatest) = word.split_once('-').unwrap_or((word, word));
        let bounds = least.parse().ok().zip(greatest.parse().ok());
        bounds
            .filter(|(least, greatest)| least <= greatest && *greatest <= MAX_NUMBER)
            .map(|(least, greatest)| Numbers(least..=greatest))
            .ok_or_else(|| {
                "a number from 0 to 63, a range such as 56-63, or auto is expected".into()
            })
    }
}

#[cfg(test)]
mod tests {
    use super::*;

    #[test]
    fn keys() {
        assert_eq!(key("0").unwrap(), 0);
        assert_eq!(key("9223372036854775806").unwrap(), END - 1);
        for word in
            ["", "-1", "+1", "1.5", "ten", "END", "9223372036854775807", "99999999999999999999"]
        {
            let message = key(word).unwrap_err().to_string();
            assert!(message.contains(&format!("'{word}' is not a key")), "{message}");
        }
    }

    #[test]
    fn ranges() {
        assert_eq!(range("10", Some("20")).unwrap(), 10..20);
        assert_eq!(range("10..20", None).unwrap(), 10..20);
        assert_eq!(range("10..", None).unwrap(), 10..END);
        assert_eq!(range("..20", None).unwrap(), 0..20);
        assert_eq!(range("..", None).unwrap(), 0..END);
        assert_eq!(range("END", Some("TOP")).unwrap(), END..TOP);
        for (first, second) in [
            ("10", None),
            ("20..10", None),
            ("10..10", None),
            ("10", Some("10")),
            ("0", Some("9223372036854775809")),
            ("a", Some("b")),
            ("1..2", Some("3")),
        ] {
            let message = range(first, second).unwrap_err().to_string();
            assert!(message.contains("is not a range"), "{message}");
        }
    }

    #[test]
    fn numbers() {
        assert_eq!("7".parse(), Ok(Numbers(7..=7)));
        assert_eq!("56-63".parse(), Ok(Numbers(56..=63)));
        assert_eq!("auto".parse(), Ok(Numbers(0..=63)));
        assert_eq!(Numbers(7..=7).only(), Some(7));
        assert_eq!(Numbers(7..=8).only(), None);
        for word in ["", "64", "-1", "5-", "9-8", "60-64", "a"] {
            assert!(word.parse::<Numbers>().is_err(), "{word}");
        }
    }
}
