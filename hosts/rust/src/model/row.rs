//! Rows: keys and values.
use std::cmp::Ordering;
use std::fmt;
use std::hash::{Hash, Hasher};

/// One past the greatest key, 2^63 - 1. Ranges of keys may end one past it.
pub const END: u64 = (1 << 63) - 1;

/// The greatest number of bytes in a value.
pub const MAX_VALUE_BYTES: usize = 32;

/// A value: 0 to 32 bytes. Values are compared by their bytes, as byte strings are: `"aa"` is before
/// `"b"`.
///
/// ```
/// use krl::Value;
///
/// let (text, number) = (Value::try_from("five")?, Value::from(5));
/// assert_eq!((text.as_bytes(), number.to_u64()), (&b"five"[..], Some(5)));
/// assert!(Value::try_from([7u8; 33]).is_err());
/// # Ok::<(), krl::error::TooLong>(())
/// ```
#[repr(C)]
#[derive(Clone, Copy)]
pub struct Value {
    length: u64,
    bytes: [u8; MAX_VALUE_BYTES],
}

/// A row of the table: a key below [`END`] and its value. In memory it is a `krl_row` of `krl.h`.
#[repr(C)]
#[derive(Clone, Copy, Debug, Default, PartialEq, Eq, Hash, PartialOrd, Ord)]
#[cfg_attr(feature = "serde", derive(serde::Deserialize, serde::Serialize))]
pub struct Row {
    /// The key.
    pub key: u64,
    /// The value.
    pub value: Value,
}

/// Bytes that are too many for a value.
#[derive(Clone, Copy, Debug, PartialEq, Eq)]
pub struct TooLong {
    /// How many there are.
    pub length: usize,
}

impl Value {
    /// The bytes of the value.
    #[must_use]
    pub fn as_bytes(&self) -> &[u8] {
        let length = usize::try_from(self.length).unwrap_or(MAX_VALUE_BYTES);
        &self.bytes[..length.min(MAX_VALUE_BYTES)]
    }

    /// The number whose eight bytes the value is, the highest first, if it has eight.
    #[must_use]
    pub fn to_u64(&self) -> Option<u64> {
        self.as_bytes().try_into().ok().map(u64::from_be_bytes)
    }
}

impl TryFrom<&[u8]> for Value {
    type Error = TooLong;

    fn try_from(from: &[u8]) -> Result<Value, TooLong> {
        let mut bytes = [0; MAX_VALUE_BYTES];
        let room = bytes.get_mut(..from.len()).ok_or(TooLong { length: from.len() })?;
        room.copy_from_slice(from);
        Ok(Value { length: from.len() as u64, bytes })
    }
}

impl<const LENGTH: usize> TryFrom<&[u8; LENGTH]> for Value {
    type Error = TooLong;

    fn try_from(bytes: &[u8; LENGTH]) -> Result<Value, TooLong> {
        bytes[..].try_into()
    }
}

impl<const LENGTH: usize> TryFrom<[u8; LENGTH]> for Value {
    type Error = TooLong;

    fn try_from(bytes: [u8; LENGTH]) -> Result<Value, TooLong> {
        bytes[..].try_into()
    }
}

impl TryFrom<&str> for Value {
    type Error = TooLong;

    /// The bytes of the text in UTF-8.
    fn try_from(text: &str) -> Result<Value, TooLong> {
        text.as_bytes().try_into()
    }
}

impl fmt::Display for TooLong {
    fn fmt(&self, f: &mut fmt::Formatter<'_>) -> fmt::Result {
        write!(f, "a value has at most {MAX_VALUE_BYTES} bytes, and this one {}", self.length)
    }
}

impl std::error::Error for TooLong {}

impl From<u64> for Value {
    /// The eight bytes of the number, the highest first.
    fn from(number: u64) -> Value {
        let mut bytes = [0; MAX_VALUE_BYTES];
        bytes[..8].copy_from_slice(&number.to_be_bytes());
        Value { length: 8, bytes }
    }
}

impl PartialEq for Value {
    fn eq(&self, other: &Value) -> bool {
        self.as_bytes() == other.as_bytes()
    }
}

impl Eq for Value {}

impl PartialOrd for Value {
    fn partial_cmp(&self, other: &Value) -> Option<Ordering> {
        Some(self.cmp(other))
    }
}

impl Ord for Value {
    fn cmp(&self, other: &Value) -> Ordering {
        self.as_bytes().cmp(other.as_bytes())
    }
}

impl Hash for Value {
    fn hash<H: Hasher>(&self, state: &mut H) {
        self.as_bytes().hash(state);
    }
}

impl Default for Value {
    /// The value of no bytes.
    fn default() -> Value {
        Value { length: 0, bytes: [0; MAX_VALUE_BYTES] }
    }
}

impl AsRef<[u8]> for Value {
    fn as_ref(&self) -> &[u8] {
        self.as_bytes()
    }
}

impl fmt::Debug for Value {
    fn fmt(&self, f: &mut fmt::Formatter<'_>) -> fmt::Result {
        f.write_str("x")?;
        self.as_bytes().iter().try_for_each(|byte| write!(f, "{byte:02x}"))
    }
}

#[cfg(test)]
mod tests {
    use super::*;

    #[test]
    fn values_have_their_bytes() {
        let value: Value = "abc".try_into().unwrap();
        assert_eq!((value.as_bytes(), value.as_ref()), (&b"abc"[..], &b"abc"[..]));
        assert_eq!(format!("{value:?}"), "x616263");
        assert_eq!(Value::default().as_bytes(), b"");
        assert_eq!(Value::try_from(&[7; 32][..]).unwrap().as_bytes(), [7; 32]);
        assert_eq!(Value::try_from(&[7; 33][..]), Err(TooLong { length: 33 }));
        assert_eq!(
            TooLong { length: 33 }.to_string(),
            "a value has at most 32 bytes, and this one 33"
        );
    }

    #[test]
    fn values_are_compared_by_their_bytes() {
        let mut values = ["b", "aa", "", "a", "ab"].map(|text| Value::try_from(text).unwrap());
        values.sort();
        let texts = values.map(|value| String::from_utf8(value.as_bytes().to_vec()).unwrap());
        assert_eq!(texts, ["", "a", "aa", "ab", "b"]);
        // What is past the length has no meaning.
        let (mut one, other) = (Value::try_from("a").unwrap(), Value::try_from("a").unwrap());
        one.bytes[1] = 7;
        assert_eq!(one, other);
    }

    #[test]
    fn numbers_are_eight_bytes() {
        assert_eq!(Value::from(5).as_bytes(), [0, 0, 0, 0, 0, 0, 0, 5]);
        assert_eq!(Value::from(u64::MAX).to_u64(), Some(u64::MAX));
        assert_eq!(Value::try_from("four").unwrap().to_u64(), None);
    }
}
