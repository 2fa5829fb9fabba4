//! The keys by which rows are read, and the stripes that they belong to.
use std::borrow::Cow;
use std::fmt::{self, Write};
use std::num::NonZeroU32;
use std::slice;

/// FNV-1a, of 32 bits.
const HASH_OFFSET: u32 = 2_166_136_261;
const HASH_PRIME: u32 = 16_777_619;

/// Stands between the texts of two columns.
const SEPARATOR: u8 = 0x1f;

/// The value of one column of a key.
#[derive(Clone, Debug, PartialEq, Eq, Hash, PartialOrd, Ord)]
#[non_exhaustive]
pub enum KeyValue {
    /// Of a column of type `smallint`, `integer` or `bigint`.
    Integer(i64),
    /// Of a column of type `text` or `varchar`.
    Text(Box<str>),
    /// Of a column of type `uuid`: its bytes, in the order in which they are written.
    Uuid([u8; 16]),
}

/// The key of a row: the values of its key columns, in the order in which `krl.cache` was given
/// them.
///
/// ```
/// use krl_cache::Key;
///
/// let of_one_column: [Key; 3] = [15.into(), "lamp".into(), [7; 16].into()];
/// let of_two_columns: Key = ("at", 15).into();
/// assert_eq!(of_two_columns.to_string(), "(at, 15)");
/// ```
#[derive(Clone, Debug, PartialEq, Eq, Hash, PartialOrd, Ord)]
pub struct Key(Values);

#[derive(Clone, Debug, PartialEq, Eq, Hash, PartialOrd, Ord)]
enum Values {
    One(KeyValue),
    Several(Box<[KeyValue]>),
}

/// A stripe of a table, from 0 on. Rows of one stripe are taken back together.
#[derive(Clone, Copy, Debug, PartialEq, Eq, Hash, PartialOrd, Ord)]
pub(crate) struct Stripe(pub u32);

/// The stripes of a table.
#[derive(Clone, Copy, Debug, PartialEq, Eq)]
pub(crate) struct Stripes {
    /// The key of krl of the table's mark, which those of the stripes follow.
    pub mark: u32,
    pub count: NonZeroU32,
    /// Whether the key is one integer, whose stripe is its remainder.
    pub by_remainder: bool,
}

impl Key {
    /// A key of these values, as a program has them that does not know the table when it is built.
    #[must_use]
    pub fn new(values: Vec<KeyValue>) -> Key {
        match <[KeyValue; 1]>::try_from(values) {
            Ok([value]) => Key(Values::One(value)),
            Err(values) => Key(Values::Several(values.into())),
        }
    }

    /// The values of the columns.
    #[must_use]
    pub fn values(&self) -> &[KeyValue] {
        match &self.0 {
            Values::One(value) => slice::from_ref(value),
            Values::Several(values) => values,
        }
    }

    /// About how many bytes the key takes besides its own size.
    pub(crate) fn size(&self) -> usize {
        let text = |value: &KeyValue| if let KeyValue::Text(text) = value { text.len() } else { 0 };
        self.values().iter().map(text).sum()
    }
}

impl KeyValue {
    /// The value as PostgreSQL writes it.
    pub(crate) fn text(&self) -> Cow<'_, str> {
        match self {
            KeyValue::Text(text) => Cow::Borrowed(text),
            KeyValue::Integer(_) | KeyValue::Uuid(_) => Cow::Owned(self.to_string()),
        }
    }
}

impl Stripes {
    /// The one of a table that is not cached. Nobody holds it.
    pub const OF_NO_CACHE: Stripes =
        Stripes { mark: 0, count: NonZeroU32::MIN, by_remainder: false };

    /// The stripe of a key, as the extension computes it.
    pub fn of(&self, key: &Key) -> Stripe {
        let count = self.count.get();
        match key.values() {
            [KeyValue::Integer(number)] if self.by_remainder => {
                let remainder = number.rem_euclid(i64::from(count));
                Stripe(u32::try_from(remainder).unwrap_or_default())
            }
            values => Stripe(hash(values) % count),
        }
    }

    /// The key of krl of a stripe.
    pub fn key_of_krl(&self, stripe: Stripe) -> u64 {
        u64::from(self.mark) + 1 + u64::from(stripe.0)
    }

    /// The stripe whose key of krl this is.
    pub fn at(&self, key_of_krl: u64) -> Option<Stripe> {
        let place = key_of_krl.checked_sub(u64::from(self.mark) + 1)?;
        let place = u32::try_from(place).ok()?;
        (place < self.count.get()).then_some(Stripe(place))
    }
}

fn hash(values: &[KeyValue]) -> u32 {
    let take = |hash: u32, byte: u8| (hash ^ u32::from(byte)).wrapping_mul(HASH_PRIME);
    let mut hash = HASH_OFFSET;
    for (place, value) in values.iter().enumerate() {
        if place > 0 {
            hash = take(hash, SEPARATOR);
        }
        hash = value.text().bytes().fold(hash, take);
    }
    hash
}

impl fmt::Display for KeyValue {
    fn fmt(&self, f: &mut fmt::Formatter<'_>) -> fmt::Result {
        match self {
            KeyValue::Integer(number) => number.fmt(f),
            KeyValue::Text(text) => f.write_str(text),
            KeyValue::Uuid(bytes) => {
                for (place, byte) in bytes.iter().enumerate() {
                    if matches!(place, 4 | 6 | 8 | 10) {
                        f.write_char('-')?;
                    }
                    write!(f, "{byte:02x}")?;
                }
                Ok(())
            }
        }
    }
}

impl fmt::Display for Key {
    fn fmt(&self, f: &mut fmt::Formatter<'_>) -> fmt::Result {
        match &self.0 {
            Values::One(value) => value.fmt(f),
            Values::Several(values) => {
                let texts: Vec<_> = values.iter().map(KeyValue::text).collect();
                write!(f, "({})", texts.join(", "))
            }
        }
    }
}

impl From<KeyValue> for Key {
    fn from(value: KeyValue) -> Key {
        Key(Values::One(value))
    }
}

/// Values of these types are values of a key, and keys of one column.
macro_rules! key_values {
    ($($from:ty => $variant:ident),*) => {$(
        impl From<$from> for KeyValue {
            fn from(value: $from) -> KeyValue {
                KeyValue::$variant(value.into())
            }
        }

        impl From<$from> for Key {
            fn from(value: $from) -> Key {
                KeyValue::from(value).into()
            }
        }
    )*};
}

key_values!(i16 => Integer, i32 => Integer, i64 => Integer, &str => Text, String => Text);
key_values!([u8; 16] => Uuid);

impl<A: Into<KeyValue>, B: Into<KeyValue>> From<(A, B)> for Key {
    fn from((first, second): (A, B)) -> Key {
        Key::new(vec![first.into(), second.into()])
    }
}

impl<A: Into<KeyValue>, B: Into<KeyValue>, C: Into<KeyValue>> From<(A, B, C)> for Key {
    fn from((first, second, third): (A, B, C)) -> Key {
        Key::new(vec![first.into(), second.into(), third.into()])
    }
}

#[cfg(test)]
mod tests {
    use super::*;

    const MOST_STRIPES: u32 = (1 << 20) - 2;
    const UUID: [u8; 16] = [
        0xa0, 0xee, 0xbc, 0x99, 0x9c, 0x0b, 0x4e, 0xf8, 0xbb, 0x6d, 0x6b, 0xb9, 0xbd, 0x38, 0x0a,
        0x11,
    ];

    fn stripes(count: u32, by_remainder: bool) -> Stripes {
        Stripes { mark: 95, count: NonZeroU32::new(count).unwrap(), by_remainder }
    }

    /// `hosts/pgext/sql/cache.sql` has the same keys and stripes.
    #[test]
    fn the_stripe_of_a_key_that_is_no_integer_is_that_of_the_extension() {
        let cases: [(Key, u32, u32); 11] = [
            ("".into(), MOST_STRIPES, 830_951),
            ("a".into(), MOST_STRIPES, 804_268),
            (("a", "b").into(), MOST_STRIPES, 329_745),
            (("ab", "").into(), MOST_STRIPES, 538_391),
            (("", "ab").into(), MOST_STRIPES, 1_002_665),
            ("lamp".into(), 4096, 3899),
            ("Gl\u{fc}hlampe".into(), 4096, 2356),
            (UUID.into(), MOST_STRIPES, 639_083),
            (("at", UUID).into(), MOST_STRIPES, 285_327),
            ((-7, "lamp").into(), MOST_STRIPES, 609_602),
            ((i64::MIN, "x", "y").into(), MOST_STRIPES, 442_952),
        ];
        for (key, count, expected) in cases {
            assert_eq!(stripes(count, false).of(&key), Stripe(expected), "{key}");
        }
    }

    #[test]
    fn the_stripes_of_integers_are_in_the_order_of_the_keys() {
        let stripes = stripes(16, true);
        for (key, expected) in [(0, 0), (15, 15), (16, 0), (-1, 15), (-16, 0), (i64::MIN, 0)] {
            assert_eq!(stripes.of(&Key::from(key)), Stripe(expected), "{key}");
        }
    }

    #[test]
    fn a_stripe_is_a_key_of_krl() {
        let stripes = stripes(16, true);
        assert_eq!(stripes.key_of_krl(Stripe(15)), 111);
        let found = [95, 96, 111, 112].map(|key| stripes.at(key));
        assert_eq!(found, [None, Some(Stripe(0)), Some(Stripe(15)), None]);
    }

    #[test]
    fn a_key_is_written_as_postgresql_writes_it() {
        assert_eq!(Key::from(UUID).to_string(), "a0eebc99-9c0b-4ef8-bb6d-6bb9bd380a11");
        assert_eq!(Key::from((1, "b", UUID)).values().len(), 3);
        assert_eq!(Key::new(vec![KeyValue::Integer(5)]), Key::from(5));
    }
}
