//! Values as words.
//!
//! What is printed reads back: a value that is shown in a form is the value that the form reads.
use krl::Value;
use std::fmt::{self, Write};

/// How a value without a prefix is read, and how values are shown.
#[derive(Clone, Copy, Debug, PartialEq, Eq)]
pub enum ValueForm {
    /// Text. What is not text is shown with a prefix.
    Text,
    /// Hexadecimal digits.
    Hex,
    /// Numbers of eight bytes, the highest first, and `x` with hexadecimal digits for everything
    /// else, as the scripts of krl have them.
    Number,
}

/// A word that is not a value: why, and what is expected.
#[derive(Clone, Debug, PartialEq, Eq)]
pub struct BadValue(String);

impl fmt::Display for BadValue {
    fn fmt(&self, f: &mut fmt::Formatter<'_>) -> fmt::Result {
        f.write_str(&self.0)
    }
}

impl std::error::Error for BadValue {}

const TEXT: &str = "text:";
const HEX: &str = "hex:";
const NUMBER: &str = "u64:";

impl ValueForm {
    /// Each form.
    pub(crate) const ALL: [ValueForm; 3] = [ValueForm::Text, ValueForm::Hex, ValueForm::Number];

    /// The value of a word.
    ///
    /// # Errors
    ///
    /// If it is not a word of this form, or has more than 32 bytes.
    pub fn read(self, word: &str) -> Result<Value, BadValue> {
        let bytes = self.bytes_of(word)?;
        Value::try_from(&bytes[..]).map_err(|_| {
            BadValue(format!("a value has at most 32 bytes, and '{word}' has {}", bytes.len()))
        })
    }

    fn bytes_of(self, word: &str) -> Result<Vec<u8>, BadValue> {
        if let Some(text) = word.strip_prefix(TEXT) {
            return Ok(text.into());
        }
        if let Some(digits) = word.strip_prefix(HEX) {
            return bytes_of_digits(digits, word);
        }
        if let Some(digits) = word.strip_prefix(NUMBER) {
            return bytes_of_number(digits, word);
        }
        match self {
            ValueForm::Text => Ok(word.into()),
            ValueForm::Hex => bytes_of_digits(word, word),
            ValueForm::Number => match word.strip_prefix('x') {
                Some(digits) => bytes_of_digits(digits, word),
                None => bytes_of_number(word, word),
            },
        }
    }

    /// The word that this form reads as the value.
    #[must_use]
    pub fn show(self, value: &Value) -> String {
        let bytes = value.as_ref();
        match (self, number_of(bytes)) {
            (ValueForm::Hex, _) => digits_of(bytes),
            (ValueForm::Number, Some(number)) => number.to_string(),
            (ValueForm::Number, None) => format!("x{}", digits_of(bytes)),
            (ValueForm::Text, number) => match (plain_text(bytes), number) {
                (Some(text), _) if has_prefix(text) => format!("{TEXT}{text}"),
                (Some(text), _) => text.into(),
                (None, Some(number)) => format!("{NUMBER}{number}"),
                (None, None) => format!("{HEX}{}", digits_of(bytes)),
            },
        }
    }
}

/// The hexadecimal digits of the bytes.
#[must_use]
pub fn digits_of(bytes: &[u8]) -> String {
    bytes.iter().fold(String::new(), |mut digits, byte| {
        // A string takes all that is written to it.
        let _ = write!(digits, "{byte:02x}");
        digits
    })
}

fn has_prefix(text: &str) -> bool {
    [TEXT, HEX, NUMBER].iter().any(|prefix| text.starts_with(prefix))
}

/// The text of the bytes, if it is one and moves no terminal's cursor.
fn plain_text(bytes: &[u8]) -> Option<&str> {
    let text = std::str::from_utf8(bytes).ok()?;
    (!text.chars().any(char::is_control)).then_some(text)
}

fn number_of(bytes: &[u8]) -> Option<u64> {
    bytes.try_into().ok().map(u64::from_be_bytes)
}

fn bytes_of_number(digits: &str, word: &str) -> Result<Vec<u8>, BadValue> {
    let is_number = !digits.is_empty() && digits.bytes().all(|digit| digit.is_ascii_digit());
    let number = digits.parse::<u64>().ok().filter(|_| is_number);
    let number = number.ok_or_else(|| {
        BadValue(format!("'{word}' is not a value: a number from 0 to 2^64 - 1 is expected"))
    })?;
    Ok(number.to_be_bytes().into())
}

fn bytes_of_digits(digits: &str, word: &str) -> Result<Vec<u8>, BadValue> {
    let pairs = digits.as_bytes().chunks(2);
    let bytes: Option<Vec<u8>> = pairs.map(byte_of_pair).collect();
    bytes.ok_or_else(|| {
        let expected = "an even number of hexadecimal digits is expected";
        BadValue(format!("'{word}' is not a value: {expected}"))
    })
}

fn byte_of_pair(pair: &[u8]) -> Option<u8> {
    let [high, low] = pair else { return None };
    let digit = |byte: u8| char::from(byte).to_digit(16);
    u8::try_from(16 * digit(*high)? + digit(*low)?).ok()
}

#[cfg(test)]
mod tests {
    use super::*;

    const FORMS: [ValueForm; 3] = [ValueForm::Text, ValueForm::Hex, ValueForm::Number];

    fn shown(form: ValueForm, word: &str) -> String {
        form.show(&form.read(word).unwrap())
    }

    #[test]
    fn what_is_shown_reads_back() {
        let samples: [&[u8]; 12] = [
            b"",
            b"one",
            b"two words",
            b"eight by",
            b"text:a",
            b"hex:ca",
            b"u64:5",
            b"x",
            b"\0\0\0\0\0\0\0\x05",
            b"\n",
            &[0xca, 0xfe],
            &[0xff; 32],
        ];
        for form in FORMS {
            for bytes in samples {
                let value = Value::try_from(bytes).unwrap();
                let word = form.show(&value);
                assert_eq!(form.read(&word).unwrap(), value, "{form:?} {word}");
            }
        }
    }

    #[test]
    fn each_form_shows_what_it_reads() {
        assert_eq!(shown(ValueForm::Text, "one"), "one");
        assert_eq!(shown(ValueForm::Text, "hex:6f6e65"), "one");
        assert_eq!(shown(ValueForm::Text, "hex:cafe"), "hex:cafe");
        assert_eq!(shown(ValueForm::Text, "u64:5"), "u64:5");
        assert_eq!(shown(ValueForm::Text, "text:hex:ca"), "text:hex:ca");
        assert_eq!(shown(ValueForm::Text, "hex:1b5b324a"), "hex:1b5b324a");
        assert_eq!(shown(ValueForm::Hex, "CAFE"), "cafe");
        assert_eq!(shown(ValueForm::Hex, "text:one"), "6f6e65");
        assert_eq!(shown(ValueForm::Number, "258"), "258");
        assert_eq!(shown(ValueForm::Number, "x0000000000000102"), "258");
        assert_eq!(shown(ValueForm::Number, "xcafe"), "xcafe");
    }

    #[test]
    fn bad_words_are_reported() {
        let fails = |form: ValueForm, word: &str| form.read(word).unwrap_err().to_string();
        assert!(fails(ValueForm::Text, "hex:abc").contains("even number of hexadecimal digits"));
        assert!(fails(ValueForm::Text, "hex:+1").contains("'hex:+1' is not a value"));
        assert!(fails(ValueForm::Text, "u64:").contains("a number from 0 to 2^64 - 1"));
        assert!(fails(ValueForm::Number, "+5").contains("'+5' is not a value"));
        assert!(fails(ValueForm::Number, "18446744073709551616").contains("2^64 - 1"));
        assert!(fails(ValueForm::Hex, "one").contains("'one' is not a value"));
        let long = fails(ValueForm::Text, &"a".repeat(33));
        assert!(long.contains("at most 32 bytes") && long.ends_with("has 33"), "{long}");
    }
}
