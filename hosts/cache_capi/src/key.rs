//! Keys as C names them.
use crate::code::Code;
use crate::fault::Fault;
use krl_cache::{Key, KeyValue};
use std::ffi::c_void;
use std::slice;

/// The most values of the keys of a call: this many fit into memory.
const MAX_VALUES: usize = 1 << 26;

const INTEGER: u32 = 0;
const TEXT: u32 = 1;
const UUID: u32 = 2;

/// A `krlcache_value` of the header, as a caller writes it: each member may be anything.
#[derive(Clone, Copy, Debug)]
#[repr(C)]
#[allow(missing_docs, reason = "the header has it")]
pub struct GivenValue {
    pub kind: u32,
    pub integer: i64,
    pub bytes: *const c_void,
    pub length: usize,
}

/// The key of this many columns.
///
/// # Safety
///
/// `at` points to this many values, or they are too many; and the bytes of each are there.
pub unsafe fn key(at: *const GivenValue, columns: usize) -> Result<Key, Fault> {
    // SAFETY: the caller vouches for the values and their bytes.
    unsafe { key_of(values(at, columns)?) }
}

/// This many keys of this many columns each.
///
/// # Safety
///
/// As for `key`, for the values of all keys.
pub unsafe fn keys(at: *const GivenValue, count: usize, columns: usize) -> Result<Vec<Key>, Fault> {
    if count == 0 {
        return Ok(Vec::new());
    }
    // SAFETY: the caller vouches for the values and their bytes.
    unsafe {
        let values = values(at, count.saturating_mul(columns))?;
        values.chunks_exact(columns).map(|values| key_of(values)).collect()
    }
}

/// # Safety
///
/// As for `key`.
unsafe fn values<'a>(at: *const GivenValue, count: usize) -> Result<&'a [GivenValue], Fault> {
    if count == 0 {
        return Err(Fault::misuse("a key has at least one column"));
    }
    if at.is_null() || count > MAX_VALUES {
        return Err(Fault::misuse("the pointer to a key is null, or the values are over 2^26"));
    }
    // SAFETY: the caller vouches for this many values, which are less than half of all memory.
    Ok(unsafe { slice::from_raw_parts(at, count) })
}

/// # Safety
///
/// The bytes of each value are there.
unsafe fn key_of(given: &[GivenValue]) -> Result<Key, Fault> {
    // SAFETY: the caller vouches for the bytes.
    let value = |given| unsafe { value_of(given) };
    match given {
        [given] => Ok(value(given)?.into()),
        several => Ok(Key::new(several.iter().map(value).collect::<Result<_, _>>()?)),
    }
}

/// # Safety
///
/// As for `key_of`.
unsafe fn value_of(given: &GivenValue) -> Result<KeyValue, Fault> {
    // SAFETY: the caller vouches for the bytes.
    let bytes = || unsafe { bytes_of(given) };
    match given.kind {
        INTEGER => Ok(given.integer.into()),
        TEXT => {
            let text = std::str::from_utf8(bytes()?);
            let text = text.map_err(|_| Fault::misuse("a text of a key is not UTF-8"))?;
            Ok(text.into())
        }
        UUID => {
            let bytes: [u8; 16] = bytes()?.try_into().map_err(|_| {
                let length = given.length;
                Fault::new(Code::BadKey, format!("a UUID has 16 bytes, and this one {length}"))
            })?;
            Ok(bytes.into())
        }
        kind => Err(Fault::misuse(format!("{kind} is not a kind of value: it is 0, 1 or 2"))),
    }
}

/// # Safety
///
/// As for `key_of`.
unsafe fn bytes_of(given: &GivenValue) -> Result<&[u8], Fault> {
    if given.length == 0 {
        return Ok(&[]);
    }
    if given.bytes.is_null() || given.length > isize::MAX.unsigned_abs() {
        return Err(Fault::misuse("the pointer to a text or a UUID is null, or it is too long"));
    }
    // SAFETY: the caller vouches for this many bytes.
    Ok(unsafe { slice::from_raw_parts(given.bytes.cast(), given.length) })
}

#[cfg(test)]
mod tests {
    use super::*;
    use std::ptr;

    fn value(kind: u32, integer: i64, bytes: &[u8]) -> GivenValue {
        GivenValue { kind, integer, bytes: bytes.as_ptr().cast(), length: bytes.len() }
    }

    fn read(values: &[GivenValue]) -> Result<Key, Fault> {
        // SAFETY: the values and their bytes are there.
        unsafe { key(values.as_ptr(), values.len()) }
    }

    #[test]
    fn a_key_has_one_value_or_several() {
        let (fifteen, text) = (value(INTEGER, 15, b""), value(TEXT, 0, b"at"));
        assert_eq!(read(&[fifteen]).unwrap(), Key::from(15));
        assert_eq!(read(&[text]).unwrap(), Key::from("at"));
        assert_eq!(read(&[value(TEXT, 0, b"")]).unwrap(), Key::from(""));
        assert_eq!(read(&[value(UUID, 0, &[7; 16])]).unwrap(), Key::from([7; 16]));
        assert_eq!(read(&[text, fifteen]).unwrap(), Key::from(("at", 15)));
        let values = [text, fifteen, text, fifteen];
        // SAFETY: the values and their bytes are there.
        let both = unsafe { keys(values.as_ptr(), 2, 2) };
        assert_eq!(both.unwrap(), [Key::from(("at", 15)), Key::from(("at", 15))]);
    }

    #[test]
    fn what_is_no_key_is_refused() {
        let nowhere = GivenValue { bytes: ptr::null(), ..value(TEXT, 0, b"at") };
        let endless = GivenValue { length: usize::MAX, ..value(TEXT, 0, b"at") };
        for bad in [nowhere, endless, value(TEXT, 0, b"\xff"), value(3, 0, b"")] {
            assert_eq!(read(&[bad]).unwrap_err().code, Code::Misuse, "{bad:?}");
        }
        for short in [&[7; 15][..], b""] {
            assert_eq!(read(&[value(UUID, 0, short)]).unwrap_err().code, Code::BadKey);
        }
        // SAFETY: no value is looked at.
        unsafe {
            assert_eq!(key(ptr::null(), 1).unwrap_err().code, Code::Misuse);
            assert_eq!(key(ptr::dangling(), 0).unwrap_err().code, Code::Misuse);
            assert_eq!(key(ptr::dangling(), usize::MAX).unwrap_err().code, Code::Misuse);
            assert_eq!(keys(ptr::dangling(), 1 << 40, 1 << 40).unwrap_err().code, Code::Misuse);
            assert_eq!(keys(ptr::dangling(), 1, 0).unwrap_err().code, Code::Misuse);
            assert_eq!(keys(ptr::null(), 0, 0).unwrap(), []);
        }
    }
}
