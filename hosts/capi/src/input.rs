//! What comes from C: texts, values, ranges and rows.
use crate::code::Code;
use crate::fault::Fault;
use krl::{END, MAX_VALUE_BYTES, Row, Value};
use std::ops::Range;
use std::slice;

/// The greatest end of a range.
const TOP: u64 = END + 1;

/// The most rows that a caller may name: a table has fewer, and this many fit into memory.
const MAX_ROWS: usize = 1 << 27;

/// A value of this many bytes. Too many are not looked at.
///
/// # Safety
///
/// `at` points to this many bytes if they are 1 to 32.
pub unsafe fn value(at: *const u8, length: usize) -> Result<Value, Fault> {
    if length == 0 {
        return Ok(Value::default());
    }
    if length > MAX_VALUE_BYTES {
        return Err(too_long(length));
    }
    if at.is_null() {
        return Err(Fault::misuse("the pointer to the bytes of a value is null"));
    }
    // SAFETY: the caller vouches for this many bytes.
    let bytes = unsafe { slice::from_raw_parts(at, length) };
    Value::try_from(bytes).map_err(|_| too_long(length))
}

fn too_long(length: impl std::fmt::Display) -> Fault {
    let what = format!("a value has at most {MAX_VALUE_BYTES} bytes, and this one {length}");
    Fault::new(Code::TooLong, what)
}

/// The range from `lo` on below `hi`.
pub fn range(lo: u64, hi: u64) -> Result<Range<u64>, Fault> {
    if lo <= hi && hi <= TOP {
        return Ok(lo..hi);
    }
    let what = format!(
        "the range from {lo} on below {hi} is none: `lo` is at most `hi`, and `hi` at most 2^63"
    );
    Err(Fault::new(Code::BadRange, what))
}

/// The range of one key.
pub fn key(key: u64) -> Result<Range<u64>, Fault> {
    if key < END {
        return Ok(key..key + 1);
    }
    Err(Fault::new(Code::BadKey, format!("a key is below 2^63 - 1, and not {key}")))
}

/// A `krlc_row` of the header, as a caller writes it: its length may be anything.
#[derive(Clone, Copy, Debug)]
#[repr(C)]
#[allow(missing_docs, reason = "the header has it")]
pub struct GivenRow {
    pub key: u64,
    pub length: u64,
    pub bytes: [u8; MAX_VALUE_BYTES],
}

// What the library hands out is a `Row`, and C reads it as this.
const _: () = assert!(
    size_of::<Row>() == size_of::<GivenRow>() && align_of::<Row>() == align_of::<GivenRow>()
);

/// The rows that a caller names.
///
/// # Safety
///
/// `at` points to `count` rows, or `count` is 0 or too great.
pub unsafe fn rows(at: *const GivenRow, count: usize) -> Result<Vec<Row>, Fault> {
    if count == 0 {
        return Ok(Vec::new());
    }
    if at.is_null() || count > MAX_ROWS {
        return Err(Fault::misuse("the pointer to rows is null, or they are more than 2^27"));
    }
    // SAFETY: the caller vouches for this many rows, which are less than half of all memory.
    let given = unsafe { slice::from_raw_parts(at, count) };
    let mut rows = Vec::new();
    let refused = |_| Fault::new(Code::OutOfMemory, "memory was refused");
    rows.try_reserve_exact(count).map_err(refused)?;
    for row in given {
        rows.push(row_of(row)?);
    }
    Ok(rows)
}

/// The row that a caller names.
pub fn row_of(given: &GivenRow) -> Result<Row, Fault> {
    let length = usize::try_from(given.length).ok();
    let bytes = length.and_then(|length| given.bytes.get(..length));
    let value = bytes
        .and_then(|bytes| Value::try_from(bytes).ok())
        .ok_or_else(|| too_long(given.length))?;
    Ok(Row { key: given.key, value })
}

#[cfg(test)]
mod tests {
    use super::*;
    use std::ptr;

    #[test]
    fn ranges_end_at_2_to_the_63() {
        assert_eq!(range(3, 5).unwrap(), 3..5);
        assert_eq!(range(5, 5).unwrap(), 5..5);
        assert_eq!(range(0, TOP).unwrap(), 0..TOP);
        for (lo, hi) in [(5, 4), (0, TOP + 1), (u64::MAX, u64::MAX), (u64::MAX, 0)] {
            assert_eq!(range(lo, hi).unwrap_err().code, Code::BadRange, "{lo} {hi}");
        }
        assert_eq!(key(END - 1).unwrap(), END - 1..END);
        for none in [END, u64::MAX] {
            assert_eq!(key(none).unwrap_err().code, Code::BadKey);
        }
    }

    #[test]
    fn a_value_that_is_too_long_is_not_looked_at() {
        let nowhere = ptr::dangling::<u8>();
        // SAFETY: such lengths are not looked at.
        let looked_at = |at, length| unsafe { value(at, length) };
        assert_eq!(looked_at(ptr::null(), 0).unwrap(), Value::default());
        assert_eq!(looked_at(b"abc".as_ptr(), 3).unwrap().as_bytes(), b"abc");
        assert_eq!(looked_at(nowhere, 33).unwrap_err().code, Code::TooLong);
        assert_eq!(looked_at(nowhere, usize::MAX).unwrap_err().code, Code::TooLong);
        assert_eq!(looked_at(ptr::null(), 1).unwrap_err().code, Code::Misuse);
    }

    #[test]
    fn rows_are_what_c_takes_them_for() {
        let row = Row { key: 7, value: Value::try_from("seven").unwrap() };
        // SAFETY: both are laid out as C has it, and any bytes make this one.
        let given: GivenRow = unsafe { std::mem::transmute(row) };
        assert_eq!((given.key, given.length, &given.bytes[..5]), (7, 5, &b"seven"[..]));
        // SAFETY: there is one row.
        assert_eq!(unsafe { rows(&raw const given, 1) }.unwrap(), [row]);
        let longer = GivenRow { length: 33, ..given };
        // SAFETY: there is one row.
        assert_eq!(unsafe { rows(&raw const longer, 1) }.unwrap_err().code, Code::TooLong);
        // SAFETY: no row is looked at.
        unsafe {
            assert_eq!(rows(ptr::null(), 0).unwrap(), []);
            assert_eq!(rows(ptr::null(), 1).unwrap_err().code, Code::Misuse);
            assert_eq!(rows(&raw const given, usize::MAX).unwrap_err().code, Code::Misuse);
        }
    }
}
