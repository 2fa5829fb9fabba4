//! Ranges of keys, as callers name them.
use crate::call::error::ErrorKind;
use std::ops::{Bound, Range, RangeBounds};

/// One past the last point: a range ends here at most.
const TOP: u64 = 1 << 63;

/// The keys of a range, from the first one on below the end. A range without a start begins at 0,
/// and one without an end has all keys.
pub(crate) fn keys_of(range: &impl RangeBounds<u64>) -> Result<Range<u64>, ErrorKind> {
    let start = match range.start_bound() {
        Bound::Included(first) => Some(*first),
        Bound::Excluded(before) => before.checked_add(1),
        Bound::Unbounded => Some(0),
    };
    let end = match range.end_bound() {
        Bound::Included(last) => last.checked_add(1),
        Bound::Excluded(end) => Some(*end),
        Bound::Unbounded => Some(TOP),
    };
    match (start, end) {
        (Some(start), Some(end)) if start <= end && end <= TOP => Ok(start..end),
        _ => Err(ErrorKind::BadRange),
    }
}

#[cfg(test)]
mod tests {
    use super::*;

    #[test]
    fn each_kind_of_range() {
        assert_eq!(keys_of(&(3..5)), Ok(3..5));
        assert_eq!(keys_of(&(3..=5)), Ok(3..6));
        assert_eq!(keys_of(&(3..)), Ok(3..TOP));
        assert_eq!(keys_of(&(..5)), Ok(0..5));
        assert_eq!(keys_of(&..), Ok(0..TOP));
        assert_eq!(keys_of(&(Bound::Excluded(3), Bound::Included(5))), Ok(4..6));
    }

    #[test]
    fn an_empty_range_is_a_range_and_a_reversed_one_is_none() {
        assert_eq!(keys_of(&(5..5)), Ok(5..5));
        assert_eq!(keys_of(&(TOP..)), Ok(TOP..TOP));
        let (greater, smaller) = (5, 4);
        assert_eq!(keys_of(&(greater..smaller)), Err(ErrorKind::BadRange));
    }

    #[test]
    fn ends_beyond_the_keys_are_refused() {
        assert_eq!(keys_of(&(0..TOP)), Ok(0..TOP));
        assert_eq!(keys_of(&(0..=TOP)), Err(ErrorKind::BadRange));
        assert_eq!(keys_of(&(0..=u64::MAX)), Err(ErrorKind::BadRange));
        assert_eq!(keys_of(&(u64::MAX..)), Err(ErrorKind::BadRange));
        assert_eq!(
            keys_of(&(Bound::Excluded(u64::MAX), Bound::Unbounded)),
            Err(ErrorKind::BadRange)
        );
    }
}
