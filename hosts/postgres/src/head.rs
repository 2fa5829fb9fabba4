//! The head: the one row that every commit compares, and sets again. It is the fence, and a format.
use crate::store::strange;
use krl::store::fence::{Failure, Fence};
use std::ops::RangeInclusive;
use tokio_postgres::Row;

/// The formats of the tables that this version reads. What it commits makes them of the last one,
/// as `sql::COMMIT` does. Formats 1 and 2 have no shard, and format 1 has no room.
const FORMATS: RangeInclusive<u64> = 1..=3;

/// The fence of a row of `epoch, owner, transaction, commits, format`, if it is one that a server
/// of this version sets.
pub(crate) fn fence_of(row: &Row) -> Option<Fence> {
    let number = |at: usize| row.try_get(at).ok().map(i64::cast_unsigned);
    number(4).filter(|format| FORMATS.contains(format))?;
    let owner: &str = row.try_get(1).ok()?;
    Some(Fence {
        epoch: number(0)?,
        owner: u128::from_str_radix(owner, 16).ok()?,
        transaction: number(2)?,
        commits: number(3)?,
    })
}

/// Why no store is loaded of whose row [`fence_of`] makes nothing.
pub(crate) fn no_fence(row: &Row) -> Failure {
    match row.try_get(4).map(i64::cast_unsigned) {
        Ok(later) if later > *FORMATS.end() => Failure::Refused(format!(
            "the store has version {later}, and this program reads versions up to {}",
            FORMATS.end()
        )),
        _ => strange("head"),
    }
}

/// The bits of a start as they are stored: 32 hexadecimal digits.
pub(crate) fn owner_text(owner: u128) -> String {
    format!("{owner:032x}")
}
