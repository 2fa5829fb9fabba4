//! Which shard a file is of.
use super::{has_table, positive, run, signed};
use crate::model::kept_shard::KeptShard;
use crate::model::shard_bounds::ShardBounds;
use crate::store::StoreError;
use rusqlite::{Connection, OptionalExtension, params};
use std::num::NonZeroU64;

const DELETE_OTHERS: &str = "DELETE FROM entry WHERE key < ?1 OR key > ?2";
const WRITE: &str = "INSERT OR REPLACE INTO shard VALUES (0, ?1, ?2, ?3, ?4)";
const READ: &str = "SELECT first, last, version, sealed FROM shard";

/// Removes the rows of other keys, and writes which shard the file is of, if the file may become
/// that.
pub(super) fn write(connection: &Connection, shard: KeptShard) -> Result<(), StoreError> {
    read(connection)?.map_or(Ok(()), |kept| kept.judge_next(shard)).map_err(StoreError::failed)?;
    let KeptShard { bounds, is_sealed } = shard;
    let keys = bounds.keys();
    let (first, last) = (signed(keys.start)?, signed(keys.end - 1)?);
    run(connection, DELETE_OTHERS, params![first, last])?;
    let version = signed(bounds.map_version().get())?;
    run(connection, WRITE, params![first, last, version, is_sealed])
}

/// Which shard the file is of, if it keeps one.
pub(super) fn read(connection: &Connection) -> Result<Option<KeptShard>, StoreError> {
    if !has_table(connection, "shard")? {
        return Ok(None);
    }
    let kept = connection.query_row(READ, [], |row| {
        Ok(([row.get(0)?, row.get(1)?, row.get(2)?], row.get::<_, bool>(3)?))
    });
    let Some((numbers, is_sealed)) = kept.optional()? else { return Ok(None) };
    let bounds = bounds(numbers)?;
    Ok(Some(KeptShard { bounds, is_sealed }))
}

fn bounds([first, last, version]: [i64; 3]) -> Result<ShardBounds, StoreError> {
    let strange = || StoreError::failed("what the store has as its shard is not a shard");
    let version = NonZeroU64::new(positive(version)?).ok_or_else(strange)?;
    ShardBounds::new(positive(first)?..positive(last)? + 1, version).map_err(|_| strange())
}
