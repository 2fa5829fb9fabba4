//! A batch as bytes: its changes one after the other, each as its kind and what the kind has. Numbers
//! are little-endian.
use crate::model::change::{Change, Outcome, Write};
use crate::model::client_set::ClientSet;
use crate::model::lease_record::LeaseRecord;
use crate::model::room::Room;
use crate::model::row::{Row, Value};
use crate::store::StoreError;
use crate::store::sqlite::signed;

const REGISTERED: u8 = 1;
const LEFT: u8 = 2;
const INSERTED: u8 = 3;
const WAS_PUT: u8 = 4;
const DELETED: u8 = 5;
const LEASED: u8 = 6;
const ROOM: u8 = 7;

/// A judged put has this many bytes at most.
const CHANGE_BYTES: usize = 52;

/// The bytes of a batch without a start.
pub(super) fn to_bytes(changes: &[Change]) -> Result<Vec<u8>, StoreError> {
    let mut bytes = Vec::with_capacity(CHANGE_BYTES * changes.len());
    changes.iter().try_for_each(|change| put_change(&mut bytes, change))?;
    Ok(bytes)
}

fn put_change(bytes: &mut Vec<u8>, change: &Change) -> Result<(), StoreError> {
    match *change {
        Change::Registered { client, incarnation } => {
            bytes.extend([REGISTERED, client]);
            put_number(bytes, incarnation)
        }
        Change::Left { client } => {
            bytes.extend([LEFT, client]);
            Ok(())
        }
        Change::Judged { client, number, write, outcome } => {
            let outcome = outcome.tag().to_le_bytes()[0];
            bytes.extend([kind_of(&write), client, outcome]);
            put_number(bytes, number)?;
            put_write(bytes, &write)
        }
        Change::Leased(LeaseRecord { longest, unleased }) => {
            bytes.push(LEASED);
            put_number(bytes, longest)?;
            bytes.extend(unleased.bits().to_le_bytes());
            Ok(())
        }
        Change::Room(room) => {
            bytes.push(ROOM);
            put_number(bytes, room.rows() as u64)
        }
        Change::Started { .. } | Change::Shard(_) => {
            Err(StoreError::failed("the journal has no starts and no shards"))
        }
    }
}

fn kind_of(write: &Write) -> u8 {
    match write {
        Write::Insert(_) => INSERTED,
        Write::Put(_) => WAS_PUT,
        Write::Delete(_) => DELETED,
    }
}

fn put_write(bytes: &mut Vec<u8>, write: &Write) -> Result<(), StoreError> {
    put_number(bytes, write.key())?;
    if let Write::Insert(Row { value, .. }) | Write::Put(Row { value, .. }) = write {
        let value = value.as_bytes();
        // It has 32 bytes at most.
        bytes.push(value.len().to_le_bytes()[0]);
        bytes.extend(value);
    }
    Ok(())
}

/// Each number that is kept lies below 2^63, as in the other tables.
fn put_number(bytes: &mut Vec<u8>, number: u64) -> Result<(), StoreError> {
    bytes.extend(signed(number)?.to_le_bytes());
    Ok(())
}

/// The changes of these bytes, if they are those of a batch.
pub(super) fn from_bytes(mut bytes: &[u8]) -> Option<Vec<Change>> {
    let mut changes = Vec::new();
    while !bytes.is_empty() {
        changes.push(take_change(&mut bytes)?);
    }
    Some(changes)
}

fn take_change(bytes: &mut &[u8]) -> Option<Change> {
    let [kind] = take(bytes)?;
    Some(match kind {
        REGISTERED => {
            Change::Registered { client: take_client(bytes)?, incarnation: take_number(bytes)? }
        }
        LEFT => Change::Left { client: take_client(bytes)? },
        INSERTED | WAS_PUT | DELETED => {
            let client = take_client(bytes)?;
            let [outcome] = take(bytes)?;
            let outcome = Outcome::of_tag(outcome.into())?;
            let number = take_number(bytes)?;
            Change::Judged { client, number, write: take_write(bytes, kind)?, outcome }
        }
        LEASED => {
            let longest = take_number(bytes)?;
            let unleased = ClientSet::of_bits(u64::from_le_bytes(take(bytes)?));
            Change::Leased(LeaseRecord { longest, unleased })
        }
        ROOM => Change::Room(Room::of(usize::try_from(take_number(bytes)?).ok()?).ok()?),
        _ => return None,
    })
}

fn take_write(bytes: &mut &[u8], kind: u8) -> Option<Write> {
    let key = take_number(bytes)?;
    if kind == DELETED {
        return Some(Write::Delete(key));
    }
    let row = Row { key, value: take_value(bytes)? };
    Some(if kind == INSERTED { Write::Insert(row) } else { Write::Put(row) })
}

fn take<const LENGTH: usize>(bytes: &mut &[u8]) -> Option<[u8; LENGTH]> {
    let (first, rest) = bytes.split_first_chunk()?;
    *bytes = rest;
    Some(*first)
}

fn take_client(bytes: &mut &[u8]) -> Option<u8> {
    take(bytes).map(|[client]| client).filter(|client| *client < 64)
}

fn take_number(bytes: &mut &[u8]) -> Option<u64> {
    u64::try_from(i64::from_le_bytes(take(bytes)?)).ok()
}

fn take_value(bytes: &mut &[u8]) -> Option<Value> {
    let [length] = take(bytes)?;
    let (value, rest) = bytes.split_at_checked(length.into())?;
    *bytes = rest;
    Value::try_from(value).ok()
}

#[cfg(test)]
mod tests {
    use super::*;
    use crate::store::sqlite::journal::Journal;
    use crate::store::store_tests::changes;

    #[test]
    fn a_batch_is_read_as_it_was_written_and_nothing_else_is() {
        let mut taken = changes();
        taken.retain(|change| Journal::takes(&[*change]));
        let ends = |count: usize| to_bytes(&taken[..count]).unwrap().len();
        let ends: Vec<usize> = (0..=taken.len()).map(ends).collect();
        let bytes = to_bytes(&taken).unwrap();
        for length in 0..=bytes.len() {
            let whole = ends.iter().position(|end| *end == length);
            let expected = whole.map(|count| taken[..count].to_vec());
            assert_eq!(from_bytes(&bytes[..length]), expected, "{length} bytes");
        }
        assert!(to_bytes(&[Change::Started { epoch: 1 }]).is_err());
        assert!(to_bytes(&[Change::Registered { client: 1, incarnation: 1 << 63 }]).is_err());
    }

    #[test]
    fn bytes_that_no_batch_has_are_refused() {
        let row =
            |outcome, length| [&[WAS_PUT, 1, outcome][..], &[0; 16], &[length], &[0; 33]].concat();
        assert!(from_bytes(&row(1, 32)[..52]).is_some());
        let zeros = [0; 8];
        for bad in [
            vec![0, 1],
            vec![8, 1],
            vec![LEFT, 64],
            [&[REGISTERED, 1][..], &[0, 0, 0, 0, 0, 0, 0, 0x80]].concat(),
            [&[ROOM][..], &zeros].concat(),
            row(6, 32)[..52].to_vec(),
            row(1, 33),
        ] {
            assert_eq!(from_bytes(&bad), None, "{bad:?}");
        }
    }
}
