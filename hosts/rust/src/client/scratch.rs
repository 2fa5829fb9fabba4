//! Room for the rows of a scan, which each thread uses again.
use crate::model::code::Code;
use crate::model::row::Row;
use std::cell::Cell;

/// Room for this many rows is kept for the next scan.
const MAX_KEPT: usize = 1 << 12;

thread_local! {
    /// Where the rows of this thread's last scan were.
    static ROOM: Cell<Vec<Row>> = const { Cell::new(Vec::new()) };
}

/// A copy of the rows of a scan. A long answer takes the room itself.
pub(crate) fn copied(room: &mut Vec<Row>) -> Result<Vec<Row>, Code> {
    if room.len() > MAX_KEPT {
        return Ok(std::mem::take(room));
    }
    let mut rows = Vec::new();
    rows.try_reserve_exact(room.len()).map_err(|_| Code::OutOfMemory)?;
    rows.extend_from_slice(room);
    Ok(rows)
}

/// Lends the room of this thread. Who asks for it once more meanwhile gets another one, and so does
/// a thread that ends.
pub(crate) fn with_room<T>(work: impl FnOnce(&mut Vec<Row>) -> T) -> T {
    let mut room = ROOM.try_with(Cell::take).unwrap_or_default();
    let done = work(&mut room);
    if room.capacity() <= MAX_KEPT {
        let _ = ROOM.try_with(|kept| kept.set(room));
    }
    done
}

#[cfg(test)]
mod tests {
    use super::*;
    use crate::model::row::Value;

    fn rows(count: usize) -> Vec<Row> {
        (0u64..).map(|key| Row { key, value: Value::from(key) }).take(count).collect()
    }

    #[test]
    fn the_room_of_a_long_answer_is_not_kept() {
        for count in [0, 5, MAX_KEPT, MAX_KEPT + 1] {
            let mut room = rows(count);
            assert_eq!(copied(&mut room), Ok(rows(count)));
            assert_eq!(room.is_empty(), count == 0 || count > MAX_KEPT, "{count}");
        }
    }
}
