//! The room of a server that starts, and the room that its store keeps.
use crate::model::change::Change;
use crate::model::room::Room;
use crate::model::snapshot::Snapshot;
use crate::server::error::ServeError;

/// The room of a server that starts.
#[derive(Clone, Copy, Debug, PartialEq, Eq)]
pub(crate) struct RoomAtStart {
    /// The room of this server.
    pub room: Room,
    /// The greatest room that a server had over this store, this one included.
    pub greatest: Room,
}

impl RoomAtStart {
    /// The room of a server that is given this one, or none: then it is the one that the store
    /// keeps, so that no insert is refused because somebody forgot to give it.
    ///
    /// # Errors
    ///
    /// `MoreRows` if the store has more rows.
    pub fn of(store: &Snapshot, given: Option<Room>) -> Result<RoomAtStart, ServeError> {
        let (rows, kept) = (store.rows.len(), store.kept_room());
        let room = given.or(kept).unwrap_or_default();
        if rows > room.rows() {
            return Err(ServeError::MoreRows { rows, room });
        }
        let greatest = kept.map_or(room, |kept| kept.max(room));
        Ok(RoomAtStart { room, greatest })
    }

    /// What the start has to commit, if the store does not keep the greatest room yet.
    pub fn change(&self, store: &Snapshot) -> Option<Change> {
        (store.room != Some(self.greatest)).then_some(Change::Room(self.greatest))
    }
}

#[cfg(test)]
mod tests {
    use super::*;
    use crate::model::row::Value;

    fn room(rows: usize) -> Room {
        Room::of(rows).unwrap()
    }

    /// A store with this many rows that keeps this room, if any.
    fn store(rows: u64, kept: Option<usize>) -> Snapshot {
        let rows = (0..rows).map(|key| (key, Value::from(key))).collect();
        Snapshot { epoch: 1, rows, room: kept.map(room), ..Snapshot::default() }
    }

    /// The room of a server and the greatest one, if it starts.
    fn start(store: &Snapshot, given: Option<usize>) -> Result<(usize, usize), String> {
        let start = RoomAtStart::of(store, given.map(room)).map_err(|error| error.to_string())?;
        Ok((start.room.rows(), start.greatest.rows()))
    }

    #[test]
    fn a_new_store_takes_any_room() {
        let new = Snapshot::default();
        assert_eq!(new.kept_room(), None);
        assert_eq!(start(&new, None), Ok((65_536, 65_536)));
        assert_eq!(start(&new, Some(3)), Ok((3, 3)));
        assert_eq!(start(&new, Some(1_000_000)), Ok((1_000_000, 1_000_000)));
    }

    #[test]
    fn a_server_that_is_given_no_room_has_the_one_that_is_kept() {
        for kept in [3, 65_536, 1_000_000] {
            assert_eq!(start(&store(3, Some(kept)), None), Ok((kept, kept)));
        }
    }

    #[test]
    fn the_greatest_room_stays_kept() {
        let kept = store(3, Some(100));
        assert_eq!(start(&kept, Some(3)), Ok((3, 100)));
        assert_eq!(start(&kept, Some(100)), Ok((100, 100)));
        assert_eq!(start(&kept, Some(101)), Ok((101, 101)));
    }

    #[test]
    fn a_store_with_more_rows_is_refused_with_both_numbers() {
        for kept in [None, Some(3), Some(100)] {
            let refused = start(&store(3, kept), Some(2)).unwrap_err();
            let expected =
                "the store has 3 rows, and the server room for 2: give it room for 3 or more";
            assert!(refused.contains(expected), "{refused}");
        }
    }

    #[test]
    fn a_store_of_before_it_was_kept_has_the_standard_room_or_what_its_rows_need() {
        assert_eq!(start(&store(3, None), None), Ok((65_536, 65_536)));
        assert_eq!(start(&store(3, None), Some(3)), Ok((3, 65_536)));
        assert_eq!(start(&store(70_000, None), None), Ok((70_000, 70_000)));
        let served_by_nobody = Snapshot { epoch: 0, ..store(70_000, None) };
        assert_eq!(start(&served_by_nobody, None), Ok((70_000, 70_000)));
    }

    #[test]
    fn a_start_commits_the_room_if_the_store_does_not_keep_it_yet() {
        let change = |kept, given: Option<usize>| {
            let store = store(3, kept);
            RoomAtStart::of(&store, given.map(room)).unwrap().change(&store)
        };
        assert_eq!(change(Some(100), None), None);
        assert_eq!(change(Some(100), Some(3)), None);
        assert_eq!(change(Some(100), Some(101)), Some(Change::Room(room(101))));
        assert_eq!(change(None, Some(3)), Some(Change::Room(Room::default())));
        assert_eq!(change(None, None), Some(Change::Room(Room::default())));
    }
}
