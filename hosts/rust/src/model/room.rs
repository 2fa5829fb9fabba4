//! How many rows a server has room for.
use crate::model::limits;
use std::fmt;
use std::str::FromStr;

/// How many rows a server has room for, from 1 to 1,048,576. An insert into a table that has that
/// many is judged `Full`.
///
/// As text it is that number.
#[derive(Clone, Copy, Debug, PartialEq, Eq, PartialOrd, Ord)]
pub struct Room(usize);

/// A number of rows that no server has room for: 0, or more than 1,048,576.
#[derive(Clone, Copy, Debug, PartialEq, Eq)]
pub struct BadRoom;

impl Room {
    /// The greatest room: for 1,048,576 rows.
    pub const MAX: Room = Room(limits::MAX_ROOM);

    /// Room for this many rows.
    ///
    /// # Errors
    ///
    /// `BadRoom` if there are none, or more than 1,048,576.
    pub fn of(rows: usize) -> Result<Room, BadRoom> {
        (1..=limits::MAX_ROOM).contains(&rows).then_some(Room(rows)).ok_or(BadRoom)
    }

    /// The least room for this many rows, or the greatest if no room is enough.
    pub(crate) fn for_rows(rows: usize) -> Room {
        Room(rows.clamp(1, limits::MAX_ROOM))
    }

    /// The most rows.
    #[must_use]
    pub fn rows(self) -> usize {
        self.0
    }
}

impl Default for Room {
    /// Room for 65,536 rows.
    fn default() -> Room {
        Room(limits::DEFAULT_ROOM)
    }
}

impl FromStr for Room {
    type Err = BadRoom;

    fn from_str(text: &str) -> Result<Room, BadRoom> {
        text.parse().map_err(|_| BadRoom).and_then(Room::of)
    }
}

impl fmt::Display for Room {
    fn fmt(&self, f: &mut fmt::Formatter<'_>) -> fmt::Result {
        self.0.fmt(f)
    }
}

impl fmt::Display for BadRoom {
    fn fmt(&self, f: &mut fmt::Formatter<'_>) -> fmt::Result {
        write!(f, "the room of a server is for 1 to {} rows", limits::MAX_ROOM)
    }
}

impl std::error::Error for BadRoom {}

#[cfg(test)]
mod tests {
    use super::*;

    #[test]
    fn a_room_is_for_some_rows_and_for_a_million_at_most() {
        for text in ["1", "65536", "1048576"] {
            assert_eq!(text.parse::<Room>().unwrap().to_string(), text);
        }
        for text in ["", "0", "1048577", "-1", "many", "18446744073709551616"] {
            assert_eq!(text.parse::<Room>(), Err(BadRoom), "{text}");
        }
        assert_eq!(Room::of(1_048_576), Ok(Room::MAX));
    }
}
