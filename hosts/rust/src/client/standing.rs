//! Where the keys of a server are, by the map.

/// Where the keys of a server are, by the map.
#[derive(Clone, Copy, Debug, PartialEq, Eq)]
pub(crate) enum Standing {
    /// At this server: no map is followed.
    Fixed,
    /// At this server, by the map that is followed. The server may be about to start, and the next
    /// map about to come.
    Here,
    /// Elsewhere, by a next map.
    Elsewhere,
}
