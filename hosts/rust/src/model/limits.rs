//! The limits of the library, as `krl_types.h` has them.

/// For how many rows a server has room by default.
pub const DEFAULT_ROOM: usize = 65_536;

/// The most slots that one grant of a server may take.
pub const MAX_REACH: usize = 128;

/// The most rows that a server may have room for.
pub const MAX_ROOM: usize = 1_048_576;
