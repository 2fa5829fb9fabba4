//! What a table is, and what is known of it: rows, changes, and what a server keeps.
pub(crate) mod change;
pub(crate) mod client_number;
pub(crate) mod client_set;
pub(crate) mod code;
pub(crate) mod history;
pub(crate) mod kept_shard;
pub(crate) mod lease_record;
pub(crate) mod limits;
pub(crate) mod lock;
pub(crate) mod reach;
pub(crate) mod refusal;
pub(crate) mod room;
pub(crate) mod row;
#[cfg(feature = "serde")]
mod serialized;
pub(crate) mod shard_bounds;
pub(crate) mod shard_fence;
pub(crate) mod snapshot;
