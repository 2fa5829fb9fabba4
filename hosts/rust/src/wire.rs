//! What is sent on a connection: frames, messages of the library, and frames of the hosts.
pub(crate) mod frames;
pub(crate) mod host_frame;
pub(crate) mod incoming;
pub(crate) mod lease_frame;
pub(crate) mod message;
mod numbers;
pub(crate) mod read_frame;
pub(crate) mod shard_frame;
