//! Several servers, each with a part of the keys.
pub(crate) mod batch;
pub(crate) mod map;
mod map_change;
#[cfg(feature = "map-file")]
pub(crate) mod map_file;
pub(crate) mod one_moment;
