//! How long clients may answer from their caches, by which clock, and when a server ends that.
pub(crate) mod boot_clock;
pub(crate) mod clocks;
pub(crate) mod of_client;
pub(crate) mod of_server;
pub(crate) mod terms;
