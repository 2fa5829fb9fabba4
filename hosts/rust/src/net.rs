//! Sockets and TLS, with the addresses that name them.
pub(crate) mod address;
pub(crate) mod carrier;
pub(crate) mod connect_fault;
pub(crate) mod outbox;
pub(crate) mod poller;
pub(crate) mod process;
pub(crate) mod readiness;
pub(crate) mod servers;
pub(crate) mod stream;
#[cfg_attr(not(feature = "tls"), path = "net/no_tls.rs")]
pub(crate) mod tls;
pub(crate) mod unix_peer;
