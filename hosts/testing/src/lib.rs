//! What the tests of the hosts share: programs that they start, relays that fail, and certificates.
//!
//! Nothing here knows krl. So each package of this workspace may use it, its unit tests too, and an
//! address comes as whatever type is parsed from it.
#![allow(
    clippy::missing_errors_doc,
    clippy::missing_panics_doc,
    clippy::must_use_candidate,
    reason = "a test that can't continue panics"
)]
#[cfg(feature = "certificates")]
pub mod authority;
pub mod c_programs;
#[cfg(feature = "certificates")]
pub mod certificates;
#[cfg(feature = "cluster")]
pub mod cluster;
#[cfg(feature = "database")]
pub mod database;
pub mod etcd_relay;
pub mod header;
pub mod ports;
pub mod relay;
pub mod wake_count;

/// An address of this text, of a type of the package whose test asks.
#[cfg(any(feature = "cluster", feature = "database"))]
fn parsed<Address: std::str::FromStr>(text: &str) -> Address {
    text.parse().unwrap_or_else(|_| panic!("{text} is no such address"))
}
