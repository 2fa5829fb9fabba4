//! What a running server answers at its status port, and how others ask there.
pub mod backup;
pub mod clients;
pub mod http;
pub mod locks;
mod looks;
mod metrics;
mod origin;
pub mod others;
mod page;
mod pages;
pub mod paths;
pub mod port;
mod recent;
mod report;
pub mod shown;
mod tls_stream;
mod visitors;
