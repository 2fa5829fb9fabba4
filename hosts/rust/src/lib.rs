//! Clients that answer reads of ranges of keys from their caches, and never with stale rows; and
//! the key-range lock server that keeps the rows, over a store.
//!
//! | You want to | Start at |
//! | --- | --- |
//! | read and write rows, and keep what was read | [`Client::connect`], [`ClientBuilder`] |
//! | do the same in tasks of an executor | [`AsyncClient`] |
//! | change several rows at one moment, or hold a range | [`Client::write_all`], [`Client::pin`] |
//! | learn when a range changes | [`Client::changes`] |
//! | read without a number, and keep nothing | [`Reader`] |
//! | use several servers, each with a part of the keys | [`ShardMap`] |
//! | run a server | [`Server::start`], [`ServerBuilder`], [`Listener`] |
//! | decide who may connect, and for which clients | [`Access`], [`Identity`] |
//! | bring a store of your own | [`store`] |
//! | see what a server does, and who holds a range | [`Server::monitor`], [`operate`] |
//! | back up, check and cut a store's file | [`operate`] |
//! | serve a port of your own next to a server's | [`operate`] |
//! | name why something was refused | [`error`] |
//!
//! The protocol's rules are the library's, `krl_embed`, whose functions are proved. This crate is
//! the host around it: it has the sockets, the threads and the disk. Nothing of it is proved.
//! `docs/EMBEDDING.md` describes what a host has to do.
//!
//! ```no_run
//! use krl::{Client, Outcome, Server, SqliteStore, Value};
//!
//! let listener = std::net::TcpListener::bind("127.0.0.1:7400")?;
//! let server = Server::start(listener, SqliteStore::open("table.db")?)?;
//! let client = Client::join(server.address(), 0, "client-0.lock")?;
//! if client.insert(15, Value::from(5))? == Outcome::Exists {
//!     println!("there is a row already");
//! }
//! let rows = client.read(10..20)?;
//! assert_eq!(client.cached(10..20)?, Some(rows)); // no message
//! client.leave()?;
//! # Ok::<(), Box<dyn std::error::Error>>(())
//! ```
//!
//! # Features
//!
//! | Feature | What it adds |
//! | --- | --- |
//! | `sqlite`, by default | the store over SQLite: `SqliteStore` and `operate::StoreFile` |
//! | `tracing`, by default | events for a log |
//! | `spans` | a span of `tracing` around each call of a client that blocks |
//! | `tls` | connections over TLS, with OpenSSL: `TlsConfig` |
//! | `map-file` | maps of shards as files in TOML |
//! | `serde` | `Row`, `Value`, `Status` and others as `serde` has them |
//! | `fence` | what a store needs that several servers may open at once |
//! | `store-tests` | the tests that every store has to pass |
//! | `sans-io` | for the tests of this repository: not stable |
mod access;
mod call;
mod client;
pub mod error;
mod ffi;
#[cfg_attr(not(any(feature = "tls", test)), expect(dead_code, reason = "only TLS reads names"))]
mod identity;
mod lease;
mod log;
mod model;
mod net;
pub mod operate;
mod proved;
#[cfg(feature = "sans-io")]
#[doc(hidden)]
pub mod sans_io;
mod server;
mod shards;
#[cfg(feature = "sans-io")]
#[doc(hidden)]
pub mod simulated;
pub mod store;
mod wire;

pub use access::Access;
pub use call::error::{Error, ErrorKind, JoinError, JoinErrorKind};
pub use call::mutation::{BatchError, Mutation};
pub use client::Client;
pub use client::asynchronous::{AsyncChanges, AsyncClient, AsyncPin};
pub use client::builder::ClientBuilder;
pub use client::changes::Changes;
pub use client::pin::Pin;
pub use client::place::Place;
pub use client::reader::Reader;
pub use client::waiting::Waited;
pub use identity::Identity;
pub use lease::terms::Leases;
pub use model::change::Outcome;
pub use model::row::{END, MAX_VALUE_BYTES, Row, Value};
pub use net::address::Address;
pub use net::servers::Servers;
pub use net::stream::Listener;
#[cfg(feature = "tls")]
pub use net::tls::TlsConfig;
pub use proved::losses::Tenure;
pub use server::Server;
pub use server::builder::ServerBuilder;
pub use shards::map::{Shard, ShardMap};
pub use store::MemoryStore;
#[cfg(feature = "sqlite")]
pub use store::sqlite::SqliteStore;
