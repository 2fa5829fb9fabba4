//! Reads tables of PostgreSQL from memory while any SQL writes them, and no read is stale.
//!
//! The database has the extension `krl` (`hosts/pgext`). A read from memory returns what a `SELECT`
//! would return at one moment of the call, whoever writes: `psql`, `COPY`, cascades of foreign keys,
//! functions, `TRUNCATE`. It sends nothing: before a transaction commits, the extension has its rows
//! taken back from all readers by krl. `docs/CACHE_PROTOCOL.md` has the protocol and the argument
//! for it. The rules of krl are proved; this crate is tested, and not proved.
//!
//! ```no_run
//! use krl_cache::Cache;
//!
//! let database = "postgres://shop@127.0.0.1/shop".parse()?;
//! let cache = Cache::builder(database, "/var/lib/shop/krl").open()?;
//! let items = cache.table("item")?; // SELECT krl.cache('item') was called once
//! if let Some(lamp) = items.get(15)? {
//!     let (name, price): (&str, Option<i64>) = (lamp.get("name")?, lamp.get("price")?);
//!     println!("{name} for {price:?}");
//! }
//! let shelf = items.range(10..20)?; // rows of one moment
//! let some = items.get_many([3, 15, 77])?;
//! println!("{:?}", items.statistics());
//! cache.close();
//! # Ok::<(), Box<dyn std::error::Error>>(())
//! ```
//!
//! # Keys
//!
//! Rows are read by the columns that `krl.cache` was given: by default the primary key. An integer
//! is a key of a column of type `smallint`, `integer` or `bigint`; a text one of `text` or
//! `varchar`; sixteen bytes are one of `uuid`; and tuples, or [`Key::new`], are keys of several
//! columns. That a key has no row is kept in memory too. A text is a key only in a database whose
//! encoding is UTF8.
//!
//! # What a miss costs
//!
//! A read of what is not in memory is answered by the database, in one round trip, as if there were
//! no cache. A thread of the cache then holds the row's stripe in krl, asks the database whether a
//! transaction is about to change it, and loads the row to keep it. A row whose stripe is held
//! already is kept at once, with that one round trip. With a miss the thread loads again what was
//! read before others took it back, of up to 32 stripes. A stripe that is taken back again and
//! again before its rows were read is held less and less often, until it has been read.
//!
//! # What is away
//!
//! If krl, the extension or a writer does not answer, the database answers each read, and nothing is
//! kept: [`Table::fault`] reports why. A call fails only if the database does. Rows in memory are
//! returned while this process's lease lasts, also while the database is away.
//!
//! # Threads
//!
//! All calls may be made from several threads at once. They wait for the database in runtimes of
//! their own, and so panic on a thread on which a runtime of tokio runs: there, call them from
//! `spawn_blocking`.
mod cache;
mod definition;
mod error;
mod fault_note;
mod held;
mod key;
mod loader;
mod locks;
mod memory;
mod row;
mod rows;
mod session;
mod shared;
mod sql;
mod statistics;
mod table;
mod worth;

pub use cache::{Cache, CacheBuilder};
pub use error::ReadError;
pub use key::{Key, KeyValue};
pub use row::{Column, Row};
pub use statistics::Statistics;
pub use table::Table;

/// Where a database is.
pub use krl_postgres::{BadPostgresAddress, PostgresAddress};
/// What a column is converted by.
pub use tokio_postgres;
