//! A store of krl in etcd, the election of the server that serves from it, and a map of shards there.
//!
//! What survives a server lies in a cluster of etcd, on several machines, and a server on any
//! machine may serve from it. **The store decides which one may**: every transaction compares one
//! key, which each transaction sets again. So if two servers both believe that they serve, the
//! older one's first change is refused, and it ends. No lease, clock or message between servers is
//! needed for that. The [`Election`] only determines when another server should try.
mod address;
mod bucket;
mod call;
mod concerns;
mod create;
mod election;
mod explain;
mod head;
mod lease;
mod map;
mod record;
mod request;
mod store;
mod table;
mod transaction;

pub use address::{BadEtcdAddress, Credentials, EtcdAddress};
pub use election::{Election, ElectionError, Standing, Term};
pub use map::EtcdMap;
pub use store::EtcdStore;
