//! The words of `reshard`.
use crate::commands::reshard;
use crate::settings::{StorePlace, TlsOptions};
use clap::{Args, Subcommand};
use krl::Servers;
use std::path::{PathBuf, absolute};

/// A change of shards.
#[derive(Debug, Subcommand)]
pub enum LiveChange {
    /// Cut a shard in two at a key
    Split {
        /// The store of the shard
        store: StorePlace,
        /// The first key that moves
        #[arg(value_parser = reshard::cut)]
        at: u64,
        /// The new store
        new_store: StorePlace,
        /// Where the new store will be served, as in a map
        #[arg(long, value_name = "ADDRESS")]
        servers: Servers,
        /// Make the new store even if no row moves to it
        #[arg(long)]
        allow_empty: bool,
        #[command(flatten)]
        live: LiveOptions,
    },
    /// Make one shard of two neighbors, at the place of the lower one
    Merge {
        /// The store of the shard with the lower keys
        lower: StorePlace,
        /// The store of the shard with the greater keys
        upper: StorePlace,
        /// The new store
        new_store: StorePlace,
        /// Where the upper one of the two shards begins
        #[arg(long, value_name = "KEY", value_parser = reshard::cut)]
        at: u64,
        #[command(flatten)]
        live: LiveOptions,
    },
    /// Move a shard to another server
    Move {
        /// The store of the shard
        store: StorePlace,
        /// The new store
        new_store: StorePlace,
        /// Where the shard begins
        #[arg(long, value_name = "KEY")]
        first: u64,
        /// Where the new store will be served, as in a map
        #[arg(long, value_name = "ADDRESS")]
        servers: Servers,
        #[command(flatten)]
        live: LiveOptions,
    },
}

/// By what servers and clients learn of a change.
#[derive(Debug, Args)]
pub struct LiveOptions {
    /// The map that clients follow. It is replaced. What was begun is noted next to it, in a file
    /// with .changes at the end of its name
    #[arg(long, value_name = "FILE")]
    pub map: PathBuf,
    /// A command that gives the next map to other machines. It is run before the file is replaced:
    /// `KRL_MAP` names a file with the next map, and `KRL_MAP_BEFORE` the one that is replaced
    #[arg(long, value_name = "COMMAND")]
    pub publish: Option<String>,
    /// The status port of a server whose shard changes. A merge has two
    #[arg(long, value_name = "ADDRESS", required = true)]
    pub status: Vec<String>,
    #[command(flatten)]
    pub tls: TlsOptions,
    /// A command that stops the servers of the shards that change
    #[arg(long, value_name = "COMMAND")]
    pub stop: String,
    /// A command that starts them again
    #[arg(long, value_name = "COMMAND")]
    pub start: String,
    /// A command that starts the server of the new store
    #[arg(long, value_name = "COMMAND")]
    pub start_new: String,
    /// How many seconds clients may take to leave. A dead one counts as left when its lease ends
    #[arg(long, value_name = "SECONDS", default_value_t = 60)]
    pub wait: u64,
    /// Take back what a command with the same words has begun, if no store has changed yet, and start
    /// the old servers
    #[arg(long)]
    pub undo: bool,
}

impl LiveChange {
    pub fn live(&self) -> &LiveOptions {
        match self {
            LiveChange::Split { live, .. }
            | LiveChange::Merge { live, .. }
            | LiveChange::Move { live, .. } => live,
        }
    }

    /// What is asked for, whatever the folder is in which it is asked for, without how it is done.
    pub fn words(&self) -> String {
        match self {
            LiveChange::Split { store, at, new_store, servers, .. } => {
                let (store, new) = (whole(store), whole(new_store));
                format!("split {store} {at} {new} --servers {servers}")
            }
            LiveChange::Merge { lower, upper, new_store, at, .. } => {
                let [lower, upper, new] = [lower, upper, new_store].map(whole);
                format!("merge {lower} {upper} {new} --at {at}")
            }
            LiveChange::Move { store, new_store, first, servers, .. } => {
                let (store, new) = (whole(store), whole(new_store));
                format!("move {store} {new} --first {first} --servers {servers}")
            }
        }
    }

    /// A key of each shard that changes.
    pub fn keys(&self) -> Vec<u64> {
        match self {
            LiveChange::Merge { at, .. } => vec![at - 1, *at],
            LiveChange::Split { at: key, .. } | LiveChange::Move { first: key, .. } => vec![*key],
        }
    }
}

/// Where a store is, from any folder.
fn whole(place: &StorePlace) -> String {
    match place {
        StorePlace::File(path) => absolute(path).unwrap_or(path.clone()).display().to_string(),
        place => place.to_string(),
    }
}
