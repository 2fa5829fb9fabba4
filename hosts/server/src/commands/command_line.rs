//! The words of the command line.
use super::live_reshard::LiveChange;
use super::map::MapCommand;
use super::next_map::{MergeMap, SplitMap};
use super::options::{LocksOptions, PageOptions, PortOptions};
use crate::settings::{ServeOptions, StorePlace, TlsOptions};
use clap::{Parser, Subcommand};
use clap_complete::Shell;
use krl_cli::Existing;
use std::path::PathBuf;

/// A key-range lock server over a file of SQLite, a cluster of etcd, or PostgreSQL.
#[derive(Debug, Parser)]
#[command(
    name = "krl-server",
    version,
    arg_required_else_help = true,
    max_term_width = 100,
    after_help = STATUSES,
    after_long_help = MORE
)]
pub struct CommandLine {
    /// What to do.
    #[command(subcommand)]
    pub command: Command,
}

/// The help ends with the exit statuses, and the long help with examples too.
macro_rules! statuses_and {
    ($more:literal) => {
        concat!(
            "\
Exit statuses:
  0  it is done; a server that was stopped has shut down cleanly
  1  it failed, and standard error has the reason
  2  the command line, the environment, the configuration file or a certificate is wrong
  3  the store of a server lacks what a client has seen of it: see docs/STORES.md",
            $more
        )
    };
}

const STATUSES: &str = statuses_and!("");

const MORE: &str = statuses_and!(
    "

Examples:
  krl-server serve --create
      Serves krl.db of this folder at 127.0.0.1:7400, and its status at 127.0.0.1:7401. Makes the
      store if there is none
  krl-server serve --listen tls:10.0.0.5:7400 --tls-authority ca.crt --tls-certificate server.crt
      --tls-key server.key
      Serves clients of other machines, which show certificates of the authority
  krl-server serve --config /etc/krl/krl.toml
  krl-server status
  krl-server clients
  krl-server health --ready
  krl-server locks 10 20
  krl-server backup 127.0.0.1:7401 /var/lib/krl/monday.db
  krl-server check /var/lib/krl/monday.db
  krl-server restore /var/lib/krl/monday.db --store /var/lib/krl/krl.db --clients-are-stopped
  krl-server import rows.csv --store /var/lib/krl/krl.db
  krl-server export /var/lib/krl/monday.db
  krl-server check server.crt --days 14
  krl-server split /var/lib/krl/krl.db 500000 /var/lib/krl/upper.db
  krl-server evict 127.0.0.1:7400 3 client-3.lock"
);

#[derive(Debug, Subcommand)]
pub enum Command {
    /// Serve the table of a store until SIGTERM or SIGINT comes
    Serve(ServeOptions),
    /// Print the settings that `serve` would use, and where each comes from
    Config(ServeOptions),
    /// Print the status of a server
    Status(PageOptions),
    /// List the clients: who is connected, since when each is silent, and what it waits for
    #[command(long_about = "\
List the clients: who is connected, since when each is silent, and what it waits for.

A client is listed from its registration until it leaves or is evicted, also while it has no
connection. Its columns are its number, its peer's address, how long its connection has been open,
how long ago something last came from it, how long its lease still runs, and what it waits for.")]
    Clients(PageOptions),
    /// Ask whether a server is alive or ready: the exit status is the answer
    #[command(long_about = "\
Ask whether a server is alive or ready: the exit status is the answer.

It is 0 if the server is, and 1 if not, or if the server gives no answer within five seconds. A
server that stands by, or waits for reports of clients, is alive and not ready.")]
    Health {
        #[command(flatten)]
        port: PortOptions,
        /// Ask whether it answers clients' requests, and not only whether its loop runs
        #[arg(long)]
        ready: bool,
    },
    /// Print who holds which slots of a range, in which mode, and who waits there
    #[command(long_about = "\
Print who holds which slots of a range, in which mode, and who waits there.

A slot is the key of a row and the gap below it; the last slot has the gap after all rows. Without
a range it prints the whole table.")]
    Locks(LocksOptions),
    /// Evict a client whose process is dead
    #[command(long_about = "\
Evict a client whose process is dead.

What the client held is then free, and a server that starts again does not wait for it. A client
that has a lease is evicted when that ends, and the server does so by itself: this command waits for
it, a minute at most. A client without one is evicted at once. Do so only when its process is dead,
not when it is silent: one that still runs would continue to answer from its cache with outdated
rows.")]
    Evict {
        /// Where the server listens: 127.0.0.1:7400, tls:10.0.0.5:7400, or unix: and a path
        address: String,
        #[command(flatten)]
        tls: TlsOptions,
        /// The client's number
        #[arg(value_parser = clap::value_parser!(u8).range(0..64))]
        number: u8,
        /// The client's lock file, or a new file if that is lost
        lock_file: PathBuf,
        /// The shard that the server serves, as in its own --shard, if it serves one
        #[arg(long, value_name = "SHARD")]
        shard: Option<krl::store::ShardBounds>,
    },
    /// Have a running server copy its store into a new file
    Backup {
        /// The server's status port, such as 127.0.0.1:7401
        address: String,
        #[command(flatten)]
        tls: TlsOptions,
        /// The new file. The server makes it, with the rights of the server's process
        file: PathBuf,
    },
    /// Make a new store from a backup, on which a server serves at once
    #[command(long_about = "\
Make a new store from a backup, on which a server serves at once.

What was written after the backup is lost. All clients have to be stopped before: one that still
runs may know of writes that the backup does not have, and would continue to answer from its cache
with outdated rows. In the new store each client counts as left, so the server waits for nobody, and
the epoch is 4294967296 greater than in the backup, so that no client has seen it.

If it is killed, repeat it.")]
    Restore {
        /// The backup. It is only read, and no server may run on it
        file: PathBuf,
        /// The new store: a file; a place in a cluster, such as <etcd://10.0.0.1:2379/krl/orders>;
        /// or a database, such as <postgres://krl@10.0.0.1/orders?sslmode=verify-full>. What exists
        /// is never replaced
        #[arg(long, value_name = "NEW")]
        store: StorePlace,
        /// Every client's process has ended
        #[arg(long)]
        clients_are_stopped: bool,
    },
    /// Cut a store in two at a key, for two servers
    #[command(long_about = "\
Cut a store in two at a key, for two servers.

The rows from the key on move to the new store, and the rows below it stay. Both keep the epoch, and
what is known of clients. No server may run on the store, and each client has to have left: one that
has not is named. Then start a server on each of the two, and give all clients a map of both.

If it is killed, repeat it with the same arguments, and remove no file: the new store may have the
only copy of the rows that moved. It continues whether the new store is missing, has a copy of the
rows that move, or has their only copy; and if it had ended, it changes nothing.")]
    Split {
        /// The store
        store: PathBuf,
        /// The first key that moves
        #[arg(value_parser = super::reshard::cut)]
        at: u64,
        /// The new store. What exists is never replaced
        new_store: PathBuf,
        /// Make the new store even if no row moves to it
        #[arg(long)]
        allow_empty: bool,
        #[command(flatten)]
        map: SplitMap,
    },
    /// Make one new store of two neighboring ones
    #[command(long_about = "\
Make one new store of two neighboring ones.

The two are only read. The keys of the lower one have to lie below all keys of the upper one, and
each client has to have left both. The new store has the greater epoch of the two. Serve it in place
of both: a server on one of them would show rows that no longer change.

If it is killed, repeat it with the same arguments.")]
    Merge {
        /// The store with the lower keys
        lower: PathBuf,
        /// The store with the greater keys
        upper: PathBuf,
        /// The new store. What exists is never replaced
        new_store: PathBuf,
        #[command(flatten)]
        map: MergeMap,
    },
    /// Cut, merge or move shards while the table serves
    #[command(long_about = "\
Cut, merge or move shards while the table serves.

The next map takes the place of the file --map, which clients follow. They leave the shards that
change, and their calls there wait. When all have left, the servers of these shards are stopped by
--stop, the stores are changed, and the servers are started again by --start and --start-new. All other
servers and their clients continue. A store is a file of SQLite, or in etcd or PostgreSQL, as for serve.

If it is killed, repeat it with the same arguments: it continues where it was, whatever ran since. Until
then other changes of the same shards are refused. With --undo it is given up, unless a store has
changed. If it fails, as it does when clients have not left within --wait seconds, it takes back what it
did, unless a store has changed: the map has the shards before, by a greater version, and --start starts
the old servers.")]
    Reshard {
        #[command(subcommand)]
        change: Box<LiveChange>,
    },
    /// Put the map of a table into etcd or PostgreSQL, or follow it from there
    #[command(long_about = "\
Put the map of a table into etcd or PostgreSQL, or follow it from there.

Where a map is for many machines, reshard gives each next one to its home by --publish 'krl-server map
put HOME \"$KRL_MAP\"', and on each machine krl-server map follow HOME FILE keeps a file, which its
servers and clients follow. A map takes only the place of one of a lesser version, and in --publish only
that of the one that reshard replaces.")]
    Map {
        #[command(subcommand)]
        command: MapCommand,
    },
    /// Write the rows of a CSV or JSON Lines file to a store that no server serves
    #[command(long_about = "\
Write the rows of a CSV or JSON Lines file to a store that no server serves.

All rows are written, or none. A SQLite file that exists keeps its other rows; no server may run on
it, and each client has to have left: one that has not is named. A store that is missing is made. If
it is killed, repeat it: if the store has all rows of the file, it changes nothing. While a server
serves the store, krl-client import does the same, row by row.")]
    Import {
        /// The file, or - for standard input: JSON Lines if its name ends in .jsonl, .ndjson or
        /// .json, otherwise CSV
        file: PathBuf,
        /// The store: a file of SQLite, which is made if there is none; a new place in a cluster,
        /// such as <etcd://10.0.0.1:2379/krl/orders>; or a database that has no table yet, such as
        /// <postgres://krl@10.0.0.1/orders?sslmode=verify-full>
        #[arg(long, value_name = "STORE")]
        store: StorePlace,
        /// What to do with a row whose key has a row in the store already
        #[arg(long, value_enum, default_value = "refuse")]
        existing: Existing,
        /// The file is JSON Lines, whatever its name is
        #[arg(long)]
        json: bool,
    },
    /// Print the rows of a store or a backup as CSV, or as JSON Lines
    #[command(long_about = "\
Print the rows of a store or a backup as CSV, or as JSON Lines.

No server may run on it. While one does, krl-client export does the same.")]
    Export {
        /// The store or the backup, a file of SQLite. It is only read
        file: PathBuf,
        /// Print JSON Lines
        #[arg(long)]
        json: bool,
    },
    /// Show what a store holds, and whether a server can start on it; or until when certificates
    /// last
    #[command(long_about = "\
Show what a store holds, and whether a server can start on it; or until when certificates last.

It compares the checksum of a backup, or of another store that no server has served since it was
made. The exit status is 1 if no server can start on the store, if it is damaged, or if a
certificate is not valid now and for --days more days.")]
    Check {
        /// The store, which no server may run on; or a file of certificates, as PEM. It is only
        /// read
        file: PathBuf,
        /// How many days from now certificates have to be valid
        #[arg(long, default_value_t = 0)]
        days: u32,
    },
    /// Print a script by which a shell completes commands and options of krl-server
    Completion {
        /// The shell
        shell: Shell,
    },
}
