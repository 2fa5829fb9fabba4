//! A server over SQLite, in a process of its own, which is killed and starts again over its store.
use crate::clients::{ENDING, Process, this};
use crate::nodes::store_file;
use crate::waiting::until;
use krl::SqliteStore;
use krl::store::{Snapshot, Store};
use std::error::Error;
use std::net::{SocketAddr, TcpStream};
use std::path::{Path, PathBuf};

type Done<T = ()> = Result<T, Box<dyn Error>>;

/// How an address of TLS begins.
pub const TLS: &str = "tls:";

pub struct Server {
    folder: PathBuf,
    address: String,
    store: String,
    /// In milliseconds. It has no leases if it is 0.
    lease: u64,
    pub process: Process,
}

impl Server {
    /// Starts a server with a store of this kind in the folder, and waits until it takes connections.
    pub fn start(folder: &Path, address: &str, store: &str, lease: u64) -> Done<Server> {
        std::fs::create_dir_all(folder)?;
        let mut command = this(&["server", address], folder)?;
        let process = Process::start(command.arg(store).arg(lease.to_string()))?;
        wait_for_server(address.trim_start_matches(TLS).parse()?)?;
        let (folder, address, store) = (folder.into(), address.into(), store.into());
        Ok(Server { folder, address, store, lease, process })
    }

    /// Where it listens.
    pub fn address(&self) -> &str {
        &self.address
    }

    /// Starts it again, after it was killed.
    pub fn start_again(&mut self) -> Done {
        *self = Server::start(&self.folder, &self.address, &self.store, self.lease)?;
        Ok(())
    }

    /// Kills it, and returns what it has kept.
    pub fn end(&mut self) -> Done<Snapshot> {
        self.process.kill()?;
        Ok(SqliteStore::open(store_file(&self.folder))?.load()?)
    }
}

/// Waits until a server takes connections.
fn wait_for_server(at: SocketAddr) -> Done {
    let look = || Ok(TcpStream::connect(at).ok().map(drop));
    until(ENDING, "the server does not come up", look)
}
