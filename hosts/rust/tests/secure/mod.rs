//! A server by TLS, and clients of it, for tests.
#![allow(dead_code, reason = "each test uses a part of it")]
use krl::operate::Status;
use krl::{Access, Address, Client, JoinError, Listener, MemoryStore, Server, Servers, TlsConfig};
use krl_testing::certificates::{Authority, Files};
use std::net::SocketAddr;
use std::path::PathBuf;
use std::thread;
use std::time::Duration;

/// An authority, and a folder for what it certifies and for lock files.
pub struct Setup {
    pub folder: PathBuf,
    authority: Authority,
}

impl Setup {
    pub fn new(name: &str) -> Setup {
        let folder = std::env::temp_dir().join(format!("krl-tls-{}-{name}", std::process::id()));
        std::fs::create_dir_all(&folder).unwrap();
        Setup { folder, authority: Authority::new(name) }
    }

    /// The files of a holder of these names.
    pub fn certify(&self, names: &[&str]) -> Files {
        self.authority.certify(&self.folder, names, 5)
    }

    /// The same, valid for this many days.
    pub fn certify_for(&self, names: &[&str], days: i64) -> Files {
        self.authority.certify(&self.folder, names, days)
    }

    /// What a holder of these names shows.
    pub fn config(&self, names: &[&str]) -> TlsConfig {
        self.config_for(names, 5)
    }

    /// The same, valid for this many days.
    pub fn config_for(&self, names: &[&str], days: i64) -> TlsConfig {
        config(&self.certify_for(names, days))
    }

    /// One that the other authority certified, and that believes this one.
    pub fn believing(&self, other: &Setup, names: &[&str], days: i64) -> TlsConfig {
        config(&other.authority.certify_for(&self.authority, &self.folder, names, days))
    }

    pub fn lock(&self, number: u8) -> PathBuf {
        self.folder.join(format!("client-{number}.lock"))
    }

    pub fn join(
        &self,
        server: &Server,
        config: &TlsConfig,
        number: u8,
    ) -> Result<Client, JoinError> {
        Client::join(servers(server, config), number, self.lock(number))
    }
}

impl Drop for Setup {
    fn drop(&mut self) {
        let _ = std::fs::remove_dir_all(&self.folder);
    }
}

fn config(files: &Files) -> TlsConfig {
    TlsConfig::from_files(&files.authority, &files.certificate, &files.key).unwrap()
}

/// The server, and what is shown to it.
pub fn servers(server: &Server, config: &TlsConfig) -> Servers {
    Servers::from(server.address()).with_tls(config.clone())
}

/// A server that shows the certificate of a server.
pub fn serve(setup: &Setup) -> Server {
    serve_with(&setup.config(&["krl:server"]))
}

/// A server that shows this.
pub fn serve_with(shown: &TlsConfig) -> Server {
    let listener = Listener::bind(&"tls:127.0.0.1:0".parse().unwrap()).unwrap();
    let access = Access::new().tls(shown.clone());
    Server::builder(listener, MemoryStore::default()).access(access).start().unwrap()
}

/// What a server looks like when all that it has received is shown.
pub fn settled(server: &Server) -> Status {
    thread::sleep(Duration::from_millis(100));
    server.status()
}

/// Where a server listens by TLS.
pub fn at(server: &Server) -> SocketAddr {
    let Address::Tls(at) = *server.address() else { panic!("it listens elsewhere") };
    at
}
