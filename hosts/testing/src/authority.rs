//! An authority of certificates for the machines of a database.
use crate::certificates::{self, Files};
use std::path::PathBuf;
use std::sync::atomic::{AtomicU32, Ordering};

/// An authority with a certificate for a node at 127.0.0.1, and one for a client. Its files are gone
/// with this.
#[derive(Debug)]
pub struct Authority {
    folder: PathBuf,
    node: Files,
    client: Files,
}

static COUNT: AtomicU32 = AtomicU32::new(0);

const DAYS: i64 = 2;

impl Authority {
    /// A new authority.
    pub fn make() -> Authority {
        let count = COUNT.fetch_add(1, Ordering::Relaxed);
        let name = format!("krl-authority-{}-{count}", std::process::id());
        let folder = std::env::temp_dir().join(name);
        std::fs::create_dir_all(&folder).unwrap();
        let authority = certificates::Authority::new("authority");
        let certify = || authority.certify(&folder, &["IP:127.0.0.1"], DAYS);
        let [node, client] = [certify(), certify()];
        Authority { folder, node, client }
    }

    /// Its own certificate.
    pub fn certificate(&self) -> PathBuf {
        self.node.authority.clone()
    }

    /// The certificate of the node, and its key.
    pub fn node(&self) -> (PathBuf, PathBuf) {
        (self.node.certificate.clone(), self.node.key.clone())
    }

    /// The certificate of the client, and its key.
    pub fn client(&self) -> (PathBuf, PathBuf) {
        (self.client.certificate.clone(), self.client.key.clone())
    }
}

impl Drop for Authority {
    fn drop(&mut self) {
        let _ = std::fs::remove_dir_all(&self.folder);
    }
}
