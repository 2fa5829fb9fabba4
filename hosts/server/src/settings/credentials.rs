//! What is shown to a database.
use super::{Key, key};
use krl_etcd::Credentials;
use std::path::PathBuf;

/// What is shown to a cluster: the files of these settings, as far as they are named.
pub fn of(path: impl Fn(&Key) -> Option<PathBuf>) -> Credentials {
    Credentials {
        user: user(),
        authority: path(&key::STORE_AUTHORITY),
        certificate: path(&key::STORE_CERTIFICATE).zip(path(&key::STORE_KEY)),
    }
}

/// The same of a command that takes no settings.
pub fn of_environment() -> Credentials {
    of(|key| std::env::var_os(key.variable()).map(PathBuf::from))
}

/// The store's user and the password, which appear in no command line and no file.
pub fn user() -> Option<(String, String)> {
    let password = std::env::var("KRL_STORE_PASSWORD").unwrap_or_default();
    std::env::var("KRL_STORE_USER").ok().map(|user| (user, password))
}
