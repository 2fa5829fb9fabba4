//! The settings of a server, and where each comes from.
mod access;
pub mod credentials;
mod given;
pub mod key;
mod options;
mod status_port;
mod store_place;
mod tls_files;
pub mod value;

pub use access::AccessSettings;
pub use given::Given;
pub use key::Key;
pub use options::{ServeOptions, TlsOptions};
pub use status_port::StatusPort;
pub use store_place::StorePlace;
pub use value::{Drift, LeaseLength, LogFormat, StatusAddress};

use krl::Address;
use krl::operate::{Reach, Room};
use krl::store::{LogWrites, ShardBounds};
use krl_etcd::Credentials;
use std::fmt;
use std::path::PathBuf;
use std::time::Duration;
use tracing::level_filters::LevelFilter;

/// Where a text comes from.
#[derive(Clone, Debug)]
pub enum Source {
    /// The flag of this setting.
    Flag(&'static Key),
    /// Its variable.
    Environment(&'static Key),
    File(PathBuf),
    Default,
}

/// All settings of a server.
#[derive(Debug)]
pub struct Settings {
    given: Given,
    pub listen: Address,
    pub access: AccessSettings,
    pub store: StorePlace,
    pub store_writes: LogWrites,
    /// Whether a store that holds nothing may be served.
    pub may_make_store: bool,
    /// What is shown to a cluster.
    pub credentials: Credentials,
    pub room: Option<Room>,
    pub reach: Reach,
    pub shard: Option<ShardBounds>,
    pub map: Option<StorePlace>,
    pub advertise: Option<Address>,
    pub election_lease: Duration,
    pub status: StatusAddress,
    others: Vec<String>,
    pub log_level: LevelFilter,
    pub log_format: LogFormat,
    pub lease: LeaseLength,
    pub drift: Drift,
}

/// A setting that can't be used: a sentence for the operator.
#[derive(Debug, PartialEq, Eq)]
pub struct BadSetting(pub String);

impl Settings {
    /// The settings of these options.
    pub fn of(options: &ServeOptions) -> Result<Settings, BadSetting> {
        let given = options.flags.given.clone();
        let given = match &options.config {
            Some(path) => given.with_file(path)?,
            None => given,
        };
        let settings = Settings {
            access: AccessSettings::of(&given)?,
            listen: given.value(&key::LISTEN, value::parsed)?,
            store: given.judged(&key::STORE, |text| {
                text.parse().map_err(|why: String| format!(": {why}"))
            })?,
            store_writes: given.value(&key::STORE_WRITES, value::parse_log_writes)?,
            may_make_store: given.value(&key::CREATE, value::parse_yes_no)?,
            credentials: credentials::of(|key| given.path(key)),
            room: given.optional(&key::ROOM, value::parsed)?,
            reach: given.value(&key::REACH, value::parsed)?,
            shard: given.optional(&key::SHARD, value::parsed)?,
            map: given.optional(&key::MAP, value::parsed)?,
            advertise: given.optional(&key::ADVERTISE, value::parsed)?,
            election_lease: given.value(&key::ELECTION_LEASE, value::parse_seconds)?,
            status: given.value(&key::STATUS, value::parse_status)?,
            others: given.value(&key::OTHERS, value::parse_others)?,
            log_level: given.value(&key::LOG_LEVEL, value::parse_level)?,
            log_format: given.value(&key::LOG_FORMAT, value::parse_format)?,
            lease: given.value(&key::LEASE, value::parse_lease)?,
            drift: given.value(&key::DRIFT, value::parse_drift)?,
            given,
        };
        settings.check()?;
        Ok(settings)
    }

    /// Refuses settings that are dangerous and were not allowed explicitly.
    fn check(&self) -> Result<(), BadSetting> {
        self.access.check(key::LISTEN.name, &self.listen)?;
        self.access.check_users(&self.listen)?;
        if let StatusAddress::At(address) = &self.status {
            self.access.check(key::STATUS.name, address)?;
        }
        self.others().map(drop)
    }

    /// The status ports of the other servers. One of TLS is shown what this server's clients are.
    pub fn others(&self) -> Result<Vec<StatusPort>, BadSetting> {
        let named = |error| BadSetting(format!("{}: {error}", key::OTHERS.name));
        let port = |address| StatusPort::new(address, || self.access.tls()).map_err(named);
        self.others.iter().map(String::as_str).map(port).collect()
    }

    /// Whether an equivalent file has a line of this setting. A file can't express that a setting
    /// is left out.
    fn has_line(&self, key: &Key) -> bool {
        let (text, _) = self.given.text(key);
        let is_left_out = text.is_empty() || key.kind == key::Kind::YesNo && text == "no";
        key.is_in_files() && self.counts(key) && !is_left_out
    }

    /// Whether the setting counts over this store. Only servers over a cluster elect one of them,
    /// and only a file of SQLite has its log.
    fn counts(&self, key: &Key) -> bool {
        if [key::ADVERTISE.name, key::ELECTION_LEASE.name].contains(&key.name) {
            return matches!(self.store, StorePlace::Etcd(_));
        }
        key.name != key::STORE_WRITES.name || matches!(self.store, StorePlace::File(_))
    }
}

impl fmt::Display for Source {
    fn fmt(&self, f: &mut fmt::Formatter<'_>) -> fmt::Result {
        match self {
            Source::Flag(key) => write!(f, "from the flag {}", key.flag()),
            Source::Environment(key) => write!(f, "from the environment, {}", key.variable()),
            Source::File(path) => write!(f, "from the file {}", path.display()),
            Source::Default => f.write_str("by default"),
        }
    }
}

impl fmt::Display for BadSetting {
    fn fmt(&self, f: &mut fmt::Formatter<'_>) -> fmt::Result {
        f.write_str(&self.0)
    }
}

impl std::error::Error for BadSetting {}

/// The settings as an equivalent configuration file, each with a comment on where it comes from.
impl fmt::Display for Settings {
    fn fmt(&self, f: &mut fmt::Formatter<'_>) -> fmt::Result {
        let mut keys = key::ALL.iter().filter(|key| self.has_line(key));
        keys.try_for_each(|key| f.write_str(&self.given.line(key)))
    }
}
