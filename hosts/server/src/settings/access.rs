//! The settings of whom a server lets in.
use super::tls_files::{self, TlsFiles};
use super::{BadSetting, Given, key, value};
use krl::{Access, Address, Identity, TlsConfig};

/// Whom a server lets in, and what it shows them.
#[derive(Debug)]
pub struct AccessSettings {
    tls: TlsFiles,
    users: Vec<(u32, Identity)>,
    /// Whether other machines may connect by plain TCP.
    lets_in_by_plain: bool,
}

impl AccessSettings {
    pub(super) fn of(given: &Given) -> Result<AccessSettings, BadSetting> {
        Ok(AccessSettings {
            tls: TlsFiles::of(given)?,
            users: given.value(&key::USERS, value::parse_users)?,
            lets_in_by_plain: given.value(&key::PLAIN, value::parse_yes_no)?,
        })
    }

    /// Refuses an address of plain TCP beyond the loopback that is not allowed, and one of TLS
    /// without certificates.
    pub(super) fn check(&self, name: &str, address: &Address) -> Result<(), BadSetting> {
        if address.is_tls() && !self.tls.are_named() {
            let needed = tls_files::all_are_needed();
            return Err(BadSetting(format!("{name} is '{address}', and {needed}")));
        }
        if !address.is_plain_beyond_loopback() || self.lets_in_by_plain {
            return Ok(());
        }
        Err(BadSetting(format!(
            "{name} is '{address}', which other machines reach, and whoever can connect there can \
             speak for any client: use an address that begins with tls:, or give {}",
            key::PLAIN.flag()
        )))
    }

    /// Refuses users that no address lets in: the system identifies them over a Unix socket only.
    pub(super) fn check_users(&self, listen: &Address) -> Result<(), BadSetting> {
        if self.users.is_empty() || matches!(listen, Address::Unix(_)) {
            return Ok(());
        }
        Err(BadSetting(format!(
            "{} counts only if {} is an address that begins with unix:, and it is '{listen}'",
            key::USERS.name,
            key::LISTEN.name
        )))
    }

    /// What the server shows by TLS, if it shows anything. Clients have to believe it now.
    pub fn tls(&self) -> Result<Option<TlsConfig>, BadSetting> {
        let for_server =
            |read: TlsConfig| read.for_server().map_err(|error| BadSetting(error.to_string()));
        self.tls.clone().read()?.map(for_server).transpose()
    }

    /// Whom a server lets in that shows this by TLS.
    pub fn access(&self, tls: Option<&TlsConfig>) -> Access {
        let mut access = Access::new();
        if let Some(config) = tls {
            access = access.tls(config.clone());
        }
        for (user, identity) in &self.users {
            access = access.user(*user, *identity);
        }
        if self.lets_in_by_plain { access.allow_plain_beyond_loopback() } else { access }
    }
}
